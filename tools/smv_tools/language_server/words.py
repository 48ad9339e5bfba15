"""The commands `lsp` and `diagnose` for the table of commands."""
from ..words import NODES, Command, Operand, Option

SECONDS = Option("--seconds", "N", "the time of one check, 60 seconds where none is asked", "number")

COMMANDS = (
    Command(
        "lsp", "a language server for editors, over standard input and output", (), (NODES, SECONDS),
        "An editor starts it and speaks the Language Server Protocol with it: what is refused, what is false and its path when a "
        "file is opened and saved, what a name is and where it stands, names to choose from, a file's outline, its layout. "
        "docs/EDITORS.md says how each editor starts it.",
        "smv lsp", "language_server.command", needs=("click",),
    ),
    Command(
        "diagnose", "what is refused or false in models, as lines FILE:LINE:COLUMN: for editors", (Operand("FILE", "model", many=True),),
        (NODES, SECONDS),
        "Puts a line for each refusal, false specification and undecided one, with the very place and `error`, `warning` or "
        "`note`, as compilers do, so that an editor can go there. The status is the greatest of those of `check`.",
        "smv diagnose examples/peterson.smv", "language_server.diagnose", needs=("click",),
    ),
)
