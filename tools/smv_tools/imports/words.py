"""The command `import` for the table of commands."""
from ..words import Command, Operand, Option

COMMANDS = (
    Command(
        "import", "rewrite a text of NuSMV or CMU SMV into the checker's language, and tell each change",
        (Operand("FILE", "model"),),
        (Option("--out", "OUT", "write the text there; else it is put", "file", short="-o"),
         Option("--from", "LANGUAGE", "the language of the text: nusmv or cmu", choices=("nusmv", "cmu"))),
        "Each change is told on standard error with its line in FILE: what was rewritten, what means something else without "
        "being refused (note), what was left out or isn't rewritten. A text that has only the checker's forms is put as it is; "
        "with --from its expressions are grouped as that language groups them. The status is 0 where all was rewritten, 1 where "
        "something was left out or isn't rewritten, and 3 where the text can't be read.",
        "smv import mutex.smv -o mutex_here.smv", "imports.command", needs_build=False,
    ),
)
