"""The command `fmt` for the table of commands."""
from ..words import Command, Operand, Option

COMMANDS = (
    Command(
        "fmt", "lay out models as the examples are: white space alone changes", (Operand("FILE", "model", many=True),),
        (Option("--check", "", "change nothing: put the name of each file that would change, and end with 1 where there is one"),),
        "Writes each file again where its layout changes, and tells its name on standard error. Tokens and comments stay as they "
        "are, and so does the end of each line, but for white space: spaces and indentation are set, a section, a member of a "
        "section of several lines and an arm of a `case` of several lines begin a line, and of several empty lines one is left. "
        "The file - is standard input, and its layout is put on standard output. A text that is no program is left as it is, is "
        "told with line and column, and the status is 3.",
        "smv fmt examples/swap.smv", "layout.command", needs_build=False, needs=("click",),
    ),
)
