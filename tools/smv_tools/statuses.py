"""Exit statuses: those of the program (docs/FORMATS.md), and those of the tools beside it."""

CLEAR = 0
FAILED = 1
UNDECIDED = 2
REFUSED = 3
OUTSIDE = 4
USAGE = 5
MEMORY = 6
PROOF_REFUSED = 7

# There is nothing to show, or no program to run.
NOTHING = 70
# The check has to be run as one.
AS_ONE = 75
# The words are none of the tools' commands.
NO_COMMAND = 127

DECIDED = (CLEAR, FAILED, UNDECIDED)
# Of these the program's answer is one line, and no report.
ONE_LINE = (REFUSED, OUTSIDE, USAGE, MEMORY, PROOF_REFUSED)


class Stop(Exception):
    """Why a command ends, for a line on standard error, with its exit status."""

    def __init__(self, text: str, status: int = NOTHING) -> None:
        super().__init__(text)
        self.status = status
