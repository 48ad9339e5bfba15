"""Commands that need the standard library alone, and what `./smv` asks beside commands."""
from __future__ import annotations

import sys
from collections.abc import Sequence

from .help import on_command, run
from .calls import Call
from .screen import put, tell
from .statuses import CLEAR, USAGE, Stop
from .words import Command, commands
from .wrong_words import Sorted, wrong_of_program


def run_plain(command: Command, words: Sequence[str]) -> int:
    """Runs `help`."""
    if words[:1] in (["--help"], ["-h"]):
        put(on_command(command).encode())
        return CLEAR
    found = Sorted(command, words)
    try:
        if found.wrong:
            raise Stop(found.wrong, USAGE)
        return run(Call(command, found.operands))
    except Stop as stop:
        tell(str(stop))
        return stop.status


def main(words: Sequence[str]) -> int:
    """`wrong WORD..` names what is wrong with words; `modules` lists the commands that are run by these tools."""
    asked, *rest = words
    if asked == "wrong":
        tell(wrong_of_program(rest))
    elif asked == "modules":
        put("".join(f"{it.name}\n" for it in commands().values() if it.module).encode())
    return CLEAR


if __name__ == "__main__":
    sys.exit(main(sys.argv[1:]))
