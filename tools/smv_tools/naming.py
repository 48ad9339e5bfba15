"""Names of specifications in the words of `delay` and `strong`: `python3 -m smv_tools.naming WORD..` puts the words for the
shell with numbers in place of the names. Where the text can't be read the number is 1, and the program says why."""
from __future__ import annotations

import shlex
import sys
from collections.abc import Sequence

from .marks import number_of
from .model import Model, Unreadable
from .screen import put, tell
from .source import Source
from .statuses import CLEAR, OUTSIDE, Stop
from .words import commands
from .wrong_words import Sorted

ANY = "1"


def numbered(model: Model | None, word: str) -> str:
    """The word with a number in place of each name; a pair has a colon between two."""
    if model is None:
        return ":".join(ANY for _ in word.split(":"))
    return ":".join(str(number_of(model, it)) for it in word.split(":"))


def read(path: str) -> Model | None:
    try:
        return Model.of(Source.load(path))
    except Unreadable:
        return None
    except Stop as stop:
        if stop.status == OUTSIDE:
            return None
        raise


def resolved(words: Sequence[str]) -> list[str]:
    """The words with numbers; as they are where they are no call of the command."""
    found = Sorted(commands()[words[0]], words[1:])
    if found.wrong or len(found.operands) < 2:
        return list(words)
    path, *names = found.operands
    if words[0] == "strong" and any(name.count(":") != 1 for name in names):
        return list(words)
    model = read(path)
    options = [it for option, value in found.options for it in (option.name, value)]
    return [words[0], *options, "--", path, *(numbered(model, it) for it in names)]


def main(words: Sequence[str]) -> int:
    try:
        put((" ".join(map(shlex.quote, resolved(words))) + "\n").encode(errors="surrogateescape"))
        return CLEAR
    except Stop as stop:
        tell(str(stop))
        return stop.status


if __name__ == "__main__":
    sys.setrecursionlimit(20_000)
    sys.exit(main(sys.argv[1:]))
