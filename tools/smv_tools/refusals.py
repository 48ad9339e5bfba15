"""The program's one-line answers: refusals, faults of the outside, and undecided ones."""
from __future__ import annotations

import re
from dataclasses import dataclass, field

from .report import value_of
from .syntax import Value

REFUSED = re.compile(r"refused ([EPQ]\d+)(?: line (\d+))?(?: (.*))?\n?")
FAULT = re.compile(r"fault (load|save) (missing|failed)\n?")
VALUE = re.compile(r"([^ =]+)=([^ ]+)")


@dataclass(frozen=True)
class Refusal:
    """A refusal line: the code, the line, the words behind it. Of E23 the kind, and the values at the state and the next one."""

    code: str
    line: int | None
    words: tuple[str, ...] = ()
    kind: str = ""
    now: dict[str, Value] = field(default_factory=dict)
    after: dict[str, Value] = field(default_factory=dict)


def refusal_of(data: bytes) -> Refusal | None:
    """The refusal that the program put; None where it put something else."""
    found = REFUSED.fullmatch(data.decode(errors="replace"))
    if not found:
        return None
    words = tuple((found[3] or "").split())
    now: dict[str, Value] = {}
    after: dict[str, Value] = {}
    if found[1] == "E23":
        for word in words[1:]:
            name, _, value = word.rpartition("=")
            if name.startswith("next("):
                after[name.removeprefix("next(").removesuffix(")")] = value_of(value)
            else:
                now[name] = value_of(value)
    kind = words[0] if found[1] == "E23" and words else ""
    return Refusal(found[1], int(found[2]) if found[2] else None, words, kind, now, after)
