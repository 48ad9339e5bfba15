"""All mistakes of a text: the first is mended in a copy, and the program is asked of that."""
from __future__ import annotations

import time
from dataclasses import dataclass, field, replace

from ..program import Program
from ..refusals import Refusal
from ..source import Source
from .finding import OF_TEXT, finding_of
from .marks import Edit, Finding, Mark, before_edits, edited, lines_of

MOST = 20
# Further mistakes are sought so long.
PATIENCE = 10.0


@dataclass
class Mistake:
    """A refusal with what is told of it: its marks are places of the file, `written` the lines to write instead."""

    refusal: Refusal
    finding: Finding
    written: list[tuple[int, str]] = field(default_factory=list)


@dataclass
class Mistakes:
    """The mistakes in the order in which the program tells them. `clear`: the copy with all mends breaks no rule; None where
    that wasn't asked to the end. `passed`: something was taken away, so that of the rest only the syntax was looked at."""

    found: list[Mistake]
    clear: bool | None
    copy: Source
    passed: bool = False


class Asked:
    """What the program refuses a text for."""

    def __init__(self, program: Program, nodes: list[str]) -> None:
        self.program, self.nodes = program, nodes

    def rules(self, data: bytes) -> Refusal | None:
        """By E1 to E22: with this limit nothing else is looked at."""
        return self.program.on_text(data, options=["--nodes", "1"]).refusal

    def all(self, data: bytes) -> tuple[Refusal | None, bool]:
        """By E1 to E23, and whether the answer is whole. An empty proof file has the steps made, and no specification tried."""
        found = self.rules(data)
        if found is not None:
            return found, True
        ended = self.program.on_text(data, "recheck", ["proof"], self.nodes, {"proof": b""}, seconds=PATIENCE)
        refusal = ended.refusal
        if refusal is not None and refusal.code == "E23":
            return refusal, True
        return None, refusal is not None


def goes_on(old: Refusal, place: Finding, new: Refusal | None, new_place: Finding) -> bool:
    """Whether the mend took the mistake away: the next one is another."""
    if new is None or new.code != old.code and int(new.code[1:]) > int(old.code[1:]):
        return True
    if new.code != old.code:
        return old.code in ("E1", "E2") and new.code in ("E1", "E2", "E4", "E5")
    if (new.line or 0) != (old.line or 0) or new.words != old.words:
        return new.code not in ("E1", "E2", "E4", "E5") or (new.line or 0) > (old.line or 0)
    marks = new_place.marks
    return bool(marks and place.marks) and before_edits(marks[0].first, place.edits) > place.marks[0].first


def in_file(finding: Finding, history: list[list[Edit]]) -> Finding:
    """The finding with its marks as places of the file."""
    def back(place: int) -> int:
        for edits in reversed(history):
            place = before_edits(place, edits)
        return place

    marks = [Mark(back(it.first), max(back(it.behind), back(it.first)), it.note) for it in finding.marks]
    return replace(finding, marks=marks)


def mistakes_of(source: Source, refusal: Refusal, asked: Asked) -> Mistakes:
    """The mistakes of a text that the program refuses so, as far as each can be mended."""
    found: list[Mistake] = []
    history: list[list[Edit]] = []
    text, begun, passed = source, time.monotonic(), False
    finding = finding_of(text, refusal, asked.rules)
    while True:
        mistake = Mistake(refusal, in_file(finding, history))
        found.append(mistake)
        edits = finding.edits or finding.passed
        if not edits:
            return Mistakes(found, False, text, passed)
        changed = Source(edited(text.text, edits).encode("latin-1"), source.path)
        passed = passed or not finding.edits
        after, whole = (asked.rules(changed.data), True) if passed else asked.all(changed.data)
        following = finding_of(changed, after, asked.rules) if after is not None else Finding()
        if not goes_on(refusal, replace(finding, edits=edits), after, following):
            return Mistakes(found, False, text, passed)
        if finding.edits:
            mistake.written = [(line, changed.line(line)) for line in lines_of(text, edits)]
        history.append(edits)
        text = changed
        if after is None or passed and after.code not in OF_TEXT:
            return Mistakes(found, not passed if whole else None, text, passed)
        if len(found) == MOST or time.monotonic() - begun > PATIENCE:
            return Mistakes(found, None, text)
        refusal, finding = after, following
