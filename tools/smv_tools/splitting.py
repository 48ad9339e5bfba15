"""A model cut for several runs: over copies of its text in which the sections SPEC of all lines but one are blank, so that
lines stay. The report that is put together from theirs is byte for byte that of one run.

For that the program tries each specification from the diagrams of the relation alone. But it makes these once, together with
a search for faults in all specifications, and one that meets the node limit leaves all of them unknown. So a run stands
before the others, over a copy with `INVAR 0` in main: without a step all specifications are decided at once, where the search
has room."""
from __future__ import annotations

import re
from collections.abc import Mapping, Sequence
from dataclasses import dataclass, replace

from .report import Report, Verdict
from .source import Source
from .tokens import SECTIONS, LexFault, Token, tokens_of

HEADS = (*SECTIONS, "MODULE")


class AsOne(Exception):
    """The check has to be run as one. The text says why, where the program's answer doesn't."""


@dataclass(frozen=True)
class Section:
    """A section SPEC: the line of its word, its first byte, and the place behind its last token."""

    line: int
    first: int
    behind: int


class Split:
    """A text with its sections SPEC."""

    def __init__(self, source: Source) -> None:
        self.source = source
        try:
            self.tokens: list[Token] = tokens_of(source)
        except LexFault:
            raise AsOne from None
        begins = [k for k, token in enumerate(self.tokens) if token.text in HEADS]
        self.sections = [
            Section(self.tokens[k].line, self.tokens[k].at, self.tokens[behind - 1].behind)
            for k, behind in zip(begins, [*begins[1:], len(self.tokens)]) if self.tokens[k].text == "SPEC"
        ]

    def only(self, line: int) -> bytes:
        """The text with the sections SPEC of this line alone."""
        text, parts, at = self.source.text, list[str](), 0
        for it in self.sections:
            if it.line != line:
                parts += [text[at:it.first], re.sub(r"[^\n]", " ", text[it.first:it.behind])]
                at = it.behind
        return "".join([*parts, text[at:]]).encode("latin-1")

    def without_steps(self) -> bytes:
        """The text with `INVAR 0` as the first section of main."""
        words = [token.text for token in self.tokens]
        for k in range(len(words) - 1):
            if words[k:k + 2] == ["MODULE", "main"]:
                at = self.tokens[k + 3 if words[k + 2:k + 4] == ["(", ")"] else k + 1].behind
                return (self.source.text[:at] + " INVAR 0 " + self.source.text[at:]).encode("latin-1")
        raise AsOne


def lines_of(without_steps: Report) -> list[int]:
    """The line of each specification, by the report of the text without steps, where all of them can be tried."""
    if all(part.verdict == "unknown" for part in without_steps.parts):
        raise AsOne("the node limit is met before a specification is tried")
    return [part.line for part in without_steps.parts]


def places_of(lines: Sequence[int]) -> dict[int, list[int]]:
    """For each line the numbers of its specifications."""
    found: dict[int, list[int]] = {}
    for place, line in enumerate(lines):
        found.setdefault(line, []).append(place + 1)
    return found


def parts_on(report: Report, line: int, numbers: Sequence[int]) -> list[Verdict]:
    """The parts of the report of one line's run, under the numbers that they have in the whole text."""
    if [part.line for part in report.parts] != [line] * len(numbers):
        raise AsOne("that is another report by itself")
    return [replace(part, number=number) for part, number in zip(report.parts, numbers)]


def put_together(lines: Sequence[int], reports: Mapping[int, Report]) -> Report:
    """The report of the whole text, from those of its lines."""
    parts = [part for line, numbers in places_of(lines).items() for part in parts_on(reports[line], line, numbers)]
    return Report(sorted(parts, key=lambda part: part.number))
