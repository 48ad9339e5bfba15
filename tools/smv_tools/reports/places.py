"""Where things stand in a text: lines and columns from 1, columns in bytes, the end behind the last byte."""
from __future__ import annotations

from dataclasses import dataclass

from ..reading import SyntaxFault, program_of
from ..refusals import Refusal
from ..source import Source
from ..tokens import LexFault, tokens_of


@dataclass(frozen=True)
class Span:
    """A part of a text."""

    line: int
    column: int
    end_line: int
    end_column: int

    @classmethod
    def of(cls, source: Source, first: int, behind: int) -> Span:
        last = max(behind - 1, first)
        return cls(source.line_at(first), source.column_at(first), source.line_at(last), source.column_at(last) + 1)


def fault_place(source: Source) -> tuple[int, int] | None:
    """First byte and the place behind of what the text can't be read at."""
    try:
        program_of(source)
    except LexFault as fault:
        return fault.at, fault.at + 1
    except SyntaxFault as fault:
        if fault.token:
            return fault.token.at, fault.token.behind
    return None


def line_place(source: Source, line: int) -> tuple[int, int] | None:
    """The tokens of the line."""
    try:
        tokens = [token for token in tokens_of(source) if token.line == line]
    except LexFault:
        return None
    return (tokens[0].at, tokens[-1].behind) if tokens else None


def refusal_place(source: Source, refusal: Refusal) -> Span | None:
    """The very place of what is refused where the reader finds it on the line that the program told, else that line's tokens;
    none of a refusal of the whole text."""
    if refusal.line is None:
        return None
    found = fault_place(source) if refusal.code in ("E1", "E2", "E4", "E5") else None
    if found is None or source.line_at(found[0]) != refusal.line:
        found = line_place(source, refusal.line)
    if found is None:
        length = len(source.line(refusal.line))
        return Span(refusal.line, 1, refusal.line, length + 1)
    return Span.of(source, *found)
