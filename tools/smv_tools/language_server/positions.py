"""Places of the protocol and of the tools: lines and UTF-16 units there, bytes of the UTF-8 text here.

The protocol ends a line at a carriage return too, and the language at a line feed alone; so places are taken by their
bytes, never by the numbers of their lines."""
from __future__ import annotations

import bisect
import re
from collections.abc import Iterator
from dataclasses import dataclass
from functools import cached_property

END = re.compile(r"\r\n|\n|\r")
# Behind this there are two units to a sign.
LARGEST_UNIT = 0xFFFF
# What an editor sends may hold half a pair of units.
HALVES = "surrogatepass"


@dataclass(frozen=True, order=True)
class Position:
    """A line from 0 and UTF-16 units from 0, as the protocol counts."""

    line: int
    character: int


def units(text: str) -> int:
    """How many UTF-16 units the text takes."""
    return len(text) if text.isascii() else len(text) + sum(ord(sign) > LARGEST_UNIT for sign in text)


def bytes_of(text: str) -> bytes:
    return text.encode("utf-8", HALVES)


def size(text: str) -> int:
    """How many bytes the text takes."""
    return len(text) if text.isascii() else len(bytes_of(text))


def signs_within(text: str, most: int, width: int) -> int:
    """How many signs at the text's beginning take no more than so many units (width 2) or bytes (width 1)."""
    taken = 0
    for count, sign in enumerate(text):
        taken += units(sign) if width == 2 else size(sign)
        if taken > most:
            return count
    return len(text)


class Positions:
    """The lines of a text, and where places of one kind are in the other."""

    def __init__(self, text: str) -> None:
        self.text = text

    @cached_property
    def _lines(self) -> tuple[list[int], list[int]]:
        """Where each line begins and where its signs end."""
        begins, ends = [0], []
        for end in END.finditer(self.text):
            ends.append(end.start())
            begins.append(end.end())
        return begins, [*ends, len(self.text)]

    @cached_property
    def _bytes(self) -> list[int]:
        """Where each line begins, in bytes."""
        begins = self._lines[0]
        if self.text.isascii():
            return begins
        return list(self._sums(begins))

    def _sums(self, begins: list[int]) -> Iterator[int]:
        at = 0
        yield at
        for begin, behind in zip(begins, begins[1:]):
            at += size(self.text[begin:behind])
            yield at

    def sign_of(self, position: Position) -> int:
        """The place of a position among the text's signs. What is behind a line is its end, what is behind the text its end."""
        begins, ends = self._lines
        if position.line < 0:
            return 0
        if position.line >= len(begins):
            return len(self.text)
        begin, end = begins[position.line], ends[position.line]
        line = self.text[begin:end]
        if line.isascii():
            return begin + min(max(position.character, 0), end - begin)
        return begin + signs_within(line, position.character, 2)

    def offset_of(self, position: Position) -> int:
        """The byte at a position."""
        sign = self.sign_of(position)
        if self.text.isascii():
            return sign
        line = min(max(position.line, 0), len(self._bytes) - 1)
        begin = self._lines[0][line]
        return self._bytes[line] + size(self.text[begin:sign])

    def position_of(self, offset: int) -> Position:
        """The position of a byte; of one within a sign that of the sign."""
        begins, ends = self._lines
        line = max(bisect.bisect_right(self._bytes, offset) - 1, 0)
        text = self.text[begins[line]:ends[line]]
        behind = offset - self._bytes[line]
        if text.isascii():
            return Position(line, min(behind, len(text)))
        return Position(line, units(text[:signs_within(text, behind, 1)]))
