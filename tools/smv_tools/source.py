"""The text of a file: its bytes as signs of one byte each, so that an offset is a byte's place, and lines from 1."""
from __future__ import annotations

import bisect
from functools import cached_property
from pathlib import Path

from .statuses import OUTSIDE, Stop

MOST_BYTES = 1 << 20


def printable(text: str) -> str:
    """The text of these bytes as it can be shown on one line: other signs as `\\xNN`."""
    decoded = text.encode("latin-1").decode(errors="backslashreplace").expandtabs(8).removesuffix("\r")
    return "".join(sign if sign.isprintable() else f"\\x{ord(sign):02x}" for sign in decoded)


class Source:
    """A text and where it comes from."""

    def __init__(self, data: bytes, path: str = "model.smv") -> None:
        self.data, self.path = data, path
        self.text = data.decode("latin-1")

    @classmethod
    def load(cls, path: str) -> Source:
        """The file's text. What is longer than a model may be is cut one byte behind that."""
        try:
            with Path(path).open("rb") as file:
                return cls(file.read(MOST_BYTES + 1), path)
        except OSError as error:
            raise Stop(f"{error.strerror}: {path}", OUTSIDE) from None

    @cached_property
    def _begins(self) -> list[int]:
        return [0] + [at + 1 for at, sign in enumerate(self.text) if sign == "\n"]

    @property
    def lines(self) -> list[str]:
        """The lines without their line feeds; none behind the last line feed."""
        lines = self.text.split("\n")
        return lines[:-1] if lines[-1] == "" else lines

    def line_at(self, offset: int) -> int:
        """The number of the line on which the byte stands."""
        return bisect.bisect_right(self._begins, offset)

    def begin_of(self, number: int) -> int:
        """The place of the first byte of the line, which has to be there."""
        return self._begins[number - 1]

    def column_at(self, offset: int) -> int:
        """The column of the byte, from 1."""
        return offset - self._begins[self.line_at(offset) - 1] + 1

    def line(self, number: int) -> str:
        """The line of this number, or nothing where there is none."""
        lines = self.lines
        return lines[number - 1] if 1 <= number <= len(lines) else ""

    def before(self, offset: int) -> str:
        """What stands on the line before the byte."""
        return self.text[self._begins[self.line_at(offset) - 1]:offset]
