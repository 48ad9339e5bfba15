"""Trace files: a path that is to show that a specification is false ("Trace files" in docs/FORMATS.md)."""
from __future__ import annotations

import re
from dataclasses import dataclass

from .report import NUMBER, Lines, Trace, Unread, lines_of

HEAD = re.compile(rf"trace ({NUMBER})")


@dataclass
class TraceFile:
    """The number of a specification, and a path with a loop."""

    number: int
    trace: Trace

    @classmethod
    def read(cls, data: bytes) -> TraceFile:
        """The trace file that the bytes are; Unread where they are none."""
        lines = Lines(lines_of(data.decode(errors="replace")))
        number = int(lines.take(HEAD)[1])
        trace = Trace.read(lines)
        lines.end()
        if trace.loop is None:
            raise Unread("the path has no loop")
        return cls(number, trace)

    def put(self) -> bytes:
        return "".join(f"{line}\n" for line in [f"trace {self.number}", *self.trace.lines()]).encode()
