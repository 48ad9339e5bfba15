"""Reports and paths that were saved: of `check` (of one model or of several), of `strong`, and trace files."""
from __future__ import annotations

import os
from dataclasses import dataclass, field
from pathlib import Path

from ..report import Report, Trace, Unread, Verdict, strong_path
from ..statuses import OUTSIDE, Stop
from ..trace_files import TraceFile


@dataclass
class Saved:
    """What a file has: a report, a path for one specification, or a path of `strong`."""

    report: Report | None = None
    trace: TraceFile | None = None
    strong: Trace | None = None
    paths: list[TraceFile] = field(init=False)

    def __post_init__(self) -> None:
        parts = self.report.parts if self.report else []
        self.paths = [TraceFile(it.number, it.trace) for it in parts if it.trace and it.trace.loop is not None]
        self.paths += [self.trace] if self.trace else []

    def path(self, number: int) -> TraceFile:
        """The path of a specification; Stop where there is none."""
        for it in self.paths:
            if it.number == number:
                return it
        found: Verdict | None = None
        if self.report and 1 <= number <= len(self.report.parts):
            found = self.report.parts[number - 1]
        if found is None:
            raise Stop(f"there is no specification {number} in the file")
        more = "no path is shown below it" if found.verdict == "false" else "there is no path below it"
        raise Stop(f"specification {number} is {found.verdict} in the file, and {more}")


def part_of(data: bytes, model: str) -> bytes:
    """Of the reports of several models the one of this model."""
    if not data.startswith(b"model "):
        return data
    parts: dict[str, list[bytes]] = {}
    name = ""
    for line in data.splitlines(keepends=True):
        if line.startswith(b"model "):
            name = os.fsdecode(line[6:].rstrip(b"\n"))
            parts[name] = []
        else:
            parts[name].append(line)
    if model not in parts:
        raise Stop(f"the file has no report of {model}, but of {', '.join(parts)}")
    return b"".join(parts[model])


def read_saved(data: bytes, model: str) -> Saved:
    """What the bytes are; Stop where they are none of these."""
    data = part_of(data, model)
    try:
        if data.startswith(b"trace "):
            return Saved(trace=TraceFile.read(data))
        if data.startswith(b"strong "):
            return Saved(strong=strong_path(data))
        return Saved(report=Report.read(data))
    except Unread as why:
        raise Stop(f"the file is no report, no path of strong and no trace file: {why}") from None


def load(path: str, model: str) -> Saved:
    try:
        return read_saved(Path(path).read_bytes(), model)
    except OSError as error:
        raise Stop(f"{error.strerror}: {path}", OUTSIDE) from None
