"""`smv check --jobs N`: models and their specifications side by side. What is put is byte for byte what `check` puts.

Run as `python3 -m smv_tools.machines.checking PROGRAM JOBS OPTION.. -- MODEL..`; the status is that of `check` of these models."""
from __future__ import annotations

import os
import sys
from collections.abc import Sequence
from concurrent.futures import Future, ThreadPoolExecutor
from dataclasses import dataclass, field

from ..program import Ended, Program
from ..report import Report, Unread
from ..screen import put
from ..source import Source
from ..splitting import AsOne, Split, lines_of, places_of, put_together
from ..statuses import DECIDED, USAGE, Stop


@dataclass
class Checked:
    """A model at work: the lines of its specifications, and a run for each."""

    path: str
    lines: list[int] = field(default_factory=list)
    runs: dict[int, Future[Ended]] = field(default_factory=dict)


class Checking:
    """The checks of a call. Each run is one of the pool, and no run waits for another."""

    def __init__(self, program: Program, options: Sequence[str], pool: ThreadPoolExecutor) -> None:
        self.program, self.options, self.pool = program, options, pool

    def on_text(self, text: bytes) -> Ended:
        return self.program.on_text(text, options=self.options)

    def report(self, ended: Ended) -> Report:
        if ended.status not in DECIDED:
            raise AsOne
        try:
            found = Report.read(ended.put)
        except Unread:
            raise AsOne from None
        if found.status != ended.status:
            raise AsOne
        return found

    def begin(self, path: str) -> Future[Ended] | None:
        """The first run over the model, which says whether it can be split; none where it can't."""
        if not os.path.isfile(path):
            return None
        try:
            return self.pool.submit(self.on_text, Split(Source.load(path)).without_steps())
        except (AsOne, Stop):
            return None

    def go_on(self, path: str, first: Future[Ended] | None) -> Checked:
        """Has the specifications tried, each line by itself where there are several."""
        found = Checked(path)
        try:
            if first is None:
                raise AsOne
            lines = lines_of(self.report(first.result()))
            if len(set(lines)) < 2:
                raise AsOne
            split = Split(Source.load(path))
            found.runs = {line: self.pool.submit(self.on_text, split.only(line)) for line in places_of(lines)}
            found.lines = lines
        except (AsOne, Stop):
            found.runs = {0: self.pool.submit(self.program.check, path, self.options)}
        return found

    def end(self, checked: Checked) -> Ended:
        """What `check` puts of the model."""
        if 0 in checked.runs:
            return checked.runs[0].result()
        try:
            reports = {line: self.report(run.result()) for line, run in checked.runs.items()}
            report = put_together(checked.lines, reports)
        except AsOne:
            return self.program.check(checked.path, self.options)
        return Ended(report.status, report.put(), b"")


def shell_status(ended: Ended) -> int:
    return 128 - ended.status if ended.status is not None and ended.status < 0 else ended.status or 0


def check_all(program: Program, jobs: int, options: Sequence[str], models: Sequence[str]) -> int:
    """Checks the models, puts the reports in their order, and gives the greatest status."""
    greatest = 0
    with ThreadPoolExecutor(max_workers=jobs) as pool:
        checking = Checking(program, options, pool)
        firsts = [(path, checking.begin(path)) for path in models]
        begun = [checking.go_on(path, first) for path, first in firsts]
        for checked in begun:
            if len(models) > 1:
                put(f"model {checked.path}\n".encode(errors="surrogateescape"))
            ended = checking.end(checked)
            put(ended.put)
            greatest = max(greatest, shell_status(ended))
            if ended.status == USAGE:
                pool.shutdown(wait=False, cancel_futures=True)
                break
    return greatest


def main(words: Sequence[str]) -> int:
    program, jobs, *rest = words
    behind = rest.index("--")
    try:
        return check_all(Program(program), int(jobs), rest[:behind], rest[behind + 1:])
    except Stop as stop:
        return stop.status


if __name__ == "__main__":
    sys.setrecursionlimit(20_000)
    sys.exit(main(sys.argv[1:]))
