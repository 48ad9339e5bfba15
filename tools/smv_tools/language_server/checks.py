"""Checks of the open texts, each in a thread of its own: a later one of the same text stops the earlier."""
from __future__ import annotations

import threading
from collections.abc import Callable, Sequence
from dataclasses import dataclass

from ..program import Program
from ..refusals import Refusal
from ..report import Report, Unread
from ..statuses import DECIDED, Stop
from .checking import Check, Stopped
from .documents import Document
from .probe_warnings import probe_warnings
from .problems import Problem, problems_of

# So many checks at once; others wait.
AT_ONCE = 2
# To find the place of a refusal the program is asked of parts of the text, for so long at most.
ASK_SECONDS = 10.0
LEAST_NODES = ("--nodes", "1")


@dataclass(frozen=True)
class Result:
    """What a check of a text found. The report is there where the program put one."""

    document: Document
    problems: list[Problem]
    report: Report | None


class Checks:
    """The checks that are under way. `done` is called with each result that wasn't stopped, and `failed` where the program
    can't be run; both from other threads."""

    def __init__(self, program: Callable[[], Program], done: Callable[[Result], None], failed: Callable[[str], None]) -> None:
        self.program, self.done, self.failed = program, done, failed
        self.options: Sequence[str] = ()
        self.seconds = 0.0
        self.lock = threading.Lock()
        self.running: dict[str, Check] = {}
        self.room = threading.Semaphore(AT_ONCE)

    def start(self, document: Document) -> None:
        try:
            check = Check(self.program(), document.source.data, self.options, self.seconds)
        except Stop as stop:
            self.failed(str(stop))
            return
        # What was decided is told at once, and what probes find behind it.
        with self.lock:
            earlier = self.running.get(document.uri)
            self.running[document.uri] = check
        if earlier:
            earlier.stop()
        threading.Thread(target=self._run, args=(document, check), daemon=True).start()

    def stop(self, uri: str) -> None:
        with self.lock:
            check = self.running.pop(uri, None)
        if check:
            check.stop()

    def stop_all(self) -> None:
        for uri in list(self.running):
            self.stop(uri)

    def _run(self, document: Document, check: Check) -> None:
        try:
            with self.room:
                result = self._result(document, check)
        except Stopped:
            return
        except Stop as stop:
            self.failed(str(stop))
            return
        # What was decided is told at once, and what probes find behind it.
        with self.lock:
            if self.running.get(document.uri) is not check:
                return
            self.done(result)
        warnings = probe_warnings(check.program, document.source, self.options) if result.report else []
        with self.lock:
            if self.running.get(document.uri) is not check:
                return
            del self.running[document.uri]
            if warnings:
                self.done(Result(document, [*result.problems, *warnings], result.report))

    def _result(self, document: Document, check: Check) -> Result:
        ended = check.run()

        def ask(data: bytes) -> Refusal | None:
            if check.stopped:
                raise Stopped
            return check.program.on_text(data, options=LEAST_NODES, seconds=ASK_SECONDS).refusal

        problems = problems_of(document.source, ended, self.seconds, ask)
        try:
            report = ended.report if ended.status in DECIDED else None
        except Unread:
            report = None
        return Result(document, problems, report)
