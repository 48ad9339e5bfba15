#!/usr/bin/env python3
"""Checks the specifications of a model one after the other, and tells on standard error which one is at work:
./smv check FILE --verbose calls this with the program, the options of `check`, `--` and the file.

For each line with specifications the program runs over a copy of the text, as `splitting` has it, which puts the report
together from theirs too.

Ends with the status of `check`, or with 4 where the output fails. Where the check has to be run as one nothing is put, and
the status is 75."""
from __future__ import annotations

import os
import re
import signal
import subprocess
import sys
import tempfile
import time
from collections.abc import Sequence
from types import FrameType

from .report import Report, Unread, Verdict
from .source import Source
from .splitting import AsOne, Split, lines_of, parts_on, places_of
from .statuses import AS_ONE, DECIDED, OUTSIDE

PATIENCE = 2


class Interrupted(BaseException):
    """A signal asks for the end."""


class Screen:
    """Standard error: lines with the seconds since the start, and on a terminal a last line that tells of a long run."""

    def __init__(self) -> None:
        self.begun, self.shown = time.monotonic(), False

    def seconds(self) -> int:
        return int(time.monotonic() - self.begun)

    def write(self, text: str) -> None:
        # That nobody reads it changes no report.
        try:
            os.write(2, text.encode())
        except OSError:
            pass

    def clear(self) -> None:
        if self.shown:
            self.write("\r\033[K")
        self.shown = False

    def tell(self, text: str) -> None:
        self.clear()
        self.write(f"smv: {self.seconds()} s: {text}\n")

    def show(self, process: subprocess.Popen[bytes]) -> None:
        """Shows what memory the process takes."""
        try:
            with open(f"/proc/{process.pid}/status") as file:
                memory = re.search(r"^VmRSS:\s*(\d+) kB", file.read(), re.M)
        except OSError:
            return
        if memory and sys.stderr.isatty() and self.seconds() > PATIENCE:
            self.write(f"\r\033[Ksmv: {self.seconds()} s, {int(memory[1]) // 1024} MB")
            self.shown = True


class Runs:
    """Runs of the program with the same options, over copies of a file in a folder."""

    def __init__(self, program: str, options: Sequence[str], room: str, screen: Screen) -> None:
        self.copy, self.screen, self.parent = os.path.join(room, "model.smv"), screen, os.getppid()
        self.words = [program, "check", *options, "--", self.copy]

    def put(self, text: bytes) -> tuple[bytes, int]:
        """What the program puts for the text, and its status."""
        with open(self.copy, "wb") as file:
            file.write(text)
        with subprocess.Popen(self.words, stdout=subprocess.PIPE) as process:
            try:
                return self.wait(process), process.returncode
            except BaseException:
                process.kill()
                raise

    def wait(self, process: subprocess.Popen[bytes]) -> bytes:
        while True:
            try:
                return process.communicate(timeout=1)[0]
            except subprocess.TimeoutExpired:
                self.screen.show(process)
            # Who asked is gone.
            if os.getppid() != self.parent:
                raise Interrupted(signal.SIGTERM)

    def report(self, text: bytes) -> Report | None:
        """The report for the text; none where its status is another one."""
        put, status = self.put(text)
        if status not in DECIDED:
            return None
        try:
            found = Report.read(put)
        except Unread:
            raise AsOne("a report isn't read") from None
        if status != found.status:
            raise AsOne("a report has another status")
        return found


def named(numbers: Sequence[int], count: int, line: int) -> str:
    word = "specification" if len(numbers) == 1 else "specifications"
    return f"{word} {', '.join(map(str, numbers))} of {count}, line {line}"


def verdicts(parts: Sequence[Verdict]) -> str:
    """The numbers of the specifications by their verdicts."""
    found: dict[str, list[str]] = {}
    for part in parts:
        found.setdefault(part.verdict, []).append(str(part.number))
    return "; ".join(f"{', '.join(numbers)} {verdict}" for verdict, numbers in found.items())


def check(runs: Runs, source: Source) -> Report:
    """The report, from one run for each line."""
    split = Split(source)
    runs.screen.tell("the relation, and faults")
    first = runs.report(split.without_steps())
    if first is None or not first.parts:
        raise AsOne
    lines, found = lines_of(first), list[Verdict]()
    for line, numbers in places_of(lines).items():
        runs.screen.tell(named(numbers, len(lines), line))
        report = runs.report(split.only(line))
        if report is None:
            raise AsOne("that is another report by itself")
        parts = parts_on(report, line, numbers)
        found += parts
        runs.screen.tell(verdicts(parts))
    return Report(sorted(found, key=lambda part: part.number))


def put(data: bytes) -> int:
    """Puts the report, and gives the status of that."""
    try:
        while data:
            data = data[os.write(1, data):]
    except OSError:
        return OUTSIDE
    return 0


def read(path: str) -> Source:
    # A pipe can be read once, so the program reads it. What is longer than a model is refused, however long it is.
    if not os.path.isfile(path):
        raise AsOne
    return Source.load(path)


def main(program: str, *words: str) -> int:
    *options, _, path = words
    if sys.stderr is None:
        return AS_ONE
    screen = Screen()
    try:
        with tempfile.TemporaryDirectory() as room:
            report = check(Runs(program, options, room, screen), read(path))
    except Exception as why:
        if str(why):
            screen.tell(f"{why}: the check is run as one")
        return AS_ONE
    finally:
        screen.clear()
    return put(report.put()) or report.status


def interrupt(number: int, _: FrameType | None) -> None:
    raise Interrupted(number)


if __name__ == "__main__":
    for each in (signal.SIGINT, signal.SIGTERM, signal.SIGHUP):
        if signal.getsignal(each) != signal.SIG_IGN:
            signal.signal(each, interrupt)
    try:
        sys.exit(main(*sys.argv[1:]))
    except Interrupted as asked:
        signal.signal(asked.args[0], signal.SIG_DFL)
        os.kill(os.getpid(), asked.args[0])
