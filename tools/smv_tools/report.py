"""What the program puts: reports of `check`, answers of `recheck`, a path of `strong`; read, and put again byte for byte.

docs/FORMATS.md has the forms. Unread says that a text has another one."""
from __future__ import annotations

import re
from collections.abc import Iterator, Sequence
from dataclasses import dataclass, field

from .statuses import CLEAR, FAILED, UNDECIDED
from .syntax import Value

NUMBER = r"(?:0|[1-9]\d*)"
HEAD = re.compile(rf"spec ({NUMBER}) line ({NUMBER}) (?:(true|false)|unknown: node limit ({NUMBER}))")
STATE = re.compile(rf"state ({NUMBER})")
VALUE = re.compile(r"  ([^ ]+) = ([^ ]+)")
LOOP = re.compile(rf"loop ({NUMBER})")
LEFT_OUT = re.compile(rf"proof ({NUMBER}) left out: length ({NUMBER})")
TOTAL = re.compile(rf"total ({NUMBER}) true ({NUMBER}) false ({NUMBER}) unknown ({NUMBER})")
ANSWER = re.compile(rf"spec ({NUMBER}) (true|false) (?:(accepted)|(rejected) line ({NUMBER})|(unanswered): node limit ({NUMBER}))")
ANSWERS = re.compile(rf"total ({NUMBER}) accepted ({NUMBER}) rejected ({NUMBER}) unanswered ({NUMBER})")
INTEGER = re.compile(r"-?\d+")

State = dict[str, Value]


class Unread(Exception):
    """The text hasn't the form."""


def value_of(text: str) -> Value:
    return int(text) if INTEGER.fullmatch(text) else text


def lines_of(text: str) -> list[str]:
    """The lines of a text whose last one ends with a line feed too."""
    if text and not text.endswith("\n"):
        raise Unread("the last line has no line feed")
    return text.split("\n")[:-1]


class Lines:
    """Lines that are taken one after the other."""

    def __init__(self, lines: Sequence[str], at: int = 0) -> None:
        self.lines, self.at = lines, at

    @property
    def next(self) -> str:
        return self.lines[self.at] if self.at < len(self.lines) else ""

    def match(self, form: re.Pattern[str]) -> re.Match[str] | None:
        """The next line where it has the form, which is then taken."""
        found = form.fullmatch(self.next)
        if found and self.at < len(self.lines):
            self.at += 1
            return found
        return None

    def take(self, form: re.Pattern[str]) -> re.Match[str]:
        found = self.match(form)
        if not found:
            raise Unread(f"line {self.at + 1} is {self.next!r}")
        return found

    def end(self) -> None:
        if self.at < len(self.lines):
            raise Unread(f"line {self.at + 1} is {self.next!r}")


@dataclass
class Trace:
    """States one after the other, and the one that the path goes on at after the last; None where state 0 stands alone."""

    states: list[State]
    loop: int | None = None

    @property
    def names(self) -> list[str]:
        """The flat variables in declared order."""
        return list(self.states[0]) if self.states else []

    def changed(self, k: int, name: str) -> bool:
        """Whether the step into state k changed the variable."""
        return k > 0 and self.states[k][name] != self.states[k - 1][name]

    def lines(self) -> Iterator[str]:
        for k, state in enumerate(self.states):
            yield f"state {k}"
            yield from (f"  {name} = {value}" for name, value in state.items())
        if self.loop is not None:
            yield f"loop {self.loop}"

    @classmethod
    def read(cls, lines: Lines) -> Trace:
        """The states from the next line on, at least one."""
        states: list[State] = []
        while head := lines.match(STATE):
            state: State = {}
            while value := lines.match(VALUE):
                if value[1] in state:
                    raise Unread(f"line {lines.at} has a second value")
                state[value[1]] = value_of(value[2])
            if int(head[1]) != len(states) or states and list(state) != list(states[0]):
                raise Unread(f"line {lines.at} ends another state")
            states.append(state)
        if not states:
            raise Unread(f"line {lines.at + 1} begins no state")
        loop = lines.match(LOOP)
        if loop and int(loop[1]) >= len(states):
            raise Unread(f"line {lines.at} goes back to no state")
        return cls(states, int(loop[1]) if loop else None)


@dataclass
class Verdict:
    """A specification's part: number, line, `true`, `false` or `unknown`, and what stands below."""

    number: int
    line: int
    verdict: str
    limit: int | None = None
    trace: Trace | None = None
    left_out: int | None = None

    def lines(self) -> Iterator[str]:
        more = f": node limit {self.limit}" if self.verdict == "unknown" else ""
        yield f"spec {self.number} line {self.line} {self.verdict}{more}"
        if self.trace:
            yield from self.trace.lines()
        if self.left_out is not None:
            yield f"proof {self.number} left out: length {self.left_out}"


def _verdict(lines: Lines) -> Verdict | None:
    head = lines.match(HEAD)
    if not head:
        return None
    found = Verdict(int(head[1]), int(head[2]), head[3] or "unknown", int(head[4]) if head[4] else None)
    if found.verdict == "false":
        found.trace = Trace.read(lines)
    left_out = lines.match(LEFT_OUT)
    if left_out:
        found.left_out = int(left_out[2])
    if left_out and int(left_out[1]) != found.number:
        raise Unread(f"line {lines.at} is of another specification")
    return found


@dataclass
class Report:
    """A report of `check`."""

    parts: list[Verdict] = field(default_factory=list)

    @classmethod
    def read(cls, data: bytes) -> Report:
        """The report that the bytes are, all of them; Unread where they are none."""
        try:
            lines = Lines(lines_of(data.decode()))
        except UnicodeDecodeError:
            raise Unread("the report is no text") from None
        found = cls()
        while part := _verdict(lines):
            found.parts.append(part)
            if part.number != len(found.parts):
                raise Unread(f"specification {part.number} stands in place {len(found.parts)}")
        lines.take(TOTAL)
        lines.end()
        if lines.lines[-1] != found.total():
            raise Unread("the last line counts otherwise")
        return found

    def count(self, verdict: str) -> int:
        return sum(part.verdict == verdict for part in self.parts)

    def total(self) -> str:
        counts = " ".join(f"{it} {self.count(it)}" for it in ("true", "false", "unknown"))
        return f"total {len(self.parts)} {counts}"

    def put(self) -> bytes:
        """The bytes of the report."""
        lines = [line for part in self.parts for line in part.lines()]
        return "".join(f"{line}\n" for line in [*lines, self.total()]).encode()

    @property
    def status(self) -> int:
        """The exit status that a report of these verdicts has."""
        return UNDECIDED if self.count("unknown") else FAILED if self.count("false") else CLEAR


@dataclass
class Answer:
    """What `recheck` says of a block: `accepted`, `rejected` (with a line) or `unanswered` (with a node limit)."""

    number: int
    claim: str
    answer: str
    line: int | None = None
    limit: int | None = None

    def text(self) -> str:
        more = f" line {self.line}" if self.line is not None else f": node limit {self.limit}" if self.limit is not None else ""
        return f"spec {self.number} {self.claim} {self.answer}{more}"


def answers_of(data: bytes) -> list[Answer]:
    """The answers of `recheck`, one for each block."""
    lines, found = Lines(lines_of(data.decode(errors="replace"))), []
    while it := lines.match(ANSWER):
        answer = it[3] or it[4] or it[6]
        found.append(Answer(int(it[1]), it[2], answer, int(it[5]) if it[5] else None, int(it[7]) if it[7] else None))
    lines.take(ANSWERS)
    lines.end()
    return found


def strong_path(data: bytes) -> Trace | None:
    """The path that `strong` puts; None where it puts none."""
    lines = Lines(lines_of(data.decode(errors="replace")))
    if not lines.match(re.compile("strong yes")):
        return None
    found = Trace.read(lines)
    lines.end()
    return found
