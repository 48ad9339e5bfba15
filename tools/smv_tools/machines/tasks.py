"""A task: a check of the specifications of one line of a model, within limits. And what came of it."""
from __future__ import annotations

import hashlib
from collections.abc import Callable
from dataclasses import dataclass, field, replace
from functools import cached_property

from ..report import Report, Unread
from ..statuses import DECIDED, MEMORY, UNDECIDED

MOST_NODES = (1 << 31) - 1
HOME = "home"
MEGABYTE = 1 << 20
KEY_SIGNS = 24


@dataclass(frozen=True)
class Limits:
    """Nodes of the diagrams, seconds of the clock, megabytes; none where nothing is said."""

    nodes: int
    seconds: int | None = None
    memory: int | None = None


@dataclass(frozen=True)
class Task:
    """`text` is that of the model with the specifications of this line alone, or the whole one where line is 0; `numbers` are
    those that they have in the whole text. `program` is the checksum of the program."""

    model: str
    text: bytes = field(repr=False)
    line: int
    numbers: tuple[int, ...]
    limits: Limits
    proof: bool
    program: str

    @cached_property
    def words(self) -> list[str]:
        """The words for the program, before the name of the file."""
        return ["check", "--nodes", str(self.limits.nodes), *(["--proof", "proof"] if self.proof else [])]

    @cached_property
    def key(self) -> str:
        """The name of the task: a checksum of the program, the words, the limits and the text."""
        said = [self.program, *self.words, str(self.limits.seconds), str(self.limits.memory)]
        return hashlib.sha256("\0".join(said).encode() + b"\0" + self.text).hexdigest()[:KEY_SIGNS]

    @property
    def shown(self) -> str:
        return f"{self.model}:{self.line}" if self.line else self.model


@dataclass(frozen=True)
class Result:
    """What a run of a task put. `status` is none where its time was over, negative for a signal."""

    status: int | None
    put: bytes = field(repr=False)
    proof: bytes = field(repr=False, default=b"")
    seconds: float = 0.0
    worker: str = HOME

    @cached_property
    def report(self) -> Report | None:
        """The report that was put; none where something else was."""
        if self.status not in DECIDED:
            return None
        try:
            found = Report.read(self.put)
        except Unread:
            return None
        return found if found.status == self.status else None

    @property
    def decided(self) -> bool:
        return self.report is not None and not self.report.count("unknown")

    @property
    def lasting(self) -> bool:
        """Whether the same task would end so again: no signal of the outside ended it."""
        return self.status is None or self.status >= 0


Done = Callable[[Task, Result], None]


def with_more(task: Task, result: Result, factor: int) -> Task | None:
    """The task with more of what its run lacked; none where more can't help or can't be asked."""
    limits = task.limits
    if result.status == UNDECIDED and limits.nodes < MOST_NODES:
        more = replace(limits, nodes=min(limits.nodes * factor, MOST_NODES))
    elif result.status is None and limits.seconds:
        more = replace(limits, seconds=limits.seconds * factor)
    elif result.status == MEMORY and limits.memory:
        more = replace(limits, memory=limits.memory * factor)
    elif result.status is not None and result.status < 0:
        # Ended from outside, perhaps since the machine had no memory left.
        more = limits
    else:
        return None
    return replace(task, limits=more)
