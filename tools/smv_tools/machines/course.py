"""The course of tasks: what was kept is taken, the engine runs the others, what comes from elsewhere is tested, and a task that
was killed, lost or unknown is tried again with more."""
from __future__ import annotations

import threading
from collections import Counter, defaultdict
from collections.abc import Callable, Sequence
from concurrent.futures import Future, ThreadPoolExecutor
from dataclasses import dataclass, field
from typing import Protocol

from ..program import Program
from .local import Local
from .room import Room
from .tasks import Done, Result, Task, with_more
from .trust import Judged, judge

FACTOR = 4


class Engine(Protocol):
    """Who runs tasks. What one that isn't trusted hands over is tested."""

    @property
    def trusted(self) -> bool: ...

    def run(self, tasks: Sequence[Task], done: Done) -> None: ...

    def exclude(self, worker: str) -> bool: ...


@dataclass
class Figures:
    """What a course took: tasks and seconds of each worker, seconds of the tests here, what was kept already, who was caught."""

    tasks: Counter[str] = field(default_factory=Counter)
    seconds: defaultdict[str, float] = field(default_factory=lambda: defaultdict(float))
    test_seconds: float = 0.0
    kept: int = 0
    again: int = 0
    caught: dict[str, list[str]] = field(default_factory=dict)


@dataclass(frozen=True)
class Rules:
    """How often a task is tried again, and whether a result that isn't decided is wanted all the same."""

    retries: int
    expected_unknown: Callable[[Task], bool]


class Course:
    """Runs tasks to their ends. `ended` is called with each task, as it was asked, and its last result."""

    def __init__(self, program: Program, engine: Engine, jobs: int, room: Room | None, rules: Rules, ended: Done) -> None:
        self.program, self.engine, self.jobs, self.room, self.rules, self.ended = program, engine, jobs, room, rules, ended
        self.figures, self.lock = Figures(), threading.Lock()
        self.again: list[tuple[Task, Task]] = []

    def run(self, tasks: Sequence[Task]) -> None:
        left, rounds = [(task, task) for task in tasks], 0
        while left:
            self.again = []
            self.round(left, rounds < self.rules.retries)
            left, rounds = self.again, rounds + 1

    def round(self, pairs: Sequence[tuple[Task, Task]], more: bool) -> None:
        """Tries each task once; `pairs` have the task as it was asked, and as it is tried now."""
        asked: dict[str, list[Task]] = {now.key: [] for _, now in pairs}
        for first, now in pairs:
            asked[now.key].append(first)
        left: list[Task] = []
        for now in {now.key: now for _, now in pairs}.values():
            kept = self.room.kept(now) if self.room else None
            if kept:
                self.figures.kept += 1
                self.end(asked[now.key], now, kept, more)
            else:
                left.append(now)
        if left:
            self.try_all(left, lambda task, result: self.take(asked[task.key], task, result, more))

    def try_all(self, tasks: Sequence[Task], take: Done) -> None:
        """Has the engine run the tasks, and tests what came from elsewhere."""
        if self.engine.trusted:
            self.engine.run(tasks, take)
            return
        lied: list[Task] = []
        waiting: list[Future[None]] = []

        def test(task: Task, result: Result) -> None:
            judged = judge(self.program, task, result)
            self.note(task, judged)
            if judged.caught:
                lied.append(task)
            else:
                take(task, judged.result)

        with ThreadPoolExecutor(max_workers=self.jobs) as pool:
            self.engine.run(tasks, lambda task, result: waiting.append(pool.submit(test, task, result)))
        for future in waiting:
            future.result()
        if lied:
            self.try_elsewhere(lied, take)

    def try_elsewhere(self, tasks: Sequence[Task], take: Done) -> None:
        """Runs tasks whose workers were caught without these, or here where none is left."""
        left = [self.engine.exclude(worker) for worker in self.figures.caught]
        if all(left):
            self.try_all(tasks, take)
        else:
            Local(self.program, self.jobs).run(tasks, take)

    def note(self, task: Task, judged: Judged) -> None:
        with self.lock:
            self.figures.test_seconds += judged.seconds
            if judged.caught:
                self.figures.caught.setdefault(judged.result.worker, []).append(f"{task.shown}: {judged.caught}")

    def take(self, asked: Sequence[Task], task: Task, result: Result, more: bool) -> None:
        """Keeps a result that is believed, and goes on with it."""
        with self.lock:
            self.figures.tasks[result.worker] += 1
            self.figures.seconds[result.worker] += result.seconds
        if self.room:
            self.room.keep(task, result)
        self.end(asked, task, result, more)

    def end(self, asked: Sequence[Task], task: Task, result: Result, more: bool) -> None:
        """Ends the tasks with this result, or has them tried again with more."""
        with self.lock:
            for first in asked:
                following = None if not more or result.decided or self.rules.expected_unknown(first) else \
                    with_more(task, result, FACTOR)
                if following is None:
                    self.ended(first, result)
                else:
                    self.figures.again += 1
                    self.again.append((first, following))

