"""What came of each specification, as lines: in the order of the files, each when all before it are there."""
from __future__ import annotations

from collections.abc import Iterator, Sequence
from dataclasses import dataclass

from ..marks import Specification
from ..refusals import refusal_of
from ..report import Verdict
from ..statuses import CLEAR, FAILED, MEMORY
from .plan import Plan
from .tasks import Result, Task


@dataclass(frozen=True)
class Outcome:
    """A line: whether it is as expected, where, and what was found."""

    right: bool
    place: str
    text: str

    @property
    def line(self) -> str:
        return f"{'ok' if self.right else 'not ok':6} {self.place} {self.text}"


def ending(result: Result) -> str:
    """Why there is no report, in words."""
    refusal = refusal_of(result.put)
    if refusal:
        return result.put.decode(errors="replace").strip()
    if result.status is None:
        return f"no verdict: its time was over after {result.seconds:.1f} s"
    if result.status < 0:
        return "no verdict: it was killed or lost"
    return "no verdict: memory ran out" if result.status == MEMORY else f"no verdict: status {result.status}"


def verdict_outcome(plan: Plan, specification: Specification, part: Verdict) -> Outcome:
    right = part.verdict == specification.expected
    limit = f": node limit {part.limit}" if part.limit is not None else ""
    wanted = "" if right else f", expected {specification.expected}"
    return Outcome(right, f"{plan.path}:{specification.item.line}", f"{specification.shown} {part.verdict}{limit}{wanted}")


def refusal_outcome(plan: Plan, result: Result) -> Outcome:
    """The outcome of a text that is to be refused."""
    found = refusal_of(result.put)
    right = found is not None and found.code == plan.refusal
    text = ending(result) if result.report is None else "not refused"
    return Outcome(right, plan.path, text if right else f"{text}, expected refused {plan.refusal}")


def outcomes_of(plan: Plan, task: Task, result: Result) -> Iterator[Outcome]:
    """The outcomes of a task."""
    if plan.refusal:
        yield refusal_outcome(plan, result)
    elif result.report is None:
        yield Outcome(False, task.shown, ending(result))
    elif task.line:
        for specification, part in zip(plan.of(task), result.report.parts):
            if not specification.label:
                yield verdict_outcome(plan, specification, part)
    elif result.report.parts and not plan.specifications:
        yield Outcome(False, task.shown, "names and expectations can't be read")


class Table:
    """The outcomes of all plans. `lines` gives those that can be put."""

    def __init__(self, plans: Sequence[Plan]) -> None:
        self.plans, self.found = plans, dict[int, list[Outcome]]()
        self.order = [(plan, task) for plan in plans for task in plan.tasks]
        self.places = {id(task): place for place, (_, task) in enumerate(self.order)}
        self.at, self.right, self.wrong = 0, 0, 0

    def add(self, task: Task, result: Result) -> None:
        plan = self.order[self.places[id(task)]][0]
        self.found[self.places[id(task)]] = list(outcomes_of(plan, task, result))

    def lines(self) -> Iterator[Outcome]:
        """The next outcomes in order."""
        while self.at in self.found:
            for outcome in self.found.pop(self.at):
                self.right += outcome.right
                self.wrong += not outcome.right
                yield outcome
            self.at += 1

    @property
    def status(self) -> int:
        return max([FAILED if self.wrong else CLEAR, *(plan.status for plan in self.plans)])

    def total(self, seconds: float) -> str:
        labels, faults = sum(plan.labels for plan in self.plans), sum(bool(plan.fault) for plan in self.plans)
        more = f" unread {faults}" if faults else ""
        return (f"total {self.right + self.wrong} as expected {self.right} otherwise {self.wrong} labels {labels}{more} "
                f"seconds {seconds:.2f}")
