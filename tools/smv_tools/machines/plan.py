"""What is tested of a model: its specifications with what is expected of each, and the tasks that decide them."""
from __future__ import annotations

from collections.abc import Sequence
from dataclasses import dataclass, field
from pathlib import Path

from ..marks import Specification, expected_refusal, specifications
from ..model import Model, Unreadable
from ..source import Source
from ..splitting import AsOne, Split
from ..statuses import CLEAR, OUTSIDE, Stop
from .tasks import Limits, Task


@dataclass
class Plan:
    """`refusal` is the code that is expected of the whole text. `fault` says why nothing can be tried, with its status."""

    path: str
    specifications: list[Specification] = field(default_factory=list)
    tasks: list[Task] = field(default_factory=list)
    refusal: str | None = None
    fault: str = ""
    status: int = CLEAR

    def of(self, task: Task) -> list[Specification]:
        """The specifications of the task, those with a label too."""
        return [it for it in self.specifications if it.number in task.numbers]

    @property
    def labels(self) -> int:
        return sum(it.label for it in self.specifications)


def models_of(words: Sequence[str]) -> list[str]:
    """The files; a folder stands for those of its own whose names end with .smv."""
    found: list[str] = []
    for word in words:
        path = Path(word)
        inside = sorted(str(it) for it in path.glob("*.smv")) if path.is_dir() else [word]
        if not inside:
            raise Stop(f"no file in {word} has a name that ends with .smv", OUTSIDE)
        found += inside
    return list(dict.fromkeys(found))


def add_tasks(plan: Plan, source: Source, limits: Limits, proof: bool, program: str) -> None:
    """A task for each line with a specification that isn't a label, or one for a text that can't be read."""
    try:
        plan.specifications = specifications(Model.of(source))
        split = Split(source)
    except (Unreadable, AsOne):
        plan.tasks = [Task(plan.path, source.data, 0, (), limits, proof, program)]
        return
    lines: dict[int, list[Specification]] = {}
    for it in plan.specifications:
        lines.setdefault(it.item.line, []).append(it)
    for line, those in lines.items():
        if not all(it.label for it in those):
            numbers = tuple(it.number for it in those)
            plan.tasks.append(Task(plan.path, split.only(line), line, numbers, limits, proof, program))
    if not plan.tasks:
        # That the model is accepted is all there is to see.
        plan.tasks = [Task(plan.path, source.data, 0, (), limits, proof, program)]


def plan_of(path: str, limits: Limits, proof: bool, program: str) -> Plan:
    plan = Plan(path)
    try:
        source = Source.load(path)
        plan.refusal = expected_refusal(source)
        if plan.refusal:
            plan.tasks = [Task(path, source.data, 0, (), limits, proof, program)]
        else:
            add_tasks(plan, source, limits, proof, program)
    except Stop as stop:
        plan.fault, plan.status = str(stop), stop.status
    return plan
