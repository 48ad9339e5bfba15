"""`smv test`: all specifications of models against what their comments expect."""
from __future__ import annotations

import sys
import tempfile
import time
from collections.abc import Sequence
from pathlib import Path

from rich.progress import BarColumn, MofNCompleteColumn, Progress, TextColumn, TimeElapsedColumn

from ..builds import build_of
from ..calls import Call
from ..screen import console, put, tell
from ..statuses import USAGE, Stop
from .course import Course, Engine, Rules
from .local import Local, processors
from .outcomes import Table
from .parallel_engine import Parallel
from .plan import Plan, models_of, plan_of
from .room import Room
from .slurm_engine import Slurm
from .tasks import Limits, Result, Task

USUAL_NODES = 1_000_000
USUAL_RETRIES = 2


def room_of(call: Call, folder: str) -> Room | None:
    """The room that is asked; one in a folder that is taken away where an engine needs one all the same."""
    named, engine = call.option("--room"), call.option("--engine") or "local"
    if named:
        return Room(Path(named))
    if engine == "slurm":
        raise Stop("with --engine slurm a folder that all nodes share is needed: --room FOLDER", USAGE)
    return Room(Path(folder)) if engine == "parallel" else None


def engine_of(call: Call, room: Room | None, jobs: int | None) -> Engine:
    name = call.option("--engine") or "local"
    if name != "parallel" and call.option_all("--sshlogin"):
        raise Stop("--sshlogin goes with --engine parallel", USAGE)
    if name != "slurm" and call.option("--partition"):
        raise Stop("--partition goes with --engine slurm", USAGE)
    if room is not None and name == "parallel":
        return Parallel(call.program, room, call.option_all("--sshlogin"), jobs)
    if room is not None and name == "slurm":
        return Slurm(call.program, room, jobs, call.option("--partition"))
    return Local(call.program, jobs or processors())


def plans_of(call: Call) -> list[Plan]:
    limits = Limits(call.number("--nodes") or USUAL_NODES, call.number("--seconds"), call.number("--memory"))
    proof = (call.option("--engine") or "local") != "local"
    checksum = build_of(call.program).sha256
    return [plan_of(path, limits, proof, checksum) for path in models_of(call.operands)]


def rules_of(call: Call, plans: Sequence[Plan]) -> Rules:
    """A verdict that is expected to be unknown isn't tried with more."""
    unknown = {task.key for plan in plans for task in plan.tasks
               if all(it.label or it.expected == "unknown" for it in plan.of(task)) and plan.of(task)}
    retries = call.number("--retries")
    return Rules(USUAL_RETRIES if retries is None else retries, lambda task: task.key in unknown)


class Progressing:
    """Lines on standard output, and a bar on standard error where that is a terminal."""

    def __init__(self, table: Table, quiet: bool) -> None:
        self.table, self.quiet = table, quiet
        self.bar: Progress | None = None
        if sys.stderr.isatty():
            self.bar = Progress(TextColumn("smv"), BarColumn(), MofNCompleteColumn(), TimeElapsedColumn(),
                                console=console(error=True), transient=True)
            self.work = self.bar.add_task("", total=len(table.order))

    def __enter__(self) -> Progressing:
        if self.bar:
            self.bar.start()
        return self

    def __exit__(self, *_: object) -> None:
        if self.bar:
            self.bar.stop()

    def ended(self, task: Task, result: Result) -> None:
        self.table.add(task, result)
        lines = [it.line for it in self.table.lines() if not (self.quiet and it.right)]
        if self.bar:
            # The bar is taken away while lines are put.
            self.bar.stop()
        put("".join(f"{line}\n" for line in lines).encode(errors="surrogateescape"))
        if self.bar:
            self.bar.advance(self.work)
            self.bar.start()


def tell_course(course: Course, engine: str) -> None:
    """What the workers did, and who was caught, on standard error."""
    figures = course.figures
    if engine != "local":
        for worker, count in sorted(figures.tasks.items()):
            tell(f"{worker}: {count} tasks, {figures.seconds[worker]:.1f} s")
        tell(f"tests of proofs and paths here: {figures.test_seconds:.1f} s")
    for worker, why in sorted(figures.caught.items()):
        tell(f"{worker} answered falsely {len(why)} times, and isn't believed: {why[0]}")
    if figures.kept:
        tell(f"{figures.kept} tasks were done already")
    if figures.again:
        tell(f"{figures.again} tasks were tried again with more")


def run(call: Call) -> int:
    begun = time.monotonic()
    jobs = call.number("--jobs")
    with tempfile.TemporaryDirectory(prefix="smv-") as folder:
        room = room_of(call, folder)
        engine = engine_of(call, room, jobs)
        plans = plans_of(call)
        for plan in plans:
            if plan.fault:
                tell(plan.fault)
        table = Table(plans)
        progress = Progressing(table, call.has("--quiet"))
        course = Course(call.program, engine, jobs or processors(), room, rules_of(call, plans), progress.ended)
        with progress:
            course.run([task for _, task in table.order])
    tell_course(course, call.option("--engine") or "local")
    put((table.total(time.monotonic() - begun) + "\n").encode())
    return table.status

