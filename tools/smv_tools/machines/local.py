"""The engine of this machine: runs of the program side by side."""
from __future__ import annotations

import os
import tempfile
import time
from collections.abc import Sequence
from concurrent.futures import ThreadPoolExecutor, as_completed
from pathlib import Path

from ..program import Program
from .tasks import MEGABYTE, Done, Result, Task

MODEL = "model.smv"


def processors() -> int:
    """How many processors this process may use."""
    return len(os.sched_getaffinity(0))


def run_here(program: Program, task: Task) -> Result:
    """Runs the task to its end or to that of its time."""
    with tempfile.TemporaryDirectory(prefix="smv-") as room:
        Path(room, MODEL).write_bytes(task.text)
        memory = task.limits.memory * MEGABYTE if task.limits.memory else None
        begun = time.monotonic()
        ended = program.run([*task.words, "--", MODEL], seconds=task.limits.seconds, memory=memory, folder=room)
        seconds = time.monotonic() - begun
        proof = Path(room, "proof")
        return Result(ended.status, ended.put, proof.read_bytes() if proof.exists() else b"", seconds)


class Local:
    """Runs tasks in so many processes at a time."""

    # What it runs is its own program, so that nothing has to be tested.
    trusted = True

    def __init__(self, program: Program, jobs: int) -> None:
        self.program, self.jobs = program, jobs

    def run(self, tasks: Sequence[Task], done: Done) -> None:
        """Runs the tasks, and hands over each result when it is there."""
        with ThreadPoolExecutor(max_workers=self.jobs) as pool:
            waiting = {pool.submit(run_here, self.program, task): task for task in tasks}
            try:
                for future in as_completed(waiting):
                    done(waiting[future], future.result())
            except BaseException:
                pool.shutdown(wait=False, cancel_futures=True)
                raise

    def exclude(self, worker: str) -> bool:
        """Whether there are other workers: there are none."""
        return False
