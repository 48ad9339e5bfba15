"""Slurm as an engine: one array job runs the list of tasks, in a folder that all nodes share."""
from __future__ import annotations

import re
import shutil
import subprocess
import time
from collections.abc import Sequence

from ..program import Program
from ..statuses import NOTHING, Stop
from .archives import result_in
from .room import PROGRAM, RUN_TASK, Room
from .tasks import Done, Task

# The usual greatest size of an array is 1001.
MOST_TASKS = 1000
GRACE_SECONDS = 60
PAUSE_SECONDS = 0.5
# How often the end of a job is waited for, where its files come late over a network.
MOST_LATE = 10
SCRIPT = f"""#!/bin/sh
came=$1.$SLURM_ARRAY_TASK_ID
sed -n "${{SLURM_ARRAY_TASK_ID}}p" "$1" | sh {RUN_TASK.name} ./{PROGRAM} >"$came.part" && mv "$came.part" "$came"
"""
NODE = re.compile(r"ArrayTaskId=(\d+) .*?\sNodeList=(\S+)")


def asked(words: Sequence[str]) -> str:
    ended = subprocess.run(words, capture_output=True, text=True)
    return ended.stdout if ended.returncode == 0 else ""


class Slurm:
    """Runs tasks as array jobs of Slurm."""

    trusted = False

    def __init__(self, program: Program, room: Room, jobs: int | None, partition: str | None) -> None:
        if shutil.which("sbatch") is None:
            raise Stop("this needs sbatch of Slurm: apt-get install slurm-client", NOTHING)
        self.program, self.room, self.jobs, self.partition = program, room, jobs, partition
        self.excluded: list[str] = []

    def nodes(self) -> set[str]:
        words = ["sinfo", "--noheader", "--Node", "--format", "%N"]
        words += ["--partition", self.partition] if self.partition else []
        return set(asked(words).split())

    def exclude(self, worker: str) -> bool:
        """Gives the node no more tasks; whether one is left that may have them."""
        self.excluded.append(worker)
        return bool(self.nodes() - set(self.excluded))

    def words(self, tasks: Sequence[Task], name: str) -> list[str]:
        most = f"%{self.jobs}" if self.jobs else ""
        words = ["sbatch", "--parsable", f"--array=1-{len(tasks)}{most}", "--job-name=smv", "--output=/dev/null",
                 "--ntasks=1", "--cpus-per-task=1", f"--chdir={self.room.folder}"]
        words += [f"--partition={self.partition}"] if self.partition else []
        words += [f"--exclude={','.join(sorted(set(self.excluded)))}"] if self.excluded else []
        seconds = [it.limits.seconds for it in tasks if it.limits.seconds]
        # In minutes.
        words += [f"--time={(max(seconds) + GRACE_SECONDS) // 60 + 1}"] if seconds else []
        memory = [it.limits.memory for it in tasks if it.limits.memory]
        words += [f"--mem={max(memory)}M"] if memory else []
        return [*words, "array.sh", name]

    def run(self, tasks: Sequence[Task], done: Done) -> None:
        """Runs the tasks, an array after the other, and hands over each result when it is there."""
        for begin in range(0, len(tasks), MOST_TASKS):
            self.run_array(tasks[begin:begin + MOST_TASKS], done)

    def run_array(self, tasks: Sequence[Task], done: Done) -> None:
        listed = self.room.prepare(self.program, tasks, f"tasks-{time.time_ns():x}")
        (self.room.folder / "array.sh").write_text(SCRIPT)
        ended = subprocess.run(self.words(tasks, listed.name), cwd=self.room.folder, capture_output=True, text=True)
        job = ended.stdout.strip().split(";")[0]
        if ended.returncode or not job.isdigit():
            raise Stop(f"sbatch took no job: {ended.stderr.strip()[:400]}", NOTHING)
        try:
            self.wait(job, listed.name, tasks, done)
        except BaseException:
            subprocess.run(["scancel", job], capture_output=True)
            raise
        listed.unlink()

    def wait(self, job: str, name: str, tasks: Sequence[Task], done: Done) -> None:
        left, ran, late = dict(enumerate(tasks, 1)), dict[int, str](), 0
        while left and late < MOST_LATE:
            late += not asked(["squeue", "--noheader", "--jobs", job]).strip()
            ran.update(self.ran(job))
            for place, task in list(left.items()):
                came = self.room.folder / f"{name}.{place}"
                if came.exists() and place in ran or came.exists() and late:
                    del left[place]
                    done(task, result_in(came, ran.get(place, "unknown")))
                    came.unlink()
            time.sleep(PAUSE_SECONDS if left else 0)
        for place, task in left.items():
            done(task, result_in(self.room.folder / f"{name}.{place}", ran.get(place, "unknown")))

    def ran(self, job: str) -> dict[int, str]:
        """Who ran which task, by Slurm's word."""
        text = asked(["scontrol", "--oneliner", "show", "job", job])
        return {int(place): node for place, node in NODE.findall(text) if node != "(null)"}
