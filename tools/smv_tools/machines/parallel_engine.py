"""GNU parallel as an engine: it is given the list of tasks, and its joblog says who ran which one and how that ended."""
from __future__ import annotations

import re
import shutil
import subprocess
import time
from collections.abc import Iterator, Sequence
from pathlib import Path

from ..program import Program
from ..statuses import NOTHING, Stop
from .archives import result_in
from .room import PROGRAM, RUN_TASK, Room
from .tasks import Done, Task

# The place of the task in the list, and the machine.
LOGGED = re.compile(r"(\d+)\t([^\t]*)\t.*")
# How long a job may take beyond its own limit until it is given up.
GRACE_SECONDS = 60
PAUSE_SECONDS = 0.2
# A line of the list is shorter: a model has a megabyte at most.
BLOCK = "4M"


def host_of(login: str) -> str:
    """The name that the joblog has for a login, which may be `8/worker1` or `ssh -p 22 worker1`."""
    return login.rsplit("/", 1)[-1].split(" ")[-1] if login != ":" else login


class Log:
    """A joblog that grows."""

    def __init__(self, path: Path) -> None:
        self.path, self.at = path, 0

    def new(self) -> Iterator[tuple[int, str]]:
        """The place and the worker of each task that ended since the last call."""
        try:
            with self.path.open("rb") as file:
                file.seek(self.at)
                data = file.read()
        except FileNotFoundError:
            return
        data = data[:data.rfind(b"\n") + 1]
        self.at += len(data)
        for line in data.decode(errors="replace").splitlines():
            found = LOGGED.fullmatch(line)
            if found:
                yield int(found[1]), found[2]


class Parallel:
    """Runs tasks by GNU parallel on the machines of `logins`; without one on this machine."""

    trusted = False

    def __init__(self, program: Program, room: Room, logins: Sequence[str], jobs: int | None) -> None:
        for name, package in (("parallel", "parallel"), ("rsync", "rsync")):
            if shutil.which(name) is None and (name == "parallel" or logins):
                raise Stop(f"this needs {name}: apt-get install {package}", NOTHING)
        self.program, self.room, self.logins, self.jobs = program, room, list(logins), jobs

    def exclude(self, worker: str) -> bool:
        """Gives the worker no more tasks; whether one is left that may have them."""
        self.logins = [login for login in self.logins if host_of(login) != worker]
        return bool(self.logins)

    def words(self, log: Path, results: Path, tasks: Sequence[Task]) -> list[str]:
        words = ["parallel", "--will-cite", "--pipe", "-N1", "--block", BLOCK, "--joblog", str(log)]
        words += ["--results", f"{results}/{{#}}"]
        words += ["--jobs", str(self.jobs)] if self.jobs else []
        seconds = [it.limits.seconds for it in tasks if it.limits.seconds]
        words += ["--timeout", str(max(seconds) + GRACE_SECONDS)] if seconds else []
        memory = [it.limits.memory for it in tasks if it.limits.memory]
        words += ["--memfree", f"{max(memory)}M"] if memory else []
        for login in self.logins:
            words += ["--sshlogin", login]
        if self.logins:
            words += ["--workdir", f".smv-tasks/{self.room.folder.name}", "--cleanup"]
            words += [it for name in (PROGRAM, RUN_TASK.name) for it in ("--basefile", name)]
        return [*words, f"sh {RUN_TASK.name} ./{PROGRAM}"]

    def run(self, tasks: Sequence[Task], done: Done) -> None:
        """Runs the tasks, and hands over each result when the joblog has it."""
        stamp = f"{time.time_ns():x}"
        listed = self.room.prepare(self.program, tasks, f"tasks-{stamp}")
        log, results = self.room.folder / f"joblog-{stamp}", self.room.folder / f"results-{stamp}"
        results.mkdir()
        left, logged = dict(enumerate(tasks, 1)), Log(log)
        with listed.open("rb") as lines, subprocess.Popen(
            self.words(log, results, tasks), cwd=self.room.folder, stdin=lines, stdout=subprocess.DEVNULL,
            stderr=(results / "told").open("wb"),
        ) as process:
            try:
                while process.poll() is None:
                    self.hand_over(logged, results, left, done)
                    time.sleep(PAUSE_SECONDS)
            except BaseException:
                process.terminate()
                raise
        self.hand_over(logged, results, left, done)
        if len(left) == len(tasks):
            raise Stop(f"parallel ran nothing: {(results / 'told').read_text(errors='replace').strip()[:400]}", NOTHING)
        for place, task in left.items():
            done(task, result_in(results / str(place), "unknown"))
        shutil.rmtree(results)
        listed.unlink()

    def hand_over(self, log: Log, results: Path, left: dict[int, Task], done: Done) -> None:
        for place, worker in log.new():
            task = left.pop(place, None)
            if task is not None:
                done(task, result_in(results / str(place), worker))
