"""A folder with tasks and what came of them. KEY.kept says of a task how it ended, KEY.put and KEY.proof what was put: a result
that was made or tested here, which isn't made again. Other files there are an engine's."""
from __future__ import annotations

import base64
import gzip
import json
import os
import shutil
from collections.abc import Iterable
from pathlib import Path

from ..program import Program
from ..statuses import OUTSIDE, Stop
from .tasks import Result, Task

RUN_TASK = Path(__file__).with_name("run_task.sh")
PROGRAM = "smv_run"


def written(path: Path, data: bytes) -> None:
    """Writes the file whole, or not at all."""
    part = path.with_name(path.name + ".part")
    part.write_bytes(data)
    os.replace(part, path)


def line_of(task: Task) -> bytes:
    """The task as a line for run_task.sh."""
    limits = task.limits
    text = base64.b64encode(gzip.compress(task.text, mtime=0)).decode()
    return f"{task.key} {limits.nodes} {limits.seconds or 0} {(limits.memory or 0) << 10} {text}\n".encode()


class Room:
    """The folder. It is made where it isn't there."""

    def __init__(self, folder: Path) -> None:
        self.folder = folder.resolve()
        try:
            folder.mkdir(parents=True, exist_ok=True)
        except OSError as error:
            raise Stop(f"{error.strerror}: {folder}", OUTSIDE) from None

    def file(self, task: Task, ending: str) -> Path:
        return self.folder / f"{task.key}.{ending}"

    def kept(self, task: Task) -> Result | None:
        """The result that was kept of this very task."""
        try:
            value = json.loads(self.file(task, "kept").read_text())
            return Result(value["status"], self.file(task, "put").read_bytes(), b"", value["seconds"], value["worker"])
        except (OSError, ValueError, KeyError):
            return None

    def keep(self, task: Task, result: Result) -> None:
        """Keeps a result, with the proof where one was sent."""
        if not result.lasting:
            return
        written(self.file(task, "put"), result.put)
        if result.proof:
            written(self.file(task, "proof"), result.proof)
        value = {"model": task.model, "line": task.line, "nodes": task.limits.nodes, "status": result.status,
                 "seconds": round(result.seconds, 3), "worker": result.worker}
        written(self.file(task, "kept"), (json.dumps(value) + "\n").encode())

    def prepare(self, program: Program, tasks: Iterable[Task], name: str) -> Path:
        """Writes the program, the script that runs a task, and the list of tasks."""
        for source, target in ((Path(program.path), PROGRAM), (RUN_TASK, RUN_TASK.name)):
            if not (self.folder / target).exists() or (self.folder / target).read_bytes() != source.read_bytes():
                shutil.copy(source, self.folder / f"{target}.part")
                os.replace(self.folder / f"{target}.part", self.folder / target)
        listed = self.folder / name
        written(listed, b"".join(map(line_of, tasks)))
        return listed
