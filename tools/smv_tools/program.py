"""The proved program: where its build stands, and how it is run."""
from __future__ import annotations

import ctypes
import os
import resource
import signal
import subprocess
import tempfile
from collections.abc import Callable, Sequence
from dataclasses import dataclass
from pathlib import Path

from .refusals import Refusal, refusal_of
from .report import Report
from .statuses import DECIDED, NOTHING, Stop

TOP = Path(__file__).resolve().parents[2]
# What the start script sets: the program that it found.
PROGRAM = "SMV_PROGRAM"


@dataclass(frozen=True)
class Ended:
    """A run that ended: its status, which is negative for a signal, None where its time was over; what it put."""

    status: int | None
    put: bytes
    told: bytes

    @property
    def refusal(self) -> Refusal | None:
        return refusal_of(self.put)

    @property
    def report(self) -> Report:
        """The report; Stop where the program put none."""
        if self.status not in DECIDED:
            raise Stop("the program put no report", NOTHING)
        return Report.read(self.put)


def find_build() -> Path:
    """The build that the start script names, or that is installed beside the tools, or that stands in the repository."""
    named = os.environ.get(PROGRAM)
    if named:
        return Path(named)
    for installed in (TOP / "bin" / "smv_run", TOP.parent / "bin" / "smv_run", TOP.parent.parent / "bin" / "smv_run"):
        if installed.is_file():
            return installed
    script = f'. "{TOP}/tools/builds.sh" && name=$(standing_build) && echo "$out/$name"'
    found = subprocess.run(["bash", "-c", script], capture_output=True, text=True).stdout.strip()
    if not found:
        raise Stop("no build of the program stands")
    return Path(found)


# Linux's call for what becomes of a child whose parent ends.
LIBRARY = ctypes.CDLL(None)
PARENT_ENDS = 1


def limited(memory: int | None) -> Callable[[], None]:
    """What a child does before it starts: it takes at most so many bytes of memory, and ends where who asked has ended."""
    def start() -> None:
        LIBRARY.prctl(PARENT_ENDS, signal.SIGKILL)
        if memory is not None:
            resource.setrlimit(resource.RLIMIT_AS, (memory, memory))
    return start


class Program:
    """Runs of the program. `seconds` and `memory` (bytes) are limits for each run that has no other."""

    def __init__(self, path: Path | str | None = None, seconds: float | None = None, memory: int | None = None) -> None:
        self.path = str(path or find_build())
        self.seconds, self.memory = seconds, memory

    def run(self, words: Sequence[str], *, seconds: float | None = None, memory: int | None = None,
            folder: str | None = None) -> Ended:
        """Runs the program with these words to its end, or to the end of its time."""
        limit = seconds if seconds is not None else self.seconds
        start = limited(memory if memory is not None else self.memory)
        try:
            ended = subprocess.run([self.path, *words], stdin=subprocess.DEVNULL, capture_output=True, timeout=limit,
                                   preexec_fn=start, cwd=folder)
        except subprocess.TimeoutExpired as over:
            return Ended(None, over.stdout or b"", over.stderr or b"")
        except OSError as error:
            raise Stop(f"the program can't be run: {error.strerror}: {self.path}", NOTHING) from None
        return Ended(ended.returncode, ended.stdout, ended.stderr)

    def check(self, path: str, options: Sequence[str] = (), **limits: float | None) -> Ended:
        """`check` of a file."""
        return self.run(["check", *options, "--", path], **limits)  # type: ignore[arg-type]

    def on_text(self, text: bytes, command: str = "check", operands: Sequence[str] = (), options: Sequence[str] = (),
                files: dict[str, bytes] | None = None, **limits: float | None) -> Ended:
        """A command over a copy of a text. `files` are further files, which the operands can name."""
        with tempfile.TemporaryDirectory(prefix="smv-") as room:
            for name, data in {"model.smv": text, **(files or {})}.items():
                Path(room, name).write_bytes(data)
            words = [command, *options, "--", "model.smv", *operands]
            return self.run(words, folder=room, **limits)  # type: ignore[arg-type]
