"""Checks by the program, each of which can be stopped."""
from __future__ import annotations

import subprocess
import tempfile
import threading
from collections.abc import Sequence
from pathlib import Path

from ..program import Ended, Program
from ..statuses import NOTHING, Stop

SECONDS = 60.0


class Stopped(Exception):
    """The check was stopped."""


class Check:
    """A check of a text: `run` once, and `stop` from another thread at any time."""

    def __init__(self, program: Program, data: bytes, options: Sequence[str], seconds: float) -> None:
        self.program, self.data, self.options, self.seconds = program, data, options, seconds
        self.lock = threading.Lock()
        self.stopped = False
        self.running: subprocess.Popen[bytes] | None = None

    def stop(self) -> None:
        with self.lock:
            self.stopped = True
            if self.running is not None:
                self.running.kill()

    def run(self) -> Ended:
        """What the program put; its status is None where its time was over. Stopped where it was stopped."""
        with tempfile.TemporaryDirectory(prefix="smv-", ignore_cleanup_errors=True) as room:
            Path(room, "model.smv").write_bytes(self.data)
            running = self._start(room)
            try:
                put, told = running.communicate(timeout=self.seconds)
                status: int | None = running.returncode
            except subprocess.TimeoutExpired:
                running.kill()
                put, told = running.communicate()
                status = None
        if self.stopped:
            raise Stopped
        return Ended(status, put, told)

    def _start(self, room: str) -> subprocess.Popen[bytes]:
        words = [self.program.path, "check", *self.options, "--", "model.smv"]
        with self.lock:
            if self.stopped:
                raise Stopped
            try:
                self.running = subprocess.Popen(words, cwd=room, stdin=subprocess.DEVNULL, stdout=subprocess.PIPE,
                                                stderr=subprocess.PIPE)
            except OSError as error:
                raise Stop(f"the program can't be run: {error.strerror}: {self.program.path}", NOTHING) from None
            return self.running
