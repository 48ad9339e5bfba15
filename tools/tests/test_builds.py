"""Builds: two calls at once build once, the line on the proof stands once, and a build is found where rt is gone. A kit that
builds nothing stands in place of the true one: its `rt try` writes some code, and its linker a program that knows one report."""
from __future__ import annotations

import os
import pty
import shutil
import subprocess
from pathlib import Path

import pytest
from conftest import TOP

RT = """#!/bin/sh
[ "$1" = version ] && echo kit && exit
echo "$1" >>"{calls}"
mkdir -p "$TMPDIR/a/b" && sleep {seconds}
head -c 200000 /dev/zero >"$TMPDIR/a/b/new" && mv "$TMPDIR/a/b/new" "$TMPDIR/a/b/module.bc" && : >"$TMPDIR/a/b/other"
sleep 20
"""
TOOL = """#!/bin/sh
while [ "$1" != -o ]; do shift; done
printf '%s\\n' '#!/bin/sh' '[ $# -gt 0 ] || exit 5' 'echo total 0 true 0 false 0 unknown 0' >"$2"
chmod +x "$2"
"""
BUILDING = "smv: building the program"
NOT_PROVED = "smv: this build is not proved"


class Room:
    """A copy of the start scripts, beside a program of one file."""

    def __init__(self, folder: Path, seconds: int) -> None:
        self.top, self.calls, self.bin = folder / "top", folder / "calls", folder / "kit/bin"
        (self.top / "tools").mkdir(parents=True)
        shutil.copy(TOP / "smv", self.top)
        for name in ("start.sh", "running.sh", "checking.sh", "builds.sh", "tried.sh", "build-unproved", "VERSION"):
            shutil.copy(TOP / "tools" / name, self.top / "tools")
        (self.top / "tools/smv_tools").mkdir()
        (self.top / "crates/smv_run/src").mkdir(parents=True)
        (self.top / "crates/smv_run/src/main.rt").write_text("fn main() {}\n")
        (self.top / "crates.txt").write_text("smv_run:\n")
        (folder / "kit/toolchain/bin").mkdir(parents=True)
        self.bin.mkdir()
        for path, text in ((self.bin / "rt", RT.format(calls=self.calls, seconds=seconds)), (self.bin / "rattle-link", TOOL),
                           (folder / "kit/toolchain/bin/clang", TOOL)):
            path.write_text(text)
            path.chmod(0o755)

    def start(self, with_rt: bool = True, error: int = subprocess.PIPE) -> subprocess.Popen[str]:
        path = f"{self.bin}:/usr/bin:/bin" if with_rt else "/usr/bin:/bin"
        environment = {key: value for key, value in os.environ.items() if not key.startswith("SMV_")} | {"PATH": path}
        return subprocess.Popen([self.top / "smv", "check", "some.smv"], env=environment, stdin=subprocess.DEVNULL, text=True,
                                stdout=subprocess.PIPE, stderr=error)

    def ended(self, call: subprocess.Popen[str]) -> tuple[int, str]:
        """The status and what standard error has."""
        put, told = call.communicate(timeout=120)
        assert put == "total 0 true 0 false 0 unknown 0\n", told
        return call.returncode, told


def test_two_calls_at_once_build_once(tmp_path: Path) -> None:
    room = Room(tmp_path, 3)
    ends = [room.ended(call) for call in [room.start() for _ in range(2)]]
    assert [status for status, _ in ends] == [0, 0]
    told = "".join(text for _, text in ends)
    assert room.calls.read_text() == "try\n"
    assert told.count(BUILDING) == 1 and told.count("another call is at it") == 1
    assert told.count(NOT_PROVED) == 1
    later = room.ended(room.start())
    assert later == (0, "") and room.calls.read_text() == "try\n"


def test_the_line_on_the_proof_stands_once_for_each_build(tmp_path: Path) -> None:
    room = Room(tmp_path, 0)
    assert NOT_PROVED in room.ended(room.start())[1]
    assert room.ended(room.start()) == (0, "")
    (room.top / "crates/smv_run/src/main.rt").write_text("fn main() { }\n")
    assert NOT_PROVED in room.ended(room.start())[1]


def test_a_build_is_found_without_rt(tmp_path: Path) -> None:
    room = Room(tmp_path, 0)
    room.ended(room.start())
    assert room.ended(room.start(with_rt=False)) == (0, "")
    (room.top / "crates/smv_run/src/main.rt").write_text("fn main() { }\n")
    call = room.start(with_rt=False)
    _, told = call.communicate(timeout=120)
    assert call.returncode == 70 and told == "smv: rt, the command of the Rattle toolchain, isn't on the path, and no build stands\n"


@pytest.mark.skipif(not hasattr(os, "openpty"), reason="there are no terminals")
def test_the_seconds_are_told_on_a_terminal(tmp_path: Path) -> None:
    room = Room(tmp_path, 3)
    ours, theirs = pty.openpty()
    call = room.start(error=theirs)
    os.close(theirs)
    told = b""
    try:
        while data := os.read(ours, 4096):
            told += data
    except OSError:
        pass
    os.close(ours)
    call.communicate(timeout=120)
    assert call.returncode == 0 and b"smv: building: 1 s" in told and b"\r\x1b[K" in told
