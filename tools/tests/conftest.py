"""What the tests share: the program's build, `./smv`, and the example models."""
from __future__ import annotations

import os
import subprocess
import sys
from pathlib import Path

import pytest
from hypothesis import settings

TOP = Path(__file__).resolve().parents[2]
sys.path.insert(0, str(TOP / "tools"))
# The same cases at each run, whatever time they take.
settings.register_profile("gate", derandomize=True, deadline=None, database=None, print_blob=False)
settings.load_profile("gate")

from smv_tools.program import Program, find_build  # noqa: E402


@pytest.fixture(scope="session")
def program() -> Program:
    """The build that stands, or that the first call makes."""
    subprocess.run([TOP / "smv", "check", TOP / "examples/swap.smv"], capture_output=True)
    return Program(find_build())


class Smv:
    """Calls of ./smv in the repository's folder; lines on the build are left out."""

    def __call__(self, *words: str, **more: str) -> subprocess.CompletedProcess[str]:
        environment = {**os.environ, "SMV_QUIET": "1", **more}
        return subprocess.run([TOP / "smv", *words], cwd=TOP, env=environment, capture_output=True, text=True,
                              stdin=subprocess.DEVNULL)


@pytest.fixture(scope="session")
def smv(program: Program) -> Smv:
    return Smv()


EXAMPLES = sorted((TOP / "examples").glob("*.smv"))
