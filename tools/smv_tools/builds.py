"""Which program is run: its version, its commit, its build and whether that is proved."""
from __future__ import annotations

import hashlib
import os
import subprocess
from dataclasses import dataclass
from pathlib import Path

from .program import TOP, Program

# What the start script sets: the build's name.
BUILD = "SMV_BUILD"
UNKNOWN = "unknown"


@dataclass(frozen=True)
class Build:
    """`name` begins with `proved-` where the build is proved, and ends with the checksum of its sources; `sha256` is that of
    the program's file."""

    version: str
    commit: str
    name: str
    sha256: str

    @property
    def proved(self) -> bool:
        return self.name.startswith("proved-")


def installed_lines() -> dict[str, str]:
    """What an installed program says of itself: lines of a word and what is behind it."""
    file = Path(__file__).resolve().parents[1] / "version"
    if not file.is_file():
        return {}
    return dict(line.split(" ", 1) for line in file.read_text().splitlines() if " " in line)


def commit_here() -> str:
    words = ["git", "-C", str(TOP), "describe", "--always", "--dirty", "--abbrev=12"]
    try:
        found = subprocess.run(words, capture_output=True, text=True)
    except OSError:
        return UNKNOWN
    return found.stdout.strip() or UNKNOWN


def version_here() -> str:
    file = TOP / "tools" / "VERSION"
    return file.read_text().strip() if file.is_file() else UNKNOWN


def build_of(program: Program) -> Build:
    lines = installed_lines()
    own = os.path.basename(program.path)
    named = os.environ.get(BUILD) or lines.get("build") or UNKNOWN
    name = own if own.startswith(("proved-", "unproved-")) else named
    with open(program.path, "rb") as file:
        checksum = hashlib.sha256(file.read()).hexdigest()
    return Build(lines.get("smv") or version_here(), lines.get("commit") or commit_here(), name, checksum)
