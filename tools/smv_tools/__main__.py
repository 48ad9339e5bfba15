"""`python3 -m smv_tools WORD..`: a command of the tools. `./smv` calls this, and says where the program is."""
from __future__ import annotations

import importlib.util
import os
import shutil
import subprocess
import sys

from .statuses import NO_COMMAND, NOTHING

# Of each library that commands need: its package in Debian.
TRIED = "SMV_OTHER_PYTHON"
LIBRARIES = {"click": "python3-click", "rich": "python3-rich", "jinja2": "python3-jinja2"}


def missing(names: tuple[str, ...]) -> list[str]:
    return [LIBRARIES[name] for name in names if importlib.util.find_spec(name) is None]


def run_elsewhere(words: list[str]) -> None:
    """Goes on in the other interpreter, where that has the libraries."""
    other = shutil.which("python3")
    if other is None or os.path.samefile(other, sys.executable) or TRIED in os.environ:
        return
    os.environ[TRIED] = "1"
    asked = [other, "-c", "import click, rich"]
    if subprocess.run(asked, stderr=subprocess.DEVNULL).returncode == 0:
        os.execv(other, [other, "-P", "-m", "smv_tools", *words])


def start(words: list[str]) -> int:
    from .words import commands

    command = commands().get(words[0]) if words else None
    if command is not None and command.name == "help":
        from .plain import run_plain
        return run_plain(command, words[1:])
    if command is None or not command.module:
        return NO_COMMAND
    packages = missing(command.needs)
    if packages:
        run_elsewhere(words)
        print(f"smv: this needs {' and '.join(packages)} of Debian: apt-get install {' '.join(packages)}", file=sys.stderr)
        return NOTHING
    from .cli import main
    return main(words)


if __name__ == "__main__":
    sys.exit(start(sys.argv[1:]))
