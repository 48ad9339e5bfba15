"""Writes what is made from the table of commands: `python3 -m smv_tools.writing FOLDER VERSION`."""
from __future__ import annotations

import sys
from pathlib import Path

from .completion import bash, fish, zsh
from .manual import page


def written(version: str) -> dict[str, str]:
    """The texts by their places in the folder."""
    return {"man/smv.1": page(version), "completion/smv.bash": bash(), "completion/_smv": zsh(), "completion/smv.fish": fish()}


def main(folder: str, version: str) -> int:
    for name, text in written(version).items():
        path = Path(folder, name)
        path.parent.mkdir(parents=True, exist_ok=True)
        path.write_text(text, encoding="utf-8")
    return 0


if __name__ == "__main__":
    sys.exit(main(*sys.argv[1:]))
