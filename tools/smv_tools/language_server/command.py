"""The command `lsp`."""
from __future__ import annotations

import os
from pathlib import Path

from ..calls import Call
from ..program import TOP
from .checking import SECONDS
from .server import Server


def version() -> str:
    file = TOP / "tools" / "VERSION"
    return file.read_text().strip() if file.is_file() else ""


def run(call: Call) -> int:
    """Serves one editor. What else would be put on standard output goes to standard error, so that messages stay whole."""
    given, put = os.dup(0), os.dup(1)
    os.dup2(2, 1)
    nothing = os.open(os.devnull, os.O_RDONLY)
    os.dup2(nothing, 0)
    seconds = call.number("--seconds") or SECONDS
    with open(given, "rb") as stream, open(put, "wb") as out:
        status = Server(stream, out, lambda: call.program, call.nodes, float(seconds), version()).serve()
        out.flush()
    # Checks and answers that are under way aren't waited for.
    os._exit(status)
