"""The archives that run_task.sh puts: files that other machines made, so that nothing in them is taken for granted."""
from __future__ import annotations

import re
import tarfile
from pathlib import Path

from .tasks import Result

END = re.compile(r"status (over|\d+)\nmilliseconds (\d+)\n")
# A proof file has 64 MB at most.
MOST_BYTES = 64 << 20
MOST_MEMBERS = 3
# As if a signal had ended it.
LOST = -1


def files_in(path: Path) -> dict[str, bytes]:
    """The files of the archive; none where it can't be read, and only what may be in it."""
    found: dict[str, bytes] = {}
    try:
        with tarfile.open(path, "r|gz") as archive:
            for member in archive:
                if len(found) == MOST_MEMBERS or not member.isfile() or member.size > MOST_BYTES:
                    return {}
                file = archive.extractfile(member)
                found[member.name] = file.read() if file else b""
    except (OSError, EOFError, tarfile.TarError, ValueError):
        return {}
    return found


def result_in(path: Path, worker: str) -> Result:
    """The result in the archive, of the worker that an engine's log names; a lost one where there is none."""
    files = files_in(path)
    end = END.fullmatch(files.get("end", b"").decode(errors="replace"))
    if not end:
        return Result(LOST, b"", worker=worker)
    status = None if end[1] == "over" else int(end[1])
    if status is not None and status > 128:
        status = 128 - status
    return Result(status, files.get("put", b""), files.get("proof", b""), int(end[2]) / 1000, worker)
