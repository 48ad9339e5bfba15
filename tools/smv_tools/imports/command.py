"""The command `import`."""
from __future__ import annotations

from pathlib import Path

from ..calls import Call
from ..screen import put, tell
from ..source import Source
from ..statuses import CLEAR, FAILED, OUTSIDE, REFUSED, Stop
from .changes import KEPT, LEFT_OUT
from .importer import LANGUAGES, imported
from .tokens import Unread


def save(path: str, data: bytes) -> None:
    try:
        Path(path).write_bytes(data)
    except OSError as error:
        raise Stop(f"{error.strerror}: {path}", OUTSIDE) from None


def run(call: Call) -> int:
    source, language = Source.load(call.model), call.option("--from")
    try:
        made = imported(source.text, LANGUAGES[language] if language else None)
    except Unread as why:
        raise Stop(f"{call.model}: {why}", REFUSED) from None
    for change in made.changes:
        tell(str(change))
    data, out = made.text.encode("latin-1"), call.option("--out")
    if out:
        save(out, data)
    else:
        put(data)
    return FAILED if made.some(LEFT_OUT, KEPT) else CLEAR
