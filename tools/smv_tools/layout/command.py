"""The command `fmt`."""
from __future__ import annotations

import os
import shutil
import sys
import tempfile
from pathlib import Path

from ..calls import Call
from ..reading import SyntaxFault
from ..screen import put, tell
from ..source import MOST_BYTES, Source
from ..statuses import CLEAR, FAILED, OUTSIDE, REFUSED, Stop
from ..tokens import LexFault
from .layout import laid_out

INPUT = "-"


def fault_of(source: Source, fault: LexFault | SyntaxFault) -> str:
    """What is wrong with the text, with its place."""
    if isinstance(fault, LexFault):
        what = "a number is too large" if fault.code == "E2" else "no token begins here"
        return f"{source.path}:{fault.line}:{fault.column}: {what}"
    at = fault.token.at if fault.token else len(source.text)
    return f"{source.path}:{source.line_at(at)}:{source.column_at(at)}: {fault}"


def laid_out_or_stop(source: Source) -> bytes:
    """The text in its layout; Stop where it is no program."""
    if len(source.data) > MOST_BYTES:
        raise Stop(f"{source.path}: the file has more than {MOST_BYTES:,} bytes", REFUSED)
    try:
        return laid_out(source).encode("latin-1")
    except (LexFault, SyntaxFault) as fault:
        raise Stop(f"{fault_of(source, fault)}; its layout isn't changed", REFUSED) from None


def save(path: str, data: bytes) -> None:
    """Puts the bytes in place of the file's at once: it has the old ones or the new ones whatever happens."""
    place = Path(path).resolve()
    try:
        with tempfile.NamedTemporaryFile(dir=place.parent, prefix=f".{place.name}-", delete=False) as file:
            file.write(data)
        shutil.copymode(place, file.name)
        os.replace(file.name, place)
    except OSError as error:
        raise Stop(f"{error.strerror}: {path}", OUTSIDE) from None


def on_input(check: bool) -> int:
    source = Source(sys.stdin.buffer.read(MOST_BYTES + 1), "standard input")
    found = laid_out_or_stop(source)
    if not check:
        put(found)
        return CLEAR
    return FAILED if found != source.data else CLEAR


def on_file(path: str, check: bool) -> int:
    source = Source.load(path)
    found = laid_out_or_stop(source)
    if found == source.data:
        return CLEAR
    if check:
        put(f"{path}\n".encode(errors="surrogateescape"))
        return FAILED
    save(path, found)
    tell(f"{path} is laid out")
    return CLEAR


def run(call: Call) -> int:
    """Each file is tried, whatever is wrong with another one; the status is the greatest."""
    worst, check = CLEAR, call.has("--check")
    for path in call.operands:
        try:
            status = on_input(check) if path == INPUT else on_file(path, check)
        except Stop as stop:
            tell(str(stop))
            status = stop.status
        worst = max(worst, status)
    return worst
