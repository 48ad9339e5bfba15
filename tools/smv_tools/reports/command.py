"""`smv report`: gathers the records of several models, and puts them in the form that is asked."""
from __future__ import annotations

import importlib
import importlib.util
from datetime import datetime, timezone
from pathlib import Path

from ..builds import build_of
from ..calls import Call
from ..program import Program
from ..screen import put
from ..statuses import NOTHING, OUTSIDE, USAGE, Stop
from .findings import Findings, gather
from .gathered import Form, Gathered
from .json_form import put_json
from .text_form import put_text

FORMS = ("json", "junit", "sarif", "html")
ENDINGS = {".json": "json", ".xml": "junit", ".sarif": "sarif", ".html": "html", ".htm": "html"}
LIBRARIES = {"junitparser": "python3-junitparser", "jinja2": "python3-jinja2"}
MEGABYTE = 1 << 20


def form_name(call: Call) -> str:
    """The form that is asked by an option, or by the ending of the name behind -o."""
    asked = [it for it in FORMS if call.has(f"--{it}")]
    if len(asked) > 1:
        raise Stop(f"one form is put at a time, and {' and '.join('--' + it for it in asked)} are asked", USAGE)
    out = call.option("--out")
    return asked[0] if asked else ENDINGS.get(Path(out).suffix.lower(), "text") if out else "text"


def form_from(module: str, name: str, library: str) -> Form:
    """A form from a module that needs a library; Stop where one of them isn't there."""
    if importlib.util.find_spec(f"{__package__}.{module}") is None:
        raise Stop(f"this installation has no {module}", NOTHING)
    if importlib.util.find_spec(library) is None:
        package = LIBRARIES[library]
        raise Stop(f"this needs {package} of Debian: apt-get install {package}", NOTHING)
    found: Form = getattr(importlib.import_module(f".{module}", __package__), name)
    return found


def form_of(name: str) -> Form:
    if name == "junit":
        return form_from("junit_form", "put_junit", "junitparser")
    if name == "html":
        return form_from("page", "put_page", "jinja2")
    if name == "sarif":
        from .sarif_form import put_sarif
        return put_sarif
    return put_json if name == "json" else put_text


def limited(call: Call) -> Program:
    """The program with the limits of the call."""
    program, memory = call.program, call.number("--memory")
    program.seconds = call.number("--seconds")
    program.memory = memory * MEGABYTE if memory else None
    return program


def records(call: Call) -> list[Findings]:
    program, proofs = limited(call), not call.has("--no-proof")
    return [gather(program, path, call.number("--nodes"), proofs, call.option_all("--only")) for path in call.operands]


def run(call: Call) -> int:
    name = form_name(call)
    form = form_of(name)
    begun = datetime.now(timezone.utc)
    gathered = Gathered.since(begun, build_of(call.program), records(call))
    data, out = form(gathered), call.option("--out")
    if out is None:
        put(data)
    else:
        try:
            Path(out).write_bytes(data)
        except OSError as error:
            raise Stop(f"{error.strerror}: {out}", OUTSIDE) from None
    return gathered.status
