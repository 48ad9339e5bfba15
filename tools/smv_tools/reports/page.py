"""The record as one page for a browser: the model's text, each verdict, and its path as a diagram that is stepped through."""
from __future__ import annotations

from collections.abc import Iterator
from pathlib import Path
from typing import Any

import jinja2

from ..failures.asking import Asking
from ..failures.picture import Picture
from ..failures.rows import all_rows
from ..failures.showing import Shown, Showing
from ..model import Model, Unreadable
from ..program import Program
from ..report import Verdict
from ..source import Source, printable
from ..statuses import Stop
from .findings import Finding, Findings
from .gathered import Gathered

TEMPLATE = Path(__file__).with_name("page.html.jinja")


def said(it: Any) -> str:
    """What `recheck` or `replay` said."""
    return "" if it is None else f"{it.answer} {it.more}".strip()


def path_of(model: Model, shown: Shown) -> dict[str, Any]:
    """What a browser needs of a path: its picture, and the values of each state."""
    assert shown.trace
    rows = all_rows(model, shown.trace.states, shown.leaves)
    picture = Picture(shown.trace, rows, shown.marks, shown.end, f"specification {shown.number}: {shown.text}")
    return {
        "picture": picture.drawn(), "edges": picture.at, "loop": shown.trace.loop, "marks": shown.marks,
        "names": [row.name for row in rows], "kinds": [row.kind for row in rows], "rows": [row.cells for row in rows],
        "count": len(shown.trace.states),
    }


def specification(found: Finding, model: Model | None, showing: Showing | None) -> dict[str, Any]:
    """What is shown of a specification."""
    value: dict[str, Any] = {
        "number": found.number, "name": found.name or "", "line": found.line, "instance": found.instance,
        "formula": found.formula, "verdict": found.verdict, "recheck": said(found.proof), "claim": "", "judged": "",
        "path": None, "wrong": found.as_expected is False, "expected": found.expected or "",
    }
    if model is None or showing is None:
        return value
    try:
        shown = showing.of(Verdict(found.number, found.line, found.verdict, found.limit, found.trace))
    except Stop as why:
        return {**value, "claim": f"No path is shown: {why}."}
    path = path_of(model, shown) if shown.trace else None
    return {**value, "claim": shown.claim, "judged": shown.judged, "path": path}


def record_value(record: Findings, program: Program) -> dict[str, Any]:
    source = Source.load(record.path)
    try:
        model: Model | None = Model.of(source)
    except Unreadable:
        model = None
    showing = Showing(Asking(model, program, ["--nodes", str(record.nodes)])) if model else None
    return {
        "path": record.path, "nodes": record.nodes, "seconds": f"{record.seconds:.2f}", "ending": record.ending,
        "refused": record.refused.line if record.refused else "", "notes": record.notes,
        "lines": [printable(it) for it in source.lines],
        "specs": [specification(it, model, showing) for it in record.findings],
    }


def data_of(records: list[dict[str, Any]]) -> Iterator[Any]:
    """What the steps need, without pictures."""
    for record in records:
        for spec in record["specs"]:
            path = spec["path"]
            yield None if path is None else {key: it for key, it in path.items() if key != "picture"}


def put_page(gathered: Gathered) -> bytes:
    """The page, which asks for no network."""
    program = Program()
    records = [record_value(it, program) for it in gathered.records]
    environment = jinja2.Environment(autoescape=True, trim_blocks=True, lstrip_blocks=True, undefined=jinja2.StrictUndefined)
    template = environment.from_string(TEMPLATE.read_text())
    text = template.render(records=records, data=list(data_of(records)), begun=gathered.begun.strftime("%Y-%m-%d %H:%M UTC"))
    return text.encode(errors="xmlcharrefreplace")
