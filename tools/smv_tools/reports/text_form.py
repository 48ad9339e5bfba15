"""The record as lines for people: one for each specification."""
from __future__ import annotations

from collections.abc import Iterator

from ..report import Trace
from .findings import Finding, Findings, Said
from .gathered import Gathered


def said_text(what: str, said: Said | None) -> str:
    if said is None:
        return ""
    return f", {what} {said.answer}{f' ({said.more})' if said.more else ''}"


def path_text(trace: Trace) -> str:
    """How long a path is, in words."""
    if trace.loop is None:
        return ", from state 0"
    return f", a path of {len(trace.states)} state{'s' if len(trace.states) > 1 else ''}, loop {trace.loop}"


def expected_text(found: Finding) -> str:
    if found.as_expected is None:
        return " (label)" if found.label else ""
    return "" if found.as_expected else f", expected {found.expected}"


def verdict_text(found: Finding) -> str:
    """The verdict with what is expected, as `false, expected true`."""
    limit = f": node limit {found.limit}" if found.limit is not None else ""
    return f"{found.verdict}{limit}{expected_text(found)}"


def finding_line(record: Findings, found: Finding) -> str:
    named = f"spec {found.number}{' ' + found.name if found.name else ''}"
    path = path_text(found.trace) if found.trace else ""
    tested = said_text("proof", found.proof) + said_text("path", found.replay)
    return f"{record.path}:{found.line}: {named} {verdict_text(found)}{path}{tested}"


def record_lines(record: Findings) -> Iterator[str]:
    if record.refused:
        span, text = record.refused.span, record.refused.text
        place = f":{span.line}:{span.column}" if span else ""
        yield f"{record.path}{place}: refused {record.refused.line}{': ' + text.strip() if text.strip() else ''}"
    elif record.ending:
        yield f"{record.path}: no report: {record.ending}"
    for note in record.notes:
        yield f"{record.path}: note: {note}"
    for found in record.findings:
        yield finding_line(record, found)


def put_text(gathered: Gathered) -> bytes:
    lines = [line for record in gathered.records for line in record_lines(record)]
    counts = " ".join(f"{it} {sum(record.count(it) for record in gathered.records)}" for it in ("true", "false", "unknown"))
    models, total = len(gathered.records), sum(len(it.findings) for it in gathered.records)
    lines.append(f"models {models} total {total} {counts} seconds {gathered.seconds:.2f}")
    return "".join(f"{line}\n" for line in lines).encode(errors="backslashreplace")
