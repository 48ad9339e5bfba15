"""The record as JSON, with the schema docs/report.schema.json."""
from __future__ import annotations

import json
from typing import Any

from ..report import Trace
from .findings import Finding, Findings, RefusedAt, Said
from .gathered import Gathered
from .places import Span

FORM = "smv-report-1"
DIGITS = 6


def span_value(span: Span | None) -> dict[str, int] | None:
    return None if span is None else {
        "line": span.line, "column": span.column, "end_line": span.end_line, "end_column": span.end_column,
    }


def path_value(trace: Trace | None) -> dict[str, Any] | None:
    return None if trace is None else {"states": trace.states, "loop": trace.loop}


def said_value(said: Said | None) -> dict[str, Any] | None:
    if said is None:
        return None
    value: dict[str, Any] = {"answer": said.answer, "more": said.more}
    if said.lines is not None:
        value.update(lines=said.lines, nodes=said.nodes)
    return value


def finding_value(found: Finding) -> dict[str, Any]:
    return {
        "number": found.number, "name": found.name, "instance": found.instance, "label": found.label,
        "line": found.line, "place": span_value(found.span), "formula": found.formula,
        "verdict": found.verdict, "expected": found.expected, "as_expected": found.as_expected, "limit": found.limit,
        "path": path_value(found.trace), "recheck": said_value(found.proof), "replay": said_value(found.replay),
    }


def refusal_value(refused: RefusedAt | None) -> dict[str, Any] | None:
    if refused is None:
        return None
    it = refused.refusal
    return {
        "code": it.code, "line": it.line, "words": list(it.words), "place": span_value(refused.span), "text": refused.text,
        "kind": it.kind or None, "now": it.now, "after": it.after,
    }


def record_value(record: Findings) -> dict[str, Any]:
    return {
        "model": record.path, "sha256": record.sha256 or None, "nodes": record.nodes, "status": record.status,
        "seconds": round(record.seconds, DIGITS), "test_seconds": round(record.test_seconds, DIGITS),
        "refusal": refusal_value(record.refused), "ending": record.ending or None, "notes": record.notes,
        "specifications": [finding_value(it) for it in record.findings],
    }


def value_of(gathered: Gathered) -> dict[str, Any]:
    """The record as plain values."""
    build = gathered.build
    return {
        "form": FORM,
        "program": {"version": build.version, "commit": build.commit, "build": build.name, "proved": build.proved,
                    "sha256": build.sha256},
        "begun": gathered.begun.isoformat(timespec="seconds"), "seconds": round(gathered.seconds, DIGITS),
        "status": gathered.status, "models": [record_value(it) for it in gathered.records],
    }


def put_json(gathered: Gathered) -> bytes:
    return (json.dumps(value_of(gathered), indent=2, ensure_ascii=False) + "\n").encode()
