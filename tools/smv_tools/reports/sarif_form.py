"""The record as SARIF 2.1.0 (OASIS): a result for each specification that is false, unknown or not as expected, for each
refusal, and for each proof or path that was rejected."""
from __future__ import annotations

import hashlib
import json
from collections.abc import Iterator
from datetime import timedelta
from pathlib import PurePath
from typing import Any
from urllib.parse import quote

from ..report import Trace
from ..source import Source
from ..statuses import DECIDED, REFUSED, Stop
from .findings import Finding, Findings
from .gathered import Gathered, exit_status
from .places import Span
from .rules import FALSE, REJECTED, RULES, UNEXPECTED, UNKNOWN
from .text_form import said_text, verdict_text

VERSION = "2.1.0"
SCHEMA = "https://json.schemastore.org/sarif-2.1.0.json"
Value = dict[str, Any]


def uri_of(path: str) -> str:
    """The file's place: relative as it was given, or with its scheme."""
    pure = PurePath(path)
    return pure.as_uri() if pure.is_absolute() else quote(pure.as_posix())


class Lines:
    """The lines of a file, to count columns in signs where they are given in bytes."""

    def __init__(self, path: str) -> None:
        try:
            self.lines = Source.load(path).lines
        except Stop:
            self.lines = []

    def column(self, line: int, column: int) -> int:
        """The column in signs; the bytes before it are signs, or each one its own where they are no text."""
        if not 1 <= line <= len(self.lines):
            return column
        before = self.lines[line - 1][:column - 1].encode("latin-1")
        return len(before.decode(errors="surrogateescape")) + 1

    def region(self, span: Span) -> Value:
        return {
            "startLine": span.line, "startColumn": self.column(span.line, span.column),
            "endLine": span.end_line, "endColumn": self.column(span.end_line, span.end_column),
        }


class Results:
    """The results of a record."""

    def __init__(self, record: Findings, place: int) -> None:
        self.record, self.place, self.lines = record, place, Lines(record.path)

    def location(self, span: Span | None, line: int | None = None) -> Value:
        physical: Value = {"artifactLocation": {"uri": uri_of(self.record.path), "index": self.place}}
        if span is not None:
            physical["region"] = self.lines.region(span)
        elif line is not None:
            physical["region"] = {"startLine": line}
        return physical

    def result(self, rule: str, text: str, physical: Value, kind: str = "fail", level: str = "error") -> Value:
        return {
            "ruleId": rule, "ruleIndex": list(RULES).index(rule), "kind": kind,
            "level": level if kind == "fail" else "none", "message": {"text": text},
            "locations": [{"physicalLocation": physical}],
        }

    def refusal(self) -> Iterator[Value]:
        if self.record.refused:
            refusal = self.record.refused.refusal
            text = f"refused {self.record.refused.line}: {RULES.get(refusal.code, 'it is refused')}"
            yield self.result(refusal.code, text, self.location(self.record.refused.span, refusal.line))

    def finding(self, found: Finding) -> Iterator[Value]:
        if found.label:
            return
        physical = self.location(found.span, found.line)
        named = f"specification {found.shown} is {verdict_text(found)}{': ' + found.formula if found.formula else ''}"
        if found.verdict == "unknown":
            yield self.result(UNKNOWN, named, physical, "informational" if found.as_expected else "open")
        elif found.verdict == "false":
            result = self.result(FALSE, named, physical, "informational" if found.as_expected else "fail")
            result.update(self.more_on(found, physical))
            yield result
        elif found.as_expected is False:
            yield self.result(UNEXPECTED, named, physical)
        for what, said in (("proof", found.proof), ("path", found.replay)):
            if said and said.answer == "rejected":
                yield self.result(REJECTED, f"specification {found.shown}{said_text(what, said)}", physical)

    def more_on(self, found: Finding, physical: Value) -> Value:
        """The path, and what the result keeps where lines move."""
        text = f"{found.instance} {found.name or ''} {found.formula}"
        more: Value = {"partialFingerprints": {"formula/v1": hashlib.sha256(text.encode()).hexdigest()}}
        if found.trace:
            more["codeFlows"] = [{"message": {"text": path_message(found.trace)},
                                  "threadFlows": [{"locations": list(steps(found.trace, physical))}]}]
        return more

    def all(self) -> Iterator[Value]:
        yield from self.refusal()
        for found in self.record.findings:
            yield from self.finding(found)


def path_message(trace: Trace) -> str:
    if trace.loop is None:
        return "the least initial state at which it is false; no path is shown"
    return f"a path of {len(trace.states)} states on which it fails; behind the last one state {trace.loop} comes again"


def steps(trace: Trace, physical: Value) -> Iterator[Value]:
    """The states of a path, each with what the step into it changed."""
    for k, state in enumerate(trace.states):
        changed = [f"{name} = {state[name]}" for name in trace.names if k == 0 or trace.changed(k, name)]
        text = f"state {k}: {', '.join(changed) or 'as before'}"
        yield {
            "location": {"physicalLocation": physical, "message": {"text": text}}, "executionOrder": k + 1,
            "state": {name: {"text": str(value)} for name, value in state.items()},
        }


def artifact(record: Findings) -> Value:
    value: Value = {"location": {"uri": uri_of(record.path)}}
    if record.sha256:
        value["hashes"] = {"sha-256": record.sha256}
    return value


def notifications(records: list[Findings]) -> Iterator[Value]:
    """What isn't a result: runs without a report, and notes."""
    for place, record in enumerate(records):
        location = {"physicalLocation": {"artifactLocation": {"uri": uri_of(record.path), "index": place}}}
        for level, texts in (("error", [record.ending] * bool(record.ending)), ("warning", record.notes)):
            for text in texts:
                yield {"level": level, "message": {"text": text}, "locations": [location]}


def invocation(gathered: Gathered) -> Value:
    ended = gathered.begun + timedelta(seconds=gathered.seconds)
    form = "%Y-%m-%dT%H:%M:%SZ"
    return {
        "executionSuccessful": all(exit_status(it.status) in (*DECIDED, REFUSED) for it in gathered.records),
        "exitCode": gathered.status, "startTimeUtc": gathered.begun.strftime(form), "endTimeUtc": ended.strftime(form),
        "toolExecutionNotifications": list(notifications(gathered.records)),
    }


def driver(gathered: Gathered) -> Value:
    rules = [{"id": name, "shortDescription": {"text": text}} for name, text in RULES.items()]
    build = gathered.build
    return {"name": "Buchiska", "semanticVersion": build.version, "rules": rules,
            "properties": {"commit": build.commit, "build": build.name, "proved": build.proved}}


def put_sarif(gathered: Gathered) -> bytes:
    results = [it for place, record in enumerate(gathered.records) for it in Results(record, place).all()]
    run = {
        "tool": {"driver": driver(gathered)}, "columnKind": "unicodeCodePoints", "invocations": [invocation(gathered)],
        "artifacts": [artifact(it) for it in gathered.records], "results": results,
    }
    value = {"$schema": SCHEMA, "version": VERSION, "runs": [run]}
    return (json.dumps(value, indent=2, ensure_ascii=False) + "\n").encode(errors="backslashreplace")
