"""The record as JUnit's XML, by junitparser: a suite for each model, a case for each specification."""
from __future__ import annotations

from pathlib import PurePath

from junitparser import Attr, Error, Failure, JUnitXml, Skipped, TestCase, TestSuite  # type: ignore[import]

from ..report import Trace
from .findings import Finding, Findings
from .gathered import Gathered
from .text_form import record_lines, said_text, verdict_text


class Case(TestCase):  # type: ignore[misc]
    """A case with its place."""

    file = Attr()
    line = Attr()


def path_lines(trace: Trace | None) -> str:
    return "" if trace is None else "\n".join(trace.lines())


def outcome(found: Finding) -> list[Failure | Error | Skipped]:
    """What the case ends with; nothing where it is as expected."""
    said = [it for it in (found.proof, found.replay) if it and it.answer == "rejected"]
    message = verdict_text(found) + said_text("proof", found.proof) + said_text("path", found.replay)
    if said:
        result = Error(message, "rejected")
    elif found.label:
        result = Skipped("a label: it only names a set of states")
    elif found.as_expected is False or found.as_expected is None and found.verdict != "true":
        result = (Error if found.verdict == "unknown" else Failure)(message, found.verdict)
    else:
        return []
    result.text = path_lines(found.trace)
    return [result]


def case_of(record: Findings, found: Finding) -> Case:
    case = Case(found.shown if found.name else f"spec {found.number}", PurePath(record.path).stem)
    case.file, case.line = record.path, str(found.line)
    case.result = outcome(found)
    case.system_out = found.formula
    return case


def model_case(record: Findings) -> Case:
    """The case of a model that has no report."""
    case = Case("model", PurePath(record.path).stem, record.seconds)
    case.file = record.path
    if record.refused and record.refused.span:
        case.line = str(record.refused.span.line)
    case.result = [Error("\n".join(record_lines(record)), "refused" if record.refused else "no report")]
    return case


def suite_of(record: Findings) -> TestSuite:
    suite = TestSuite(record.path)
    suite.add_property("sha256", record.sha256)
    suite.add_property("nodes", str(record.nodes))
    suite.add_property("status", str(record.status))
    if record.refused or record.ending:
        suite.add_testcase(model_case(record))
    for found in record.findings:
        suite.add_testcase(case_of(record, found))
    suite.update_statistics()
    suite.time = round(record.seconds + record.test_seconds, 3)
    return suite


def put_junit(gathered: Gathered) -> bytes:
    xml = JUnitXml("smv")
    for record in gathered.records:
        suite = suite_of(record)
        suite.timestamp = gathered.begun.isoformat(timespec="seconds")
        xml.append(suite)
    xml.update_statistics()
    xml.time = round(gathered.seconds, 3)
    data = xml.tostring()
    return data if isinstance(data, bytes) else str(data).encode()
