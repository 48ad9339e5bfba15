"""Reports, paths and answers are the same bytes when they are read and put again."""
from __future__ import annotations

from pathlib import Path

import pytest
from conftest import EXAMPLES, TOP
from hypothesis import given
from hypothesis import strategies as st

from smv_tools.program import Program
from smv_tools.report import Report, Trace, Unread, Verdict, answers_of, strong_path
from smv_tools.trace_files import TraceFile

REPORTS = sorted((TOP / "examples/reports").glob("*.txt"))
NAMES = st.from_regex(r"[a-z][a-z0-9_]{0,3}(\.[a-z]{1,3}|\[[0-9]\])?", fullmatch=True)
VALUES = st.one_of(st.integers(-9, 2000), st.from_regex(r"[a-z][a-z0-9_]{0,4}", fullmatch=True))
COUNTS = st.integers(0, 2_147_483_647)


@st.composite
def traces(draw: st.DrawFn) -> Trace:
    names = draw(st.lists(NAMES, min_size=1, max_size=4, unique=True))
    states = [{name: draw(VALUES) for name in names} for _ in range(draw(st.integers(1, 4)))]
    return Trace(states, draw(st.one_of(st.none(), st.integers(0, len(states) - 1))))


@st.composite
def verdicts(draw: st.DrawFn, number: int) -> Verdict:
    found = Verdict(number, draw(COUNTS), draw(st.sampled_from(["true", "false", "unknown"])))
    if found.verdict == "unknown":
        found.limit = draw(COUNTS)
    if found.verdict == "false":
        found.trace = draw(traces())
    found.left_out = draw(st.one_of(st.none(), COUNTS))
    return found


@st.composite
def reports(draw: st.DrawFn) -> Report:
    return Report([draw(verdicts(number)) for number in range(1, draw(st.integers(0, 4)) + 1)])


@given(reports())
def test_written_reports(report: Report) -> None:
    assert Report.read(report.put()) == report
    assert Report.read(report.put()).put() == report.put()


@given(reports(), st.data())
def test_damaged_reports(report: Report, data: st.DataObject) -> None:
    """A report that lost a byte is either unread or put again as it is."""
    whole = report.put()
    at = data.draw(st.integers(0, len(whole) - 1))
    cut = whole[:at] + whole[at + 1:]
    try:
        assert Report.read(cut).put() == cut
    except Unread:
        pass


@pytest.mark.parametrize("path", REPORTS, ids=lambda it: it.stem)
def test_reports_of_examples(path: Path) -> None:
    lines = path.read_bytes().splitlines(keepends=True)
    if lines[0].startswith(b"spec") and lines[-1].startswith(b"status"):
        whole = b"".join(lines[:-1])
        report = Report.read(whole)
        assert report.put() == whole
        assert lines[-1] == b"status %d\n" % report.status


@pytest.mark.parametrize("path", EXAMPLES, ids=lambda it: it.stem)
def test_reports_of_the_program(path: Path, program: Program) -> None:
    ended = program.check(str(path))
    assert ended.report.put() == ended.put
    assert ended.report.status == ended.status


@given(traces(), st.integers(1, 256))
def test_trace_files(trace: Trace, number: int) -> None:
    file = TraceFile(number, trace)
    if trace.loop is None:
        with pytest.raises(Unread):
            TraceFile.read(file.put())
    else:
        assert TraceFile.read(file.put()).put() == file.put()


def test_path_of_strong(program: Program) -> None:
    found = strong_path(program.run(["strong", str(TOP / "examples/kept_out.smv"), "4:5"]).put)
    assert found is not None and found.loop is not None
    assert strong_path(program.run(["strong", str(TOP / "examples/kept_out.smv"), "4:5", "3:4"]).put) is None


def test_answers(program: Program, tmp_path: Path) -> None:
    model, proof = str(TOP / "examples/peterson.smv"), str(tmp_path / "proof")
    program.run(["check", model, "--proof", proof])
    put = program.run(["recheck", model, proof]).put
    found = answers_of(put)
    assert [it.text() for it in found] == put.decode().splitlines()[:-1]
    assert {it.answer for it in found} == {"accepted"}
