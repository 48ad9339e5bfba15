"""What came from another machine, tested here: each proof by `recheck`, each path by `replay`, over this machine's own copy of
the text. Nothing else is believed."""
from __future__ import annotations

import tempfile
import time
from dataclasses import dataclass, replace
from pathlib import Path

from ..program import Program
from ..report import Answer, Report, Unread, Verdict, answers_of
from ..statuses import DECIDED, MEMORY, UNDECIDED
from ..trace_files import TraceFile
from .local import MODEL, run_here
from .tasks import Result, Task

NO_ANSWER = (None, MEMORY)


@dataclass(frozen=True)
class Judged:
    """The result as far as it is believed, and why its worker is caught, where it is. `seconds` were taken by the tests."""

    result: Result
    caught: str = ""
    seconds: float = 0.0


class Caught(Exception):
    """The worker's answer is shown to be wrong, or to be none. The text says where."""


class NotShown(Exception):
    """The proof shows nothing either way."""


def recheck(program: Program, task: Task, proof: bytes) -> dict[int, Answer]:
    """The answers on the blocks of the proof, by their specifications."""
    options = ["--nodes", str(task.limits.nodes)]
    ended = program.on_text(task.text, "recheck", ["proof"], options, {"proof": proof})
    if ended.status not in DECIDED:
        raise Caught(f"its proof file is answered by {ended.put.decode(errors='replace').strip() or 'nothing'}")
    try:
        return {it.number: it for it in answers_of(ended.put)}
    except Unread:
        raise NotShown from None


def test_proof(part: Verdict, answer: Answer | None) -> None:
    """Tests that the proof shows the verdict."""
    if answer is None:
        raise NotShown
    if answer.claim != part.verdict:
        raise Caught(f"it says {part.verdict}, and its proof claims {answer.claim}")
    if answer.answer == "rejected":
        raise Caught(f"it says {part.verdict}, and line {answer.line} of its proof is rejected")
    if answer.answer != "accepted":
        raise NotShown


def test_path(program: Program, task: Task, part: Verdict) -> None:
    """Tests that the path shows the specification to be false. A state that stands alone shows nothing, and isn't kept."""
    trace = part.trace
    if trace is None or trace.loop is None:
        return
    options, files = ["--nodes", str(task.limits.nodes)], {"trace": TraceFile(part.number, trace).put()}
    ended = program.on_text(task.text, "replay", ["trace"], options, files)
    if ended.status == UNDECIDED:
        raise NotShown
    if ended.status != 0:
        raise Caught(f"its path is answered by {ended.put.decode(errors='replace').strip()}")


def test_report(program: Program, task: Task, report: Report, proof: bytes) -> None:
    """Tests each verdict of a report that came back."""
    lines = [part.line for part in report.parts]
    if task.line and lines != [task.line] * len(task.numbers):
        raise Caught("its report is of another text")
    decided = [part for part in report.parts if part.verdict != "unknown"]
    answers = recheck(program, task, proof) if decided else {}
    for part in decided:
        test_proof(part, answers.get(part.number))
        test_path(program, task, part)


def test_answer(program: Program, task: Task, result: Result) -> Result:
    """What is believed of the result."""
    if result.status in NO_ANSWER or result.status is not None and result.status < 0:
        return result
    report = result.report
    if report is not None:
        test_report(program, task, report, result.proof)
        return result
    # Of a refusal there is no proof, so it is looked for here.
    here = run_here(program, replace(task, proof=False))
    if (here.status, here.put) != (result.status, result.put):
        raise Caught(f"it answers with status {result.status}, and this machine with {here.status}")
    return here


def judge(program: Program, task: Task, result: Result) -> Judged:
    """Tests a result that came from a machine that isn't trusted."""
    begun = time.monotonic()
    try:
        believed, caught = test_answer(program, task, result), ""
    except Caught as why:
        believed, caught = replace(result, status=-1, put=b"", proof=b""), str(why)
    except NotShown:
        believed, caught = run_here(program, replace(task, proof=False)), ""
    return Judged(believed, caught, time.monotonic() - begun)
