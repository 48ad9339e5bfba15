"""The command `diagnose`."""
from __future__ import annotations

from ..calls import Call
from ..program import Program
from ..refusals import Refusal
from ..screen import put, tell
from ..source import Source
from ..statuses import CLEAR, UNDECIDED, Stop
from .checking import SECONDS, Check
from .checks import ASK_SECONDS, LEAST_NODES
from .problems import Problem, Severity, problems_of

WORDS = {Severity.ERROR: "error", Severity.WARNING: "warning", Severity.NOTE: "note"}


def line_of(source: Source, problem: Problem) -> str:
    """A line as compilers put it. The column counts bytes, from 1."""
    text = " ".join(problem.text.split())
    line, column = source.line_at(problem.first), source.column_at(problem.first)
    return f"{source.path}:{line}:{column}: {WORDS[problem.severity]}: {text} [{problem.code}]\n"


def on_file(program: Program, path: str, options: list[str], seconds: float) -> int:
    source = Source.load(path)

    def ask(data: bytes) -> Refusal | None:
        return program.on_text(data, options=LEAST_NODES, seconds=ASK_SECONDS).refusal

    ended = Check(program, source.data, options, seconds).run()
    lines = [line_of(source, problem) for problem in problems_of(source, ended, seconds, ask)]
    put("".join(lines).encode(errors="surrogateescape"))
    return UNDECIDED if ended.status is None else ended.status if ended.status >= 0 else 128 - ended.status


def run(call: Call) -> int:
    """The status is the greatest, whatever is wrong with one of the files."""
    worst, seconds = CLEAR, float(call.number("--seconds") or SECONDS)
    for path in call.operands:
        try:
            status = on_file(call.program, path, call.nodes, seconds)
        except Stop as stop:
            tell(str(stop))
            status = stop.status
        worst = max(worst, status)
    return worst
