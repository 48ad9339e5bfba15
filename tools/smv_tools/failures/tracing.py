"""The command `trace`: the path of a specification as a table, a file of values, a waveform or a picture."""
from __future__ import annotations

import csv
import shutil
import sys
from collections.abc import Callable
from pathlib import Path
from typing import TextIO

from ..calls import Call
from ..model import Model, Unreadable
from ..report import Report, Trace, Unread, Verdict
from ..screen import console, put
from ..source import Source, printable
from ..statuses import CLEAR, DECIDED, FAILED, OUTSIDE, Stop
from ..trace_files import TraceFile
from . import waveform
from .asking import Asking
from .facts import ON_PATH
from .formulas import leaves_of
from .picture import Picture
from .rows import Row, all_rows, only
from .saved import Saved, load
from .showing import Shown, Showing
from .table import WIDTH, Table
from .writing import shown_leaf


def checked(call: Call, source: Source) -> Report | int:
    """The report of a check, or the status of one that puts none, which is put."""
    ended = call.program.check(call.model, call.nodes)
    if ended.status in DECIDED:
        try:
            return Report.read(ended.put)
        except Unread:
            pass
    put(ended.put)
    if ended.status is None or ended.status < 0:
        raise Stop("the program was ended")
    return ended.status


def chosen(report: Report, number: int | None) -> Verdict:
    """The verdict that is asked for, or the first false one."""
    if number is None:
        found = next((it for it in report.parts if it.verdict == "false"), None)
        if found is None:
            raise Stop("no specification is false; with the number of a true one, a path is shown on which it is so, "
                       "where one path can show it")
        return found
    if not 1 <= number <= len(report.parts):
        raise Stop(f"there is no specification {number}")
    return report.parts[number - 1]


def verdict_of(saved: Saved, model: Model, number: int | None) -> Verdict:
    """The verdict in what was saved."""
    if saved.report:
        return chosen(saved.report, number)
    assert saved.trace
    if number is not None and number != saved.trace.number:
        raise Stop(f"the file has a path for specification {saved.trace.number}")
    if not 1 <= saved.trace.number <= len(model.specs):
        raise Stop(f"there is no specification {saved.trace.number}")
    return Verdict(saved.trace.number, model.specs[saved.trace.number - 1].line, "false", trace=saved.trace.trace)


# ---- what is put

def decisive(found: Shown) -> frozenset[str]:
    """The leaves that the path itself shows."""
    return frozenset(shown_leaf(leaf.expr) for fact in found.facts if fact.how == ON_PATH for leaf in leaves_of(fact.formula))


def rows_of(call: Call, model: Model, trace: Trace, found: Shown | None) -> list[Row]:
    rows = all_rows(model, trace.states, found.leaves if found else ())
    names = call.option("--only")
    rows = only(rows, names) if names else rows
    return [row for row in rows if row.changes] if call.has("--changed") else rows


def put_table(table: Table) -> None:
    screen = console()
    width = shutil.get_terminal_size().columns if sys.stdout.isatty() else WIDTH
    from rich.text import Text
    for place, part in enumerate(table.parts(width)):
        if place:
            screen.print()
        for near, far in part:
            screen.print(Text(near).append(far, "dim"), soft_wrap=True)


def put_shown(call: Call, model: Model, found: Shown) -> None:
    line = printable(model.source.line(found.item.line)).strip()
    instance = "" if found.item.instance == "main" else f" (instance {found.item.instance})"
    print(f"spec {found.number} line {found.item.line} {found.verdict}{instance}: {line}")
    if found.trace is None:
        raise Stop(found.why)
    count = len(found.trace.states)
    end = found.end
    whole = call.has("--whole") or end is None
    table = Table(found.trace, rows_of(call, model, found.trace, found), found.marks,
                  "fails" if found.verdict == "false" else "shows", decisive(found), end,
                  count if whole or end is None else end + 1)
    print(f"{found.claim}\n")
    put_table(table)
    if not found.has_path:
        return
    back = f"After state {count - 1} the path goes on at state {found.trace.loop}, for ever."
    left = "" if table.shown == count else f" --whole shows the states behind state {table.shown - 1} too."
    print(f"\n{back}{left}\n{found.judged}")


def put_strong(call: Call, asking: Asking, trace: Trace) -> None:
    """A path of `strong`: judged as a fair path, which is what `replay` can say of it."""
    refused = asking.refused(["0"], trace)
    if refused:
        raise Stop(f"the file has a path that isn't one of this model: {refused}")
    print("A path of strong\n")
    put_table(Table(trace, rows_of(call, asking.model, trace, None)))
    print(f"\nAfter state {len(trace.states) - 1} the path goes on at state {trace.loop}, for ever.\n"
          "`replay` accepts the path as a fair one over a copy of the model; strong fairness isn't judged.")


# ---- files

def write_csv(trace: Trace, file: TextIO) -> None:
    rows = csv.writer(file, lineterminator="\n")
    rows.writerow(["state", "loop", *trace.names])
    for k, state in enumerate(trace.states):
        rows.writerow([k, int(trace.loop is not None and k >= trace.loop), *state.values()])


def write_file(path: str, write: Callable[[TextIO], object]) -> None:
    try:
        with Path(path).open("w", newline="") as file:
            write(file)
    except OSError as error:
        raise Stop(f"{error.strerror}: {path}", OUTSIDE) from None


def write_files(call: Call, model: Model, trace: Trace, found: Shown | None) -> bool:
    """Writes what the options ask for; whether they ask for something."""
    marks, end = (found.marks, found.end) if found else ([], None)
    title = f"specification {found.number}, {found.place}: {found.text}" if found else "a path"
    writers: dict[str, Callable[[TextIO], object]] = {
        "--csv": lambda file: write_csv(trace, file),
        "--vcd": lambda file: waveform.write(model, trace, marks, file),
        "--svg": lambda file: file.write(
            Picture(trace, rows_of(call, model, trace, found), marks, end, title).drawn()),
        "--path": lambda file: file.write(TraceFile(found.number if found else 1, trace).put().decode()),
    }
    asked = [name for name in writers if call.has(name)]
    for name in asked:
        write_file(str(call.option(name)), writers[name])
    return bool(asked)


def number_of(call: Call) -> int | None:
    text = call.operand(1)
    if text is None:
        return None
    if not text.isascii() or not text.isdigit() or text[0] == "0":
        from ..statuses import USAGE
        raise Stop(f"J is the number of a specification, from 1 on, not {text}", USAGE)
    return int(text)


def model_of(source: Source) -> Model:
    try:
        return Model.of(source)
    except Unreadable as why:
        raise Stop(f"{source.path}: {why}") from None


def run(call: Call) -> int:
    number, file = number_of(call), call.option("--report")
    saved = None
    if file is None:
        report = checked(call, Source(b"", call.model))
        if isinstance(report, int):
            return report
        saved = Saved(report)
    source = Source.load(call.model)
    saved = saved or load(str(file), call.model)
    model = model_of(source)
    asking = Asking(model, call.program, call.nodes)
    if saved.strong:
        if not write_files(call, model, saved.strong, None):
            put_strong(call, asking, saved.strong)
        return CLEAR
    if not saved.report and not saved.trace:
        raise Stop("strong found no path")
    found = Showing(asking).of(verdict_of(saved, model, number))
    if found.trace is None:
        raise Stop(f"specification {found.number} is {found.verdict}. {found.why}")
    if not write_files(call, model, found.trace, found):
        put_shown(call, model, found)
    return saved.report.status if saved.report else FAILED
