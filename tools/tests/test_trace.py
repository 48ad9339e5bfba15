"""The command trace: files, tables and pictures have the states of the report, and paths are shown for each form."""
from __future__ import annotations

import csv
import re
import shutil
import subprocess
import xml.etree.ElementTree as xml
from pathlib import Path

import pytest
from conftest import EXAMPLES, Smv

from smv_tools.failures.asking import Asking
from smv_tools.failures.finding import Finder, NoPath
from smv_tools.failures.formulas import formula_of, leaves_of, shows_something
from smv_tools.failures.rows import all_rows
from smv_tools.failures.writing import ctl
from smv_tools.model import Model
from smv_tools.program import Program
from smv_tools.report import Trace
from smv_tools.source import Source
from smv_tools.trace_files import TraceFile

OTHER = """MODULE main
VAR p : boolean; q : boolean; n : 0..5; low : -2..1; e : {idle, busy}; cell : process one(q);
ASSIGN init(n) := 0; next(n) := case n = 3 : 3; n < 5 : {n, n + 1}; 1 : 0; esac;
  init(e) := idle; next(e) := case n = 3 & e = busy : busy; 1 : {idle, busy}; esac;
  init(p) := 0; next(p) := case n = 3 : 0; 1 : {0, 1}; esac;
  init(low) := 0; next(low) := case low = 0 - 2 : 1; 1 : low - 1; esac;
FAIRNESS n = 3 | e = busy
"""
CELL = "\nMODULE one(q)\nVAR x : 0..3; DEFINE low := x < 2;\nASSIGN init(x) := 0; next(x) := case q & x = 0 : 1; 1 : 0; esac;\nFAIRNESS running\n"
SHOWN = [
    "AG (AF q | p)", "AG (p | AF q)", "!EF p", "!EG q", "AG !EF q", "AG (p -> !EX q)", "AG EF p", "AG (q -> EF p)",
    "AG (p -> E [q U n = 5])", "AF AG p", "EF p", "EG cell.low", "E [!q U p]", "EX !p", "EF AG !p", "AG EF n = 5",
    "AG (n = 0 -> AF e = busy) & AG !p", "EF (p & EF (q & EG !p))", "E [EF p U n = 3 & AG e = busy]",
    "EG EF !p", "EG (EX p | EX !q)", "E [(p | EX q) U (n = 2 & EX n = 3)]", "AX EF n = 5", "!(EF p & EF q)",
    "A [!p U n = 2]", "E [n < 3 U n = 3]", "!EG EF p",
]


def model_of(specs: list[str]) -> Model:
    return Model.of(Source((OTHER + "".join(f"SPEC {it}\n" for it in specs) + CELL).encode()))


@pytest.mark.parametrize("spec", SHOWN)
def test_a_path_for_each_form(program: Program, spec: str) -> None:
    model = model_of([spec])
    asking = Asking(model, program)
    part = asking.program.on_text(model.source.data).report.parts[0]
    formula = formula_of(model, model.specs[0].expr, model.main, part.verdict == "true")
    first = asking.first()
    assert first is not None
    state = part.trace.states[0] if part.trace else first.states[0]
    if not shows_something(formula):
        with pytest.raises(NoPath):
            Finder(asking).from_initial(formula, state)
        return
    found = Finder(asking).from_initial(formula, state)
    # Each path is fair and begins at an initial state: judged over the model with a specification that any such path fails.
    judged = asking.judged(model.source.data.replace(f"SPEC {spec}".encode(), b"SPEC 0"), TraceFile(1, found.trace))
    assert judged == "trace 1 accepted" and found.trace.states[0] == state


def test_the_normal_form_means_the_same(program: Program) -> None:
    model = model_of(SHOWN)
    verdicts = program.on_text(model.source.data).report.parts
    forms = [ctl(model, formula_of(model, it.expr, it.scope)) for it in model.specs]
    again = program.on_text(model_of(forms).source.data).report.parts
    assert [it.verdict for it in again] == [it.verdict for it in verdicts]


def test_leaves_have_the_values_of_the_program(program: Program) -> None:
    """Of each leaf the row has the value that a specification of it has at that state alone."""
    model = model_of(SHOWN)
    asking = Asking(model, program)
    trace = program.on_text(model.source.data).report.parts[6].trace or asking.first()
    assert trace
    for item in model.specs:
        leaves = leaves_of(formula_of(model, item.expr, item.scope))
        for leaf in leaves:
            rows = [it for it in all_rows(model, trace.states, [leaf]) if it.kind == "leaf"]
            for row in rows:
                assert row.cells == [str(int(it)) for it in asking.all_hold(trace.states, leaf)]


# ---- what is written and put

def values_of(path: Path) -> Trace:
    rows = list(csv.DictReader(path.open(newline="")))
    inside = [int(row["state"]) for row in rows if row["loop"] == "1"]
    return Trace([{k: v for k, v in list(row.items())[2:]} for row in rows], min(inside, default=None))


def plain(word: str) -> str:
    """A value of a waveform as it stands in a report."""
    if word[0] == "b":
        number = int(word[1:], 2)
        return str(number - (1 << 32) if number >> 31 else number)
    return word[1:] if word[0] == "s" else word


def waveform_of(text: str) -> Trace:
    names: dict[str, str] = {}
    scopes: list[str] = []
    states: list[dict[str, str | int]] = []
    for line in text.splitlines():
        words = line.split()
        if words[0] == "$scope":
            scopes.append(words[2])
        elif words[0] == "$upscope":
            scopes.pop()
        elif words[0] == "$var":
            names[words[3]] = ".".join([*scopes[1:], words[4]])
        elif line[0] == "#":
            states.append(dict(states[-1]) if states else {})
        elif line[0] in "bs":
            states[-1][names[words[1]]] = plain(words[0])
        elif line[0] in "01":
            states[-1][names[line[1:]]] = line[0]
    # The last time is where the last state ends.
    marks = [it.pop("loop") for it in states[:-1]]
    for it in states[:-1]:
        it.pop("shows")
    return Trace(states[:-1], marks.index("1") if "1" in marks else None)


def table_of(text: str, names: list[str]) -> Trace:
    """The states and the loop of a table, whose columns may stand in several parts."""
    states: list[dict[str, str | int]] = []
    back = None
    lines = text.split("\n")
    for at, head in enumerate(lines):
        if not head.startswith("  state "):
            continue
        begins = [it.start() - 1 for it in re.finditer(r"\d+", head)]
        part = lines[at + 1:next((k for k, it in enumerate(lines) if k > at and it.startswith("  state ")), len(lines))]

        def cells(line: str) -> list[str]:
            return [line[a:b].strip().lstrip("*") for a, b in zip(begins, [*begins[1:], None])]

        rows = {it.split()[0]: cells(it) for it in part if it.startswith("  ") and it.split()[0] in names}
        states += [{name: rows[name][k] for name in names} for k in range(len(begins))]
        ends = [k for it in part if it.startswith("  loop") for k, sign in enumerate(cells(it)) if re.match(r"[\^@]", sign)]
        back = len(states) - len(begins) + ends[0] if ends else back
    return Trace(states, back)


def text_of(trace: Trace) -> Trace:
    return Trace([{name: str(value) for name, value in it.items()} for it in trace.states], trace.loop)


@pytest.mark.parametrize("path", EXAMPLES, ids=lambda it: it.stem)
def test_files_and_tables_have_the_states(smv: Smv, program: Program, tmp_path: Path, path: Path) -> None:
    report = program.check(str(path)).report
    for part in report.parts:
        if part.trace is None or part.trace.loop is None:
            continue
        wanted = text_of(part.trace)
        outs = {name: tmp_path / f"out.{name}" for name in ("csv", "vcd", "svg")}
        words = ["trace", str(path), str(part.number)]
        written = smv(*words, *(f"--{name}={out}" for name, out in outs.items()))
        assert (written.stdout, written.returncode) == ("", report.status)
        assert values_of(outs["csv"]) == wanted
        assert waveform_of(outs["vcd"].read_text()) == wanted
        put = smv(*words, "--whole")
        assert put.returncode == report.status and table_of(put.stdout, wanted.names) == wanted
        texts = {it.text for it in xml.parse(outs["svg"]).iter("{http://www.w3.org/2000/svg}text")}
        model = Model.of(Source.load(str(path)))
        words_of = {str(state[it.name]) for it in model.variables if it.kind != "boolean" for state in wanted.states}
        assert {*wanted.names, *words_of} <= texts
        if shutil.which("vcd2fst"):
            assert subprocess.run(["vcd2fst", outs["vcd"], tmp_path / "out.fst"], capture_output=True).returncode == 0


def test_types_come_from_the_model(smv: Smv, tmp_path: Path) -> None:
    """A range that stays at 0 or 1 is a vector all the same, one with negative values an integer, an enumeration a string."""
    model = tmp_path / "other.smv"
    model.write_bytes(model_of(["AG n < 1"]).source.data)
    out = tmp_path / "out.vcd"
    assert smv("trace", str(model), f"--vcd={out}").returncode == 1
    declared = [line.split()[1:] for line in out.read_text().splitlines() if line.startswith("$var")]
    kinds = {words[3]: (words[0], words[1]) for words in declared}
    assert kinds["n"] == ("reg", "3") and kinds["low"] == ("integer", "32") and kinds["e"] == ("string", "1")
    assert kinds["x"] == ("reg", "2") and kinds["p"] == ("wire", "1")
    assert "$scope module cell $end" in out.read_text()


def test_marks_and_what_is_left_out(smv: Smv, tmp_path: Path) -> None:
    model = tmp_path / "other.smv"
    model.write_bytes(model_of(["AG !(n = 3)"]).source.data)
    put = smv("trace", str(model)).stdout
    whole = smv("trace", str(model), "--whole").stdout
    assert "State 3: n = 3." in put and "! !(n = 3)" in put and "--whole shows" in put and "! fails" in put
    assert "--whole" not in whole and len(whole) > len(put)
    only = smv("trace", str(model), "--only", "n,cell").stdout
    rows = {line.split()[0] for line in only.splitlines() if line.startswith("  ")}
    assert rows - {"state", "loop"} == {"n", "cell.x", "cell.low"}
    changed = smv("trace", str(model), "--changed").stdout
    assert "\n  n " in changed and "\n  cell.low" not in changed
    wrong = smv("trace", str(model), "--only", "cel")
    assert wrong.returncode == 5 and "did you mean" in wrong.stderr


def test_a_saved_report_is_taken(smv: Smv, tmp_path: Path) -> None:
    saved, model = tmp_path / "report", "examples/peterson.smv"
    saved.write_text(smv("check", model).stdout)
    assert smv("trace", model, "3", "--report", str(saved)).stdout == smv("trace", model, "3").stdout
    saved.write_text(smv("check", model, "examples/semaphore.smv").stdout)
    assert smv("trace", "--report", str(saved), "examples/semaphore.smv").returncode == 1
    saved.write_text(smv("check", model).stdout.replace("loop 0", "loop 2"))
    refused = smv("trace", model, "3", "--report", str(saved))
    assert refused.returncode == 70 and "rejected fair 1" in refused.stderr
    strong = smv("strong", "examples/kept_out.smv", "4:5").stdout
    saved.write_text(strong)
    assert smv("trace", "examples/kept_out.smv", "--report", str(saved)).returncode == (0 if "yes" in strong else 70)
    saved.write_text("nothing\n")
    assert smv("trace", model, "--report", str(saved)).returncode == 70


@pytest.mark.parametrize("words,put,status", [
    (["examples/peterson.smv", "1"], "", 70), (["examples/swap.smv"], "", 70), (["none.smv"], "fault load missing\n", 4),
    (["examples/peterson.smv", "--csv", "none/x"], "", 4), ([], "", 5), (["a", "1", "c"], "", 5), (["a", "0"], "", 5),
    (["a", "--other"], "", 5), (["a", "--csv"], "", 5),
], ids=lambda it: " ".join(it) if isinstance(it, list) else "")
def test_words_that_show_none(smv: Smv, words: list[str], put: str, status: int) -> None:
    ended = smv("trace", *words)
    assert (ended.stdout, ended.returncode) == (put, status)
