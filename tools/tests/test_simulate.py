"""The command simulate: each step that is offered is a step, and none is missing; walks are accepted by replay."""
from __future__ import annotations

import random
from pathlib import Path

import pytest
from conftest import TOP, Smv

from smv_tools.failures.asking import Asking
from smv_tools.failures.copies import Copy
from smv_tools.failures.stepping import Stepping
from smv_tools.failures.writing import pinned
from smv_tools.model import Model
from smv_tools.program import Program
from smv_tools.report import Trace
from smv_tools.source import Source
from smv_tools.trace_files import TraceFile

# No state of these is a dead end, so that `AX` of all that is offered says that none is missing.
SOURCES = [
    "MODULE main VAR a : 0..2; b : boolean; ASSIGN init(a) := 0; next(a) := case b : {0, 1, 2}; 1 : a; esac; SPEC 0\n",
    "MODULE main VAR a : 0..2; b : 0..2; ASSIGN next(b) := next(a); init(b) := a; TRANS next(a) = a | a < 2 SPEC 0\n",
    "MODULE main VAR x : boolean; p : process m(x); q : process m(x); c : 0..1; ASSIGN c := {0, x}; next(x) := {x}; SPEC 0\n"
    "MODULE m(x) VAR s : {idle, busy}; ASSIGN init(s) := idle; next(s) := case s = idle : {idle, busy}; 1 : idle; esac;"
    " next(x) := case running & s = busy : !x; 1 : x; esac;\n",
    "MODULE main VAR n : 0..3; k : array 0..1 of boolean; INIT n < 2 INVAR !(k[0] & k[1]) TRANS next(n) <= n + 1 SPEC 0\n",
]
STATES = 125


def any_state(model: Model, chance: random.Random) -> dict[str, int | str]:
    return {it.name: chance.choice(it.values) for it in model.variables}


@pytest.mark.parametrize("text", SOURCES)
def test_next_states_are_those_of_the_program(program: Program, text: str) -> None:
    """Over 125 random states of each model: 500 in all."""
    model = Model.of(Source(text.encode()))
    stepping, chance, asking = Stepping(model), random.Random(7), Asking(model, program)
    specs: list[str] = []
    for _ in range(STATES):
        state = any_state(model, chance)
        offered = list(stepping.next_states(state))
        here = pinned(model, state)
        # At a state that no state may be, as INVAR has it, nothing is asked.
        either = " | ".join(pinned(model, it) for it in offered) or "0"
        assert len({tuple(it.values()) for it in offered}) == len(offered)
        specs.append(f"{here} -> AX ({either})")
        specs += [f"{here} -> EX {pinned(model, it)}" for it in offered]
    for at in range(0, len(specs), 250):
        report = asking.report(Copy(model, specs[at:at + 250], anywhere=True))
        assert [it.verdict for it in report.parts] == ["true"] * len(report.parts)


@pytest.mark.parametrize("text", SOURCES)
def test_initial_states_are_those_of_the_program(program: Program, text: str) -> None:
    model = Model.of(Source(text.encode()))
    found = list(Stepping(model).initial_states())
    either = " | ".join(pinned(model, it) for it in found)
    report = Asking(model, program).report(Copy(model, [either, *(f"!{pinned(model, it)}" for it in found)]))
    assert [it.verdict for it in report.parts] == ["true", *["false"] * len(found)]


def test_a_dead_end_is_none_of_its_own(program: Program) -> None:
    model = Model.of(Source(b"MODULE main VAR n : 0..2; ASSIGN init(n) := 0; TRANS next(n) = n + 1\n"))
    stepping = Stepping(model)
    assert list(stepping.next_states({"n": 1})) == [{"n": 2}] and not list(stepping.next_states({"n": 2}))


def test_a_random_walk_is_a_path(smv: Smv, program: Program, tmp_path: Path) -> None:
    out, words = tmp_path / "walk", ["simulate", "examples/peterson.smv", "--random", "--steps", "6"]
    assert smv(*words, "--seed", "3", "--path", str(out)).returncode == 0
    walked = TraceFile.read(out.read_bytes())
    text = Copy(Model.of(Source.load(str(TOP / "examples/peterson.smv"))), ["0"]).text()
    ended = program.on_text(text, "replay", ["path"], files={"path": TraceFile(1, walked.trace).put()})
    assert ended.put == b"trace 1 accepted\n"
    put = smv(*words, "--seed", "3").stdout
    assert put == smv(*words, "--seed", "3").stdout and put == "".join(f"{it}\n" for it in Trace(walked.trace.states[:7]).lines())


def test_replay_takes_a_report(smv: Smv, tmp_path: Path) -> None:
    saved, model = tmp_path / "report", "examples/peterson.smv"
    saved.write_text(smv("check", model).stdout)
    assert smv("replay", model, str(saved), "3").stdout == "trace 3 accepted\n"
    assert smv("replay", model, str(saved)).stdout == "trace 3 accepted\n"
    assert smv("replay", model, str(saved), "1").returncode == 70
    saved.write_text("trace 1\nnothing\n")
    assert smv("replay", model, str(saved)).returncode == 7
