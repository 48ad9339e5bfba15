"""Explanations: the very token and the line to write of typical mistakes, several mistakes at once, and other answers."""
from __future__ import annotations

import re
from pathlib import Path

import pytest
from conftest import EXAMPLES, TOP, Smv
from hypothesis import given, settings
from hypothesis import strategies as st

from smv_tools.calls import Call
from smv_tools.explaining.command import run
from smv_tools.explaining.lexing import loose_tokens
from smv_tools.explaining.marks import Edit, before_edits, edited
from smv_tools.explaining.places import Place, cut_place
from smv_tools.explaining.rounds import Asked, mistakes_of
from smv_tools.explaining.shown import text_of
from smv_tools.program import Program
from smv_tools.reading import SyntaxFault, program_of
from smv_tools.source import Source, printable
from smv_tools.tokens import LexFault, tokens_of
from smv_tools.words import commands

MISTAKES = sorted((TOP / "tools/tests/mistakes").glob("*.smv"))
TEXTS = [path.read_bytes() for path in EXAMPLES if path.stat().st_size < 4000]
PLACE = re.compile(r"^-- place: line (\d+), column (\d+)$", re.M)
TOKEN = re.compile(r"^-- token: (.*)$", re.M)
WRITE = re.compile(r"^-- write: (.*)$", re.M)
HAVE_TOKENS, HAVE_LINES = 40, 30
ODD = [b"?", b"!=", b" xor ", b"(", b")", b" case ", b" esac ", b"\xff\x1b[1m", b"_", b"99999999999", b"/*", b"*/", b"//", b";", b"..",
       b" MODULE ", b" VAR ", b" LTLSPEC G ", b" not ", b"{", b"]", b" next(", b" A ", b" array 0..1 of ", b"'", b"\xe2\x89\xa0"]


def told(program: Program, path: Path) -> str:
    """What is told of a model that is refused."""
    source, refusal = Source.load(str(path)), program.check(str(path)).refusal
    assert refusal is not None
    return text_of(source, mistakes_of(source, refusal, Asked(program, [])))


def test_enough_mistakes() -> None:
    assert len(MISTAKES) >= HAVE_TOKENS
    assert sum(bool(WRITE.search(path.read_text())) for path in MISTAKES) >= HAVE_LINES


@pytest.mark.parametrize("path", MISTAKES, ids=lambda it: it.stem)
def test_the_very_token_and_the_very_line(path: Path, program: Program) -> None:
    """The place, the mark below the token, the line to write, and that the program takes the text with it."""
    text, source = path.read_text(), Source.load(str(path))
    line, column = map(int, PLACE.findall(text)[0])
    put = told(program, path).splitlines()
    assert f"{path}, line {line}, column {column}:" in put
    row = next(k for k, it in enumerate(put) if it.startswith(f"> {line:>5} | "))
    shown, below = put[row].partition("| ")[2], put[row + 1].partition("| ")[2]
    if not shown.startswith(".. "):
        assert shown == printable(source.line(line))
    token = TOKEN.findall(text)[0]
    assert shown[below.index("^"):].startswith(token[0] if len(token) == 1 else token)
    wanted = WRITE.findall(text)
    written = [it.partition("| ")[2] for it in put[put.index("Write:"):] if "| " in it] if "Write:" in put else []
    for it in wanted:
        assert it in written
    assert bool(wanted) == put[-2].startswith("With th")


def test_all_mistakes_at_once(smv: Smv, tmp_path: Path) -> None:
    model = tmp_path / "several.smv"
    model.write_text("MODULE main\nVAR\n  x : boolean\n  y : boolean;\nASSIGN\n  next(x) = y;\n"
                     "CTLSPEC AG (x != y && x)\nSPEC AG (x ? y : yy)\nSPEC AF x\n")
    put = smv("explain", str(model))
    assert put.returncode == 3 and put.stdout.startswith("refused E1 line 8\n")
    places = re.findall(r", line (\d+), column (\d+):", put.stdout)
    assert places == [("8", "12"), ("4", "3"), ("6", "11"), ("7", "1"), ("7", "15"), ("7", "20"), ("8", "18")]
    assert "With these 7 changes the model is taken." in put.stdout


def test_faults_are_told_with_what_matters(program: Program, tmp_path: Path) -> None:
    model = tmp_path / "fault.smv"
    model.write_text("MODULE main\nVAR\n  other : boolean;\n  x : boolean;\n  n : 2..5;\nASSIGN\n"
                     "  next(n) := case x : 2; esac;\nSPEC AF n = 2\n")
    put = told(program, model)
    assert "No arm of the `case` is 1 here, so its value is 1; `n` has 2 to 5." in put
    assert "So it is where x = 0." in put and "other" not in put.split("E23, a fault.")[1]


def test_other_answers(smv: Smv, tmp_path: Path) -> None:
    missing = smv("explain", "none.smv")
    assert missing.returncode == 4 and "There is no file of this name" in missing.stdout
    unknown = smv("explain", "examples/counter.smv", "--nodes", "1")
    assert unknown.returncode == 2 and "--nodes 10." in unknown.stdout and "steps were made" in unknown.stdout
    delay = smv("explain", "delay", "examples/waiting_counter.smv", "1", "3")
    assert delay.returncode == 3 and "Specification 1 holds a path operator." in delay.stdout
    strong = smv("explain", "strong", "examples/kept_out.smv", "9:9")
    assert strong.returncode == 3 and "There is no specification 9" in strong.stdout
    assert smv("explain", "examples/swap.smv", "more").returncode == 5


BAD_FILES = [
    ("recheck", b"", "P2"), ("recheck", b"other\n", "P1"), ("replay", b"trace 1\nstate 0\n  b = 0\n", "Q1"),
    ("replay", b"trace 1\nstate 0\n  a = 0", "Q2"),
]


@pytest.mark.parametrize("command,data,code", BAD_FILES, ids=lambda it: it if isinstance(it, str) else "")
def test_files_beside_the_model(command: str, data: bytes, code: str, smv: Smv, tmp_path: Path) -> None:
    file = tmp_path / "file"
    file.write_bytes(data)
    put = smv("explain", command, "examples/swap.smv", str(file))
    assert put.returncode == 7 and f"\n{code}, " in put.stdout


def test_other_variables(smv: Smv, tmp_path: Path) -> None:
    proof = tmp_path / "proof"
    smv("check", "examples/swap.smv", "--proof", str(proof))
    put = smv("explain", "recheck", "examples/counter.smv", str(proof))
    assert put.returncode == 7 and "\nP3, " in put.stdout and "The model has no `a`, `b`." in put.stdout


def test_rejected_traces(smv: Smv, tmp_path: Path) -> None:
    trace = tmp_path / "trace"
    trace.write_text("trace 1\nstate 0\n  a = 1\n  b = 0\nloop 0\n")
    put = smv("explain", "replay", "examples/swap.smv", str(trace))
    assert put.returncode == 1 and "State 0 isn't initial" in put.stdout


@pytest.mark.parametrize("old,new,shown,told", [
    ("n 1 0 1", "n 0 1 1", "n 0 1 1", "P4, a bad node."), ("n 1 0 1", "n 1 0", "n 1 0", "P1, a line"),
    ("set 3", "set 0", "end", "This line is the first of the block of specification 1"),
])
def test_lines_of_proof_files(old: str, new: str, shown: str, told: str, smv: Smv, tmp_path: Path) -> None:
    """The line that is refused, or that doesn't show what it has to, is shown."""
    proof = tmp_path / "proof"
    smv("check", "examples/swap.smv", "--proof", str(proof))
    proof.write_text(proof.read_text().replace(f"\n{old}\n", f"\n{new}\n", 1))
    put = smv("explain", "recheck", "examples/swap.smv", str(proof)).stdout
    assert f"\n{told}" in put and re.search(rf"^> +\d+ \| {shown}$", put, re.M)


@pytest.mark.parametrize("command,code", [("recheck", "P5"), ("replay", "Q3")])
def test_files_that_are_too_long(command: str, code: str, smv: Smv, tmp_path: Path) -> None:
    file = tmp_path / "file"
    with file.open("wb") as sink:
        sink.truncate((64 << 20) + 1)
    put = smv("explain", command, "examples/swap.smv", str(file))
    assert put.returncode == 7 and put.stdout.startswith(f"refused {code}\n") and f"\n{code}, " in put.stdout


def test_want_of_memory(program: Program, capfd: pytest.CaptureFixture[str], tmp_path: Path) -> None:
    model, count = tmp_path / "wide.smv", 60
    lines = ["MODULE main", "VAR", *(f"v{k} : 0..1;" for k in range(count)), "ASSIGN"]
    lines += [f"next(v{k}) := v{(k * 7 + 3) % count};" for k in range(count)]
    model.write_text("\n".join([*lines, "SPEC AG (" + " | ".join(f"v{k} & !v{(k * 13 + 5) % count}" for k in range(count)) + ")\n"]))
    call = Call(commands()["explain"], [str(model)], {"--nodes": "20000000"})
    call.__dict__["program"] = Program(program.path, memory=20_000_000)
    assert run(call) == 6
    assert "Memory ran out" in capfd.readouterr().out


# ---- places and edits

@settings(max_examples=25)
@given(st.sampled_from(TEXTS), st.data())
def test_the_reader_fails_where_the_program_does(program: Program, data_of: bytes, data: st.DataObject) -> None:
    """A token is taken away, doubled or exchanged: the place that the program's answers give is that of the reader."""
    tokens = tokens_of(Source(data_of))
    at = data.draw(st.integers(0, len(tokens) - 1))
    new = data.draw(st.sampled_from([b"", b"x", b";", b")", b"esac", b"SPEC", b":=", b"1", b"&"]))
    text = data_of[:tokens[at].at] + new + data_of[tokens[at].behind:]
    source, asked = Source(text), Asked(program, [])
    refusal = asked.rules(text)
    try:
        program_of(source)
    except LexFault:
        assert refusal and refusal.code in ("E1", "E2")
    except SyntaxFault as fault:
        assert refusal and refusal.code == "E4"
        found = cut_place(asked.rules, source, refusal)
        assert (found.at if found else None) == (fault.token.at if fault.token else None)
    else:
        assert refusal is None or refusal.code not in ("E1", "E2", "E4")


@settings(max_examples=25)
@given(st.sampled_from(TEXTS), st.data())
def test_odd_texts_are_explained(program: Program, text: bytes, data: st.DataObject) -> None:
    """Whatever is put at some places of a text, something is told, on lines that can be shown."""
    for _ in range(data.draw(st.integers(1, 3))):
        at = data.draw(st.integers(0, len(text)))
        text = text[:at] + data.draw(st.sampled_from(ODD)) + text[at:]
    asked, source = Asked(program, []), Source(text)
    refusal, _ = asked.all(text)
    if refusal is not None:
        put = text_of(source, mistakes_of(source, refusal, asked))
        assert f"\n{refusal.code}, " in put and all(line.isprintable() for line in put.splitlines())


@given(st.sampled_from(TEXTS))
def test_loose_tokens_are_the_tokens(text: bytes) -> None:
    assert loose_tokens(Source(text)) == tokens_of(Source(text))


@given(st.text("ab\n", min_size=6, max_size=30), st.lists(st.tuples(st.integers(0, 5), st.integers(0, 2), st.text("cd", max_size=4)),
                                                         max_size=3))
def test_places_before_edits(text: str, drawn: list[tuple[int, int, str]]) -> None:
    """What no edit wrote stands where it stood before."""
    edits, at = [], 0
    for gap, length, new in drawn:
        first = at + gap + 1
        if first + length > len(text) or "\n" in text[first:first + length]:
            break
        edits.append(Edit(first, first + length, new))
        at = first + length
    whole = edited(text, edits)
    for place, sign in enumerate(whole):
        if sign not in "cd":
            assert text[before_edits(place, edits)] == sign


def test_a_place_beyond_the_end() -> None:
    assert Place.of(Source(b"MODULE main\n"), 12).ends
