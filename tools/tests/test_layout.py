"""The layout changes white space alone, and is that of the examples."""
from __future__ import annotations

import os
import stat
import subprocess
from pathlib import Path

import pytest
from conftest import EXAMPLES, TOP, Smv
from hypothesis import given, settings
from hypothesis import strategies as st

from smv_tools.layout.items import items_of
from smv_tools.layout.layout import laid_out
from smv_tools.reading import program_of
from smv_tools.source import Source

# Its text is that of the manual.
OF_THE_MANUAL = "request"
TEXTS = [path.read_text() for path in EXAMPLES]
EDGES = [
    "MODULE main ( )\nVAR r : - 2 .. - 1 ; a : array 0 .. 3 of - 1 .. 1 ;\nSPEC ! ! a [ 1 - 1 ] = 0 - 1\n",
    "MODULE main VAR x : boolean; ASSIGN init ( x ) := { 0 , 1 } ; next(x):=case x:case !x:0;1:1;esac;\n1:{0}union{1};esac;\n",
    "MODULE main SPEC A[x U E[!y U(AG z)]]&(EX(x)|!(y))->AX E [x U y]\nFAIRNESS running;\n",
    "-- first\n\n\n\nMODULE m(a,b)\n   -- of m\nDEFINE -- here\n\td := a mod b / 2 * 3;-- there\n  e:=d<=2;   -- and there\n  -- last\n"
    "-- of main\nMODULE main VAR i : process m ( 1 , (2) ) ;",
    "MODULE main\r\nVAR a : boolean;\r\n\r\n\r\nSPEC a -- \xe9\x85 \r\n",
    "",
    "\n\n",
    "--",
]
GAPS = st.sampled_from([" ", "  ", "\n", "\n\n\n", "\t", " \r\n", " -- a word --x\n", "\n  -- \u00e9 := case\n", "\n-- MODULE \n\n"])


def words_of(text: str) -> list[tuple[object, str]]:
    """The tokens and comments of a text."""
    return [(item.kind, item.text) for item in items_of(Source(text.encode("latin-1")))]


def layout(text: str) -> str:
    return laid_out(Source(text.encode("latin-1")))


@st.composite
def spaced(draw: st.DrawFn) -> str:
    """The tokens of a text with other white space and comments between them."""
    words = [text for kind, text in words_of(draw(st.sampled_from([*TEXTS, *EDGES[:3]]))) if kind is not None]
    begin = draw(st.integers(0, max(len(words) - 1, 0)))
    # At places of a stretch gaps are drawn, elsewhere one space stands: a text has hundreds of tokens.
    gaps = draw(st.lists(GAPS, min_size=1, max_size=40))
    text = ""
    for place, word in enumerate(words):
        text += word + (gaps[place - begin] if 0 <= place - begin < len(gaps) else " ")
    return text


@pytest.mark.parametrize("path", [it for it in EXAMPLES if it.stem != OF_THE_MANUAL], ids=lambda it: it.stem)
def test_examples_have_it(path: Path) -> None:
    text = path.read_text()
    assert layout(text) == text


@settings(max_examples=300)
@given(spaced())
def test_white_space_alone(text: str) -> None:
    """Tokens, comments and what is read are the same, and what is laid out stays as it is."""
    found = layout(text)
    assert words_of(found) == words_of(text)
    assert program_trees(found) == program_trees(text)
    assert layout(found) == found
    assert not any(line.endswith((" ", "\t")) for line in found.split("\n"))
    assert "\n\n\n" not in found and not found.startswith("\n")


def program_trees(text: str) -> list[object]:
    """What is read, without places."""
    modules = program_of(Source(text.encode("latin-1")))
    return [(module.name, module.formals, [(it.name, it.type) for it in module.declarations],
             [(it.part, it.left, it.right) for it in module.assignments], [(it.name, it.right) for it in module.definitions],
             [(section.word, member.expr) for section in module.sections for member in section.members if hasattr(member, "expr")])
            for module in modules]


@pytest.mark.parametrize("text", EDGES)
def test_edges(text: str) -> None:
    found = layout(text)
    assert words_of(found) == words_of(text)
    assert layout(found) == found


def test_what_it_looks_like() -> None:
    assert layout(EDGES[0]) == (
        "MODULE main()\nVAR r : -2..-1; a : array 0..3 of -1..1;\nSPEC !!a[1 - 1] = 0 - 1\n")
    assert layout(EDGES[1]) == (
        "MODULE main\nVAR x : boolean;\nASSIGN\n  init(x) := {0, 1}; next(x) := case\n    x : case !x : 0; 1 : 1; esac;\n"
        "    1 : {0} union {1};\n  esac;\n")
    assert layout(EDGES[2]) == (
        "MODULE main\nSPEC A [ x U E [ !y U (AG z) ] ] & (EX (x) | !(y)) -> AX E [ x U y ]\nFAIRNESS running;\n")
    assert layout(EDGES[3]) == (
        "-- first\n\nMODULE m(a, b)\n-- of m\nDEFINE  -- here\n  d := a mod b / 2 * 3;  -- there\n"
        "  e := d <= 2;           -- and there\n  -- last\n-- of main\nMODULE main\nVAR i : process m(1, (2));\n")
    assert layout(EDGES[4]) == "MODULE main\r\nVAR a : boolean;\r\n\r\nSPEC a  -- \xe9\x85\r\n"
    assert layout("MODULE main SPEC AG\n(a\n->\nb)") == "MODULE main\nSPEC AG\n  (a\n  ->\n  b)\n"


# ---- the command

def fmt(*words: str | Path, given: bytes = b"") -> subprocess.CompletedProcess[bytes]:
    return subprocess.run([TOP / "smv", "fmt", *words], cwd=TOP, env={**os.environ, "SMV_QUIET": "1"}, input=given,
                          capture_output=True)


def test_files_are_written_where_they_change(smv: Smv, tmp_path: Path) -> None:
    done, other = tmp_path / "done.smv", tmp_path / "other.smv"
    done.write_text("MODULE main\nSPEC 1\n")
    other.write_text("MODULE main SPEC  1")
    other.chmod(0o640)
    before = done.stat().st_mtime_ns
    checked = fmt("--check", done, other)
    assert (checked.returncode, checked.stdout.decode()) == (1, f"{other}\n")
    assert other.read_text() == "MODULE main SPEC  1"
    ended = fmt(done, other)
    assert (ended.returncode, ended.stdout, ended.stderr.decode()) == (0, b"", f"smv: {other} is laid out\n")
    assert other.read_text() == done.read_text() and done.stat().st_mtime_ns == before
    assert stat.S_IMODE(other.stat().st_mode) == 0o640 and len(list(tmp_path.iterdir())) == 2
    assert fmt("--check", done, other).returncode == 0


def test_a_text_that_is_no_program_stays(smv: Smv, tmp_path: Path) -> None:
    bad, good = tmp_path / "bad.smv", tmp_path / "good.smv"
    bad.write_text("MODULE main\nVAR x boolean;\n")
    good.write_text("MODULE  main")
    ended = fmt(bad, good, tmp_path / "none.smv")
    assert ended.returncode == 4 and good.read_text() == "MODULE main\n"
    assert f"smv: {bad}:2:7: `:` is wanted; its layout isn't changed" in ended.stderr.decode()
    assert "No such file" in ended.stderr.decode() and bad.read_text() == "MODULE main\nVAR x boolean;\n"
    assert fmt("-", given=b"MODULE main\nSPEC 1 ?\n").stderr.startswith(b"smv: standard input:2:8: no token begins here")


def test_standard_input(smv: Smv) -> None:
    ended = fmt("-", given=b"MODULE main SPEC   1 -- \xff\n")
    assert (ended.returncode, ended.stdout) == (0, b"MODULE main\nSPEC 1  -- \xff\n")
    assert fmt("--check", "-", given=b"MODULE main SPEC   1\n").returncode == 1
    assert fmt().returncode == 5


def test_a_link_stays_a_link(smv: Smv, tmp_path: Path) -> None:
    (tmp_path / "model.smv").write_text("MODULE  main")
    link = tmp_path / "link.smv"
    link.symlink_to("model.smv")
    assert fmt(link).returncode == 0 and link.is_symlink() and link.read_text() == "MODULE main\n"


def test_a_long_text(smv: Smv) -> None:
    text = b"MODULE main\nVAR x : boolean;\n" + b"SPEC   AG (x -> EF x)  -- once more\n" * 20_000
    ended = fmt("-", given=text)
    assert ended.returncode == 0 and ended.stdout.count(b"SPEC AG (x -> EF x)  -- once more\n") == 20_000
