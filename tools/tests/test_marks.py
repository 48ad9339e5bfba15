"""Names and expectations in comments, and the commands that take names."""
from __future__ import annotations

from pathlib import Path

import pytest
from hypothesis import given
from hypothesis import strategies as st

from conftest import EXAMPLES, Smv
from smv_tools.marks import MarkFault, expected_refusal, number_of, specifications
from smv_tools.model import Model
from smv_tools.source import Source
from smv_tools.statuses import Stop

INSTANCES = """MODULE main
VAR a : cell; b : process cell;
-- NAME first, EXPECT false
-- a comment that is no mark
SPEC a.x
SPEC b.x & -- EXPECT false
  a.x -- LABEL
MODULE cell
VAR x : boolean;
SPEC x -- NAME own
-- NAME: none of these is one -- NAME x
MODULE unused VAR y : boolean; SPEC y -- NAME own, EXPECT unknown
"""


def listed(text: str) -> list[tuple[str | None, str | None, bool]]:
    return [(it.name, it.expected, it.label) for it in specifications(Model.of(Source(text.encode())))]


def test_where_marks_stand() -> None:
    text = INSTANCES
    assert listed(text) == [("first", "false", False), (None, None, True), ("a.own", "true", False), ("b.own", "true", False)]
    one = "MODULE main VAR x : boolean; SPEC x SPEC !x -- NAME second\n  -- NAME third\n\n-- more\nSPEC x"
    assert [name for name, _, _ in listed(one)] == [None, "second", "third"]


@pytest.mark.parametrize("comment, told", [
    ("NAME", "NAME takes a name"), ("NAME 3", "NAME takes a name"), ("NAME SPEC", "not SPEC"), ("EXPECT flase", "not flase"),
    ("EXPECT", "not nothing"), ("LABEL x", "x is none of"), ("NAME a NAME b", "the names a and b"),
    ("EXPECT true, EXPECT false", "true and false are expected"), ("NAME other", "has the name other too"),
    ("NAME \\xe9\x1b", "\\x1b"),
])
def test_marks_that_are_none(comment: str, told: str) -> None:
    text = f"MODULE main\nVAR x : boolean;\nSPEC x -- NAME other\nSPEC x -- {comment}\n"
    with pytest.raises(MarkFault) as stop:
        specifications(Model.of(Source(text.encode("latin-1"), "m.smv")))
    assert str(stop.value).startswith("m.smv:4: ") and told in str(stop.value)
    with pytest.raises(MarkFault, match="m.smv:2: NAME stands before no SPEC"):
        specifications(Model.of(Source(b"MODULE main\n-- NAME x\nVAR x : boolean;\nSPEC x\n", "m.smv")))


def test_numbers_and_names() -> None:
    model = Model.of(Source(INSTANCES.encode(), "m.smv"))
    assert [number_of(model, word) for word in ("first", "a.own", "b.own", "3", "999")] == [1, 3, 4, 3, 999]
    with pytest.raises(Stop, match="2 specifications of m.smv have the name own: a.own, b.own"):
        number_of(model, "own")
    with pytest.raises(Stop, match="no specification of m.smv has the name other; names here: first, a.own, b.own"):
        number_of(model, "other")


@given(st.lists(st.sampled_from(["-- NAME a%d\n", "-- EXPECT false\n", "-- LABEL\n", "SPEC x\n", "SPEC x -- EXPECT true\n",
                                 "VAR z%d : boolean;\n", "-- other\n", "\n"]), max_size=12))
def test_marks_never_move(pieces: list[str]) -> None:
    """Whatever stands where: either a fault with its line, or each mark is at the specification behind it or on its line."""
    lines = [it % k if "%d" in it else it for k, it in enumerate(pieces)]
    text = "MODULE main VAR x : boolean;\n" + "".join(lines)
    wanted, pending, wrong = [], dict[str, str](), False
    for line in lines:
        word = line.split()[1] if line.startswith("-- ") else line.split()[0] if line.strip() else ""
        if word in ("NAME", "EXPECT", "LABEL"):
            wrong |= word == "NAME" and "NAME" in pending
            pending[word] = line.split()[-1]
        elif word == "SPEC":
            mine = {**pending, **({"EXPECT": "true"} if "--" in line else {})}
            wrong |= mine.get("EXPECT") != pending.get("EXPECT", mine.get("EXPECT"))
            wanted.append((mine.get("NAME"), None if "LABEL" in mine else mine.get("EXPECT", "true"), "LABEL" in mine))
            pending = {}
        elif word == "VAR":
            wrong |= bool(pending)
    try:
        assert listed(text) == wanted and not wrong and not pending
    except MarkFault:
        assert wrong or pending


def test_examples_are_all_marked() -> None:
    for path in EXAMPLES:
        assert all(it.name and (it.label or it.marks.expected) for it in specifications(Model.of(Source.load(str(path)))))


def test_expected_refusals() -> None:
    assert expected_refusal(Source(b"MODULE main ? -- EXPECT refused E1\n")) == "E1"
    with pytest.raises(MarkFault):
        expected_refusal(Source(b"-- EXPECT refused E99\n"))


def test_commands_take_names(smv: Smv) -> None:
    counter, kept = "examples/waiting_counter.smv", "examples/kept_out.smv"
    for named, numbered in (
        (["delay", counter, "two", "five"], ["delay", counter, "2", "3"]),
        (["delay", "--nodes", "9", counter, "2", "five"], ["delay", "--nodes", "9", counter, "2", "3"]),
        (["strong", kept, "left_has:nothing", "free:4"], ["strong", kept, "4:5", "3:4"]),
        (["strong", "--", kept, "left_has:nothing"], ["strong", kept, "4:5"]),
        (["strong", kept, "left_has"], ["strong", kept, "4"]),
        (["delay", "no_such.smv", "a", "b"], ["delay", "no_such.smv", "1", "2"]),
        (["delay", "examples/refused/e4_at_the_end.smv", "a", "b"], ["delay", "examples/refused/e4_at_the_end.smv", "1", "2"]),
    ):
        found, wanted = smv(*named), smv(*numbered)
        assert (found.stdout, found.returncode) == (wanted.stdout, wanted.returncode), named
    ended = smv("delay", counter, "two", "six")
    assert ended.returncode == 5 and "no specification" in ended.stderr and ended.stdout == ""


def test_of_models(smv: Smv, tmp_path: Path) -> None:
    (tmp_path / "a.smv").write_text("MODULE main\nVAR x : boolean;\nSPEC AG EF x -- EXPECT false\nSPEC x -- LABEL\nSPEC x -- NAME s\n")
    (tmp_path / "b.smv").write_text("MODULE main -- EXPECT refused E8\nSPEC y\n")
    ended = smv("test", str(tmp_path), "--jobs", "2")
    assert ended.returncode == 1
    assert ended.stdout.splitlines()[:-1] == [
        f"not ok {tmp_path}/a.smv:3 1 true, expected false", f"not ok {tmp_path}/a.smv:5 s false, expected true",
        f"ok     {tmp_path}/b.smv refused E8 line 2"]
    assert ended.stdout.splitlines()[-1].startswith("total 3 as expected 1 otherwise 2 labels 1 seconds ")
    (tmp_path / "c.smv").write_text("MODULE main\nSPEC 1 -- EXPECT yes\n")
    ended = smv("test", "-q", str(tmp_path / "c.smv"), str(tmp_path / "b.smv"), "no_such.smv")
    assert ended.returncode == 4 and ended.stdout.startswith("total 1 as expected 1 otherwise 0 labels 0 unread 2 ")
    assert "c.smv:2: EXPECT takes true, false or unknown, not yes" in ended.stderr and "no_such.smv" in ended.stderr


def test_retries(smv: Smv, tmp_path: Path) -> None:
    """A node limit that is too low is made greater; where unknown is expected it isn't."""
    path = "examples/philosophers.smv"
    once = smv("test", path, "--nodes", "200", "--retries", "0")
    assert once.returncode == 1 and "unknown: node limit 200, expected true" in once.stdout
    more = smv("test", path, "--nodes", "200", "--retries", "2")
    assert more.returncode == 0 and "tried again with more" in more.stderr
    text = Path(path).read_text().replace("EXPECT true", "EXPECT unknown").replace("EXPECT false", "EXPECT unknown")
    (tmp_path / "unknown.smv").write_text(text)
    ended = smv("test", str(tmp_path / "unknown.smv"), "--nodes", "1")
    assert ended.returncode == 0 and ended.stderr == ""


def test_room(smv: Smv, tmp_path: Path) -> None:
    """What was done isn't done twice, unless the model, the limits or the program are others."""
    words = ["test", "examples/swap.smv", "examples/peterson.smv", "--room", str(tmp_path / "room")]
    assert smv(*words).stderr == ""
    assert smv(*words).stderr == "smv: 4 tasks were done already\n"
    assert smv(*words, "--nodes", "99999").stderr == ""
    for kept in (tmp_path / "room").glob("*.kept"):
        kept.write_text("{")
    assert smv(*words).stderr == ""


def test_jobs_put_the_same(smv: Smv, tmp_path: Path) -> None:
    odd = tmp_path / "odd.smv"
    odd.write_text(INSTANCES + "SPEC x + 1\n")
    models = [str(it) for it in EXAMPLES[:8]] + ["examples/refused/e8_unknown_name.smv", str(odd), "no_such.smv"]
    for options in ([], ["--nodes", "400"]):
        one, many = smv("check", *options, *models), smv("check", *options, *models, "--jobs", "3")
        assert (one.stdout, one.returncode) == (many.stdout, many.returncode)
    wrong = smv("check", "--jobs", "0", "examples/swap.smv")
    assert wrong.returncode == 5 and "--jobs takes a number" in wrong.stderr
    proof = tmp_path / "proof"
    assert smv("check", "--jobs", "2", "examples/swap.smv", "--proof", str(proof)).returncode == 0 and proof.exists()
