"""Help, the version, wrong words, and what is told of endings."""
from __future__ import annotations

from pathlib import Path

import pytest
from conftest import Smv

from smv_tools.words import commands

USAGE = 5
WRONG = [
    (["chekc", "examples/swap.smv"], "smv: no command chekc; did you mean check?"),
    (["check", "--node", "9", "examples/swap.smv"], "smv: no option --node; did you mean --nodes?"),
    (["check", "--nodes", "nine", "examples/swap.smv"], "smv: --nodes takes a number from 1 to 2147483647, not nine"),
    (["check"], "smv: check takes MODEL..: MODEL is missing"),
    (["delay", "examples/swap.smv", "1"], "smv: delay takes MODEL FROM TO: TO is missing"),
    (["help", "chekc"], "smv: no command chekc; did you mean check?"),
]


def test_help_names_each_command(smv: Smv) -> None:
    whole = smv("help")
    assert whole.returncode == 0 and smv("--help").stdout == whole.stdout
    for command in commands().values():
        assert f"  {command.name} " in whole.stdout and command.example in whole.stdout


@pytest.mark.parametrize("name", [name for name in commands() if name != "help"])
def test_help_on_a_command(smv: Smv, name: str) -> None:
    text = smv("help", name)
    assert text.returncode == 0 and smv(name, "--help").stdout == text.stdout
    assert text.stdout.startswith(f"usage: smv {name}")
    for option in commands()[name].options:
        assert option.name in text.stdout


@pytest.mark.parametrize("words,told", WRONG, ids=lambda it: " ".join(it) if isinstance(it, list) else "")
def test_wrong_words_are_named(smv: Smv, words: list[str], told: str) -> None:
    ended = smv(*words)
    assert ended.returncode == USAGE and ended.stderr.splitlines()[-1] == told


def test_version(smv: Smv) -> None:
    lines = smv("--version").stdout.splitlines()
    assert [line.split()[0] for line in lines] == ["smv", "commit", "program"]
    assert lines[2].endswith(("proved", "not proved"))


def test_endings_are_told(smv: Smv, tmp_path: Path) -> None:
    model = str(tmp_path / "none.smv")
    assert smv("check", model).stderr == f"smv: there is no file {model}\n"
    assert smv("check", "--nodes", "1", "examples/swap.smv").stderr.startswith("smv: the node limit was met")
    assert smv("check", "examples/swap.smv").stderr == ""


def test_blocks_that_a_proof_file_lacks(smv: Smv, tmp_path: Path) -> None:
    proof, part = tmp_path / "proof", tmp_path / "part"
    smv("check", "examples/peterson.smv", "--proof", str(proof))
    whole = smv("recheck", "examples/peterson.smv", str(proof))
    assert (whole.returncode, whole.stderr) == (0, "")
    lines = proof.read_text().splitlines(keepends=True)
    last = max(place for place, line in enumerate(lines) if line.startswith("spec "))
    part.write_text("".join(lines[:last]))
    lacks = smv("recheck", "examples/peterson.smv", str(part))
    assert lacks.returncode == 2 and lacks.stderr.startswith("smv: no block for ")
    assert smv("recheck", "--partial", "examples/peterson.smv", str(part)).returncode == 0
