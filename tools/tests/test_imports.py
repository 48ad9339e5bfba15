"""Texts of other tools, rewritten: the verdicts that their comments name, and what is left as it was."""
from __future__ import annotations

import re
from pathlib import Path

import pytest
from conftest import EXAMPLES, TOP, Smv
from hypothesis import given
from hypothesis import strategies as st

from smv_tools.imports.changes import OTHER_MEANING
from smv_tools.imports.importer import imported
from smv_tools.program import Program
from smv_tools.source import Source
from smv_tools.tokens import tokens_of

FOREIGN = sorted((TOP / "tools/tests/imports").glob("*.smv"))
SAID = re.compile(r"--\s*(true|false)\b")
# Where each is rewritten or told: texts with something that is left out, or that isn't rewritten.
LEFT_OUT = {"bus_handshake", "ring", "token_bus"}
TEXTS = [path.read_text(encoding="latin-1") for path in EXAMPLES]


def said_of(text: str) -> list[str]:
    return [found[1] for found in map(SAID.search, text.splitlines()) if found]


@pytest.mark.parametrize("path", FOREIGN, ids=lambda it: it.stem)
def test_verdicts_after_the_import(path: Path, program: Program, smv: Smv, tmp_path: Path) -> None:
    """One call imports the text, the program takes it at once, and each specification has the verdict that its line names."""
    out = tmp_path / "out.smv"
    ended = smv("import", str(path), "-o", str(out))
    assert ended.returncode == (1 if path.stem in LEFT_OUT else 0), ended.stderr
    text = out.read_text(encoding="latin-1")
    assert said_of(text) == said_of(path.read_text(encoding="latin-1"))
    lines = text.splitlines()
    for part in program.check(str(out)).report.parts:
        wanted = SAID.search(lines[part.line - 1])
        assert wanted is None or part.verdict == wanted[1], f"specification {part.number}: {lines[part.line - 1]}"


@pytest.mark.parametrize("path", FOREIGN, ids=lambda it: it.stem)
def test_each_change_has_its_line(path: Path, smv: Smv) -> None:
    ended = smv("import", str(path))
    count = len(path.read_text(encoding="latin-1").splitlines())
    for row in ended.stderr.splitlines():
        found = re.search(r"line (\d+)", row)
        assert found and 1 <= int(found[1]) <= count, row


@pytest.mark.parametrize("path", EXAMPLES, ids=lambda it: it.stem)
def test_examples_stay(path: Path, smv: Smv) -> None:
    ended = smv("import", str(path))
    assert ended.returncode == 0 and ended.stdout == path.read_text(encoding="latin-1")


@given(st.sampled_from(TEXTS), st.data())
def test_own_forms_stay(text: str, data: st.DataObject) -> None:
    """Comments and white space between tokens change nothing: the text is put as it is, with notes at most."""
    places = [token.at for token in tokens_of(Source(text.encode("latin-1"), "text"))]
    for at in sorted(data.draw(st.lists(st.sampled_from(places), max_size=4)), reverse=True):
        text = text[:at] + data.draw(st.sampled_from([" ", "\n", " -- a != b\n", "\t"])) + text[at:]
    made = imported(text, None)
    assert made.text == text and all(change.kind == OTHER_MEANING for change in made.changes)
