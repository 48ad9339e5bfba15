"""The tokens and the trees of the tools beside the program's."""
from __future__ import annotations

from pathlib import Path

import pytest
from conftest import EXAMPLES
from hypothesis import given, settings
from hypothesis import strategies as st

from smv_tools.model import Model
from smv_tools.program import Program
from smv_tools.source import Source
from smv_tools.tokens import LexFault, pieces, tokens_of

# What texts are made of: tokens, what looks like them, and bytes that begin none.
PARTS = ["MODULE main\n", "VAR", " ", "\n", "x", "x-", "x-1", "_x", "A", "AX", "0", "007", "2147483647", "2147483648", ":=", ":",
         "..", ".", "<->", "<-", "->", "-", "--", "-- c\n", "!=", "@", "'", "\t", "\r", "\0", "\x7f", "é", "(", "]", "TRUE"]
TEXTS = st.lists(st.sampled_from(PARTS), max_size=12).map(lambda parts: "".join(parts).encode())


@pytest.mark.parametrize("path", EXAMPLES, ids=lambda it: it.stem)
def test_pieces_are_the_text(path: Path) -> None:
    source = Source.load(str(path))
    assert "".join(piece[0] for piece in pieces(source)) == source.text
    for token in tokens_of(source):
        assert source.text[token.at:token.behind] == token.text
        assert source.line(token.line)[token.column - 1:].startswith(token.text)


@settings(max_examples=150)
@given(TEXTS)
def test_tokens_beside_the_program(program: Program, text: bytes) -> None:
    """What one takes the other takes, and the first fault is the same at the same line."""
    refusal = program.on_text(text).refusal
    told = (refusal.code, refusal.line) if refusal and refusal.code in ("E1", "E2") else None
    try:
        tokens_of(Source(text, "text"))
        found = None
    except LexFault as fault:
        found = (fault.code, fault.line)
    assert found == told


@pytest.mark.parametrize("path", EXAMPLES, ids=lambda it: it.stem)
def test_models_beside_the_program(path: Path, program: Program) -> None:
    """The specifications stand where the report says, and a state of a path names the variables in their order."""
    model, report = Model.of(Source.load(str(path))), program.check(str(path)).report
    assert [spec.line for spec in model.specs] == [part.line for part in report.parts]
    names = [variable.name for variable in model.variables]
    for part in report.parts:
        if part.trace is not None:
            assert part.trace.names == names
