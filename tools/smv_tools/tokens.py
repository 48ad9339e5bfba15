"""The tokens of the language with their places, as docs/LANGUAGE.md says them ("Text and tokens")."""
from __future__ import annotations

import re
from collections.abc import Iterator
from dataclasses import dataclass
from enum import Enum

from .source import Source

LARGEST = 2_147_483_647
KEYWORDS = frozenset(
    "MODULE VAR ASSIGN DEFINE INIT TRANS SPEC FAIRNESS init next case esac process array of boolean mod union in running "
    "TRUE FALSE A E U EX AX EF AF EG AG INVAR ISA COMPUTE INPUT OUTPUT OPAQUE self LTLSPEC IVAR".split()
)
SECTIONS = ("VAR", "ASSIGN", "DEFINE", "INIT", "INVAR", "TRANS", "SPEC", "FAIRNESS")
PATH_OPERATORS = ("EX", "AX", "EF", "AF", "EG", "AG")
# The longest first.
SIGNS = ("<->", ":=", "..", "<=", ">=", "->", *":;,.()[]{}=<>+-*/!&|")
PIECE = re.compile(
    r"(?P<none>[ \t\r\n]+|--[^\n]*)"
    r"|(?P<word>[A-Za-z](?:[A-Za-z0-9_]|-(?=[A-Za-z0-9_]))*)"
    r"|(?P<number>[0-9]+)"
    rf"|(?P<sign>{'|'.join(re.escape(sign) for sign in SIGNS)})"
)


class Kind(Enum):
    """What a token is. NAME is an atom, KEY a reserved word."""

    NAME = "name"
    KEY = "key"
    NUMBER = "number"
    SIGN = "sign"


@dataclass(frozen=True, slots=True)
class Token:
    """A token: its text, its first byte's place and the place behind it, its line and column from 1."""

    kind: Kind
    text: str
    at: int
    behind: int
    line: int
    column: int


class LexFault(Exception):
    """No token begins at this place (E1), or a number that is too large (E2)."""

    def __init__(self, code: str, at: int, behind: int, source: Source) -> None:
        super().__init__(code)
        self.code, self.at, self.behind = code, at, behind
        self.line, self.column = source.line_at(at), source.column_at(at)


def pieces(source: Source) -> Iterator[re.Match[str]]:
    """White space, comments and tokens one after the other, all of the text."""
    at = 0
    while at < len(source.text):
        piece = PIECE.match(source.text, at)
        if piece is None:
            raise LexFault("E1", at, at + 1, source)
        if piece["number"] and int(piece["number"]) > LARGEST:
            raise LexFault("E2", at, piece.end(), source)
        yield piece
        at = piece.end()


def kind_of(piece: re.Match[str]) -> Kind:
    if piece["word"]:
        return Kind.KEY if piece["word"] in KEYWORDS else Kind.NAME
    return Kind.NUMBER if piece["number"] else Kind.SIGN


def tokens_of(source: Source) -> list[Token]:
    """The tokens in order; LexFault where a byte or a number can't be taken."""
    tokens, line, begin, seen = [], 1, 0, 0
    for piece in pieces(source):
        if piece["none"] is not None:
            continue
        at = piece.start()
        count = source.text.count("\n", seen, at)
        if count:
            line += count
            begin = source.text.rindex("\n", seen, at) + 1
        seen = at
        tokens.append(Token(kind_of(piece), piece[0], at, piece.end(), line, at - begin + 1))
    return tokens


def is_name(text: str) -> bool:
    """Whether the text is an atom and no reserved word."""
    found = PIECE.fullmatch(text)
    return found is not None and found["word"] is not None and text not in KEYWORDS
