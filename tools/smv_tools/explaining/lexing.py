"""Tokens of a text that may hold other tools' signs, and where expressions with these begin and end."""
from __future__ import annotations

from collections.abc import Sequence

from ..reading import ExpressionReader, SyntaxFault
from ..source import Source
from ..syntax import LEVELS, Binary, Case, Expr, Number, Unary
from ..tokens import PIECE, SECTIONS, Kind, Token, kind_of

# Signs of other tools that are several tokens here, none of which may follow the one before.
JOINED = ("<=>", "!=", "==", "&&", "||", "=>", "<>")
# How tight foreign operators bind.
FOREIGN_LEVELS = {"!=": 5, "==": 5, "<>": 5, "xor": 2, "xnor": 2, "&&": 3, "||": 2, "=>": 1, "<=>": 1, "and": 3, "or": 2,
                  "implies": 1, "iff": 1, "%": 8}
FARTHEST = 400


def loose_tokens(source: Source) -> list[Token]:
    """The tokens, where a byte that begins none is one of its own, and where foreign signs are whole."""
    tokens: list[Token] = []
    at, text = 0, source.text
    while at < len(text):
        piece = PIECE.match(text, at)
        joined = next((sign for sign in JOINED if text.startswith(sign, at)), None)
        if joined and (piece is None or piece["none"] is None):
            kind, behind = Kind.SIGN, at + len(joined)
        elif piece is None:
            kind, behind = Kind.SIGN, at + 1
        else:
            behind = piece.end()
            if piece["none"] is not None:
                at = behind
                continue
            kind = kind_of(piece)
        tokens.append(Token(kind, text[at:behind], at, behind, source.line_at(at), source.column_at(at)))
        at = behind
    return tokens


class LooseReader(ExpressionReader):
    """Reads expressions that may have other tools' operators, to find where they end."""

    def expression(self, least: int = 1) -> Expr:
        begin, left = self.at, self.operand()
        while True:
            level = LEVELS.get(self.text, FOREIGN_LEVELS.get(self.text, 0))
            if self.text == "?" and least == 1:
                left = self.ternary(left)
            elif level and level >= least:
                operator = self.skip().text
                left = Binary(operator, left, self.expression(level + 1), **self.place(begin))
            else:
                return left

    def ternary(self, condition: Expr) -> Expr:
        self.skip()
        chosen = self.expression()
        self.take(":")
        return Case(((condition, chosen), (Number(1), self.expression())))

    def single(self) -> Expr:
        begin = self.at
        if self.text == "-" or self.text == "not":
            self.skip()
            return Unary("!", self.expression(9), **self.place(begin))
        return super().single()


def end_of_operand(tokens: Sequence[Token], begin: int, level: int) -> int | None:
    """The place behind the operand that begins there, whose operators bind at least so tightly; none where none begins."""
    reader = LooseReader(tokens)
    reader.at = begin
    try:
        reader.expression(level)
    except SyntaxFault:
        return None
    return reader.at


def begin_of_operand(tokens: Sequence[Token], behind: int, level: int) -> int | None:
    """The first token of the longest operand that ends before that place; path operators stand outside of it."""
    found, depth = None, 0
    for at in range(behind - 1, max(-1, behind - FARTHEST), -1):
        text = tokens[at].text
        if text in (")", "]", "}", "esac"):
            depth += 1
        elif text in ("(", "[", "{", "case"):
            depth -= 1
        if depth < 0 or text in SECTIONS or depth == 0 and text in (";", ":="):
            break
        if depth == 0 and begins_operand(tokens[at], level) and end_of_operand(tokens[:behind], at, level) == behind:
            found = at
    return found


def begins_operand(token: Token, level: int) -> bool:
    """Whether an operand of the level may begin with the token: `!` binds less tightly than comparisons."""
    if token.kind is Kind.SIGN:
        return token.text in ("(", "{") or token.text == "!" and level <= 4
    return token.kind is not Kind.KEY or token.text in ("case", "next", "TRUE", "FALSE", "running")
