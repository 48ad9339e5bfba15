"""The token that can't follow: told by the program, of which front parts of the text are asked."""
from __future__ import annotations

import re
from collections.abc import Callable, Sequence
from dataclasses import dataclass
from functools import cached_property

from ..reading import ProgramReader, SyntaxFault
from ..refusals import Refusal
from ..source import Source
from ..tokens import Kind, Token, tokens_of
from .lexing import begin_of_operand, end_of_operand, loose_tokens
from .marks import Edit, Finding, Mark

# What the program refuses a text for; None where it breaks no rule up to E22.
Ask = Callable[[bytes], "Refusal | None"]


def cut_place(ask: Ask, source: Source, refusal: Refusal) -> Token | None:
    """The token of E4 or E5: the first behind which a text that ends there is refused alike. None is the end of the text."""
    on_line = [token for token in tokens_of(source) if token.line == refusal.line]
    if not on_line:
        return None

    def refused(token: Token) -> bool:
        found = ask(source.data[:token.behind] + b"\n")
        return found is not None and (found.code, found.line) == (refusal.code, refusal.line)

    low, high = 0, len(on_line) - 1
    while low < high:
        middle = (low + high) // 2
        if refused(on_line[middle]):
            high = middle
        else:
            low = middle + 1
    return on_line[low]


@dataclass
class Place:
    """A token that can't follow, or a byte that begins none, among the tokens around it; `at` is their number at the end."""

    source: Source
    tokens: Sequence[Token]
    at: int

    @classmethod
    def of(cls, source: Source, offset: int) -> Place:
        """The place of this byte."""
        tokens = loose_tokens(source)
        return cls(source, tokens, next((k for k, it in enumerate(tokens) if offset < it.behind), len(tokens)))

    def text(self, distance: int = 0) -> str:
        """The text of the token so far behind; nothing beyond the first and the last one."""
        at = self.at + distance
        return self.tokens[at].text if 0 <= at < len(self.tokens) else ""

    def token(self, distance: int = 0) -> Token:
        return self.tokens[self.at + distance]

    def is_name(self, distance: int = 0) -> bool:
        at = self.at + distance
        return 0 <= at < len(self.tokens) and self.tokens[at].kind is Kind.NAME

    @property
    def ends(self) -> bool:
        return self.at >= len(self.tokens)

    @property
    def last_behind(self) -> int:
        """The place behind the token before."""
        return self.tokens[self.at - 1].behind if self.at else 0

    @cached_property
    def wanted(self) -> str:
        """What could follow, in words; nothing where the reader of these tools fails elsewhere."""
        try:
            ProgramReader(list(self.tokens)).program()
        except SyntaxFault as fault:
            return fault.wanted if fault.place == self.at else ""
        return ""

    @cached_property
    def section(self) -> int:
        """The token that begins the section before this one, or that this one stands in."""
        return next((k for k in range(self.at - 1, -1, -1) if self.tokens[k].text in HEADS), 0)

    @cached_property
    def words(self) -> set[str]:
        """The texts of all tokens, and the names that these would be with signs of other tools."""
        return {it.text for it in self.tokens} | set(re.findall(r"[\w$#@\\-]+", uncommented(self.source.text), re.A))

    # ---- what is told

    def mark(self, first: int = 0, last: int = 0, note: str = "") -> Mark:
        """A mark from one token to another."""
        return Mark(self.token(first).at, self.token(last).behind, note)

    def replace(self, distance: int, text: str) -> Edit:
        token = self.token(distance)
        return Edit(token.at, token.behind, text)

    def found(self, sentence: str, *edits: Edit, first: int = 0, last: int = 0) -> Finding:
        """A finding that is marked from one token to another."""
        return Finding([self.mark(first, last)], [sentence], list(edits))

    def left(self, level: int) -> int | None:
        """The place of the first byte of the operand that ends before this token."""
        begin = begin_of_operand(self.tokens, self.at, level)
        return None if begin is None else self.tokens[begin].at

    def right(self, level: int, distance: int = 1) -> int | None:
        """The place behind the operand that begins at so many tokens behind this one."""
        behind = end_of_operand(self.tokens, self.at + distance, level)
        return None if behind is None else self.tokens[behind - 1].behind


def uncommented(text: str) -> str:
    """The text with spaces in place of comments."""
    return re.sub(r"--[^\n]*", lambda found: " " * len(found[0]), text)


HEADS = frozenset("MODULE VAR ASSIGN DEFINE INIT INVAR TRANS SPEC FAIRNESS".split()) | frozenset(
    "CTLSPEC INVARSPEC LTLSPEC JUSTICE COMPASSION FROZENVAR IVAR COMPUTE CONSTANTS PSLSPEC".split())
