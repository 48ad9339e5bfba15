"""Tokens read as a program, by the grammar of docs/LANGUAGE.md. The first token that can't follow is the one that is told."""
from __future__ import annotations

from collections.abc import Callable, Sequence
from typing import TypeVar

from .modules import (ArrayType, Assignment, BooleanType, Declaration, Definition, InstanceType, ListType, Member, Module,
                      PlainType, RangeType, Section, Statement, Type)
from .source import Source
from .syntax import (LEVELS, PREFIX_LEVEL, Binary, Braces, Case, Expr, Group, Next, Number, Path, Running, Unary, Until, Value)
from .tokens import PATH_OPERATORS, SECTIONS, Kind, Token, tokens_of

# What is nested deeper is refused by the program long before.
DEEPEST = 300
Read = TypeVar("Read")


class SyntaxFault(Exception):
    """No program begins with the tokens up to this one; None is the end of the text. `wanted` tells what could follow."""

    def __init__(self, place: int, token: Token | None, wanted: str) -> None:
        super().__init__(f"{wanted} is wanted")
        self.place, self.token, self.wanted = place, token, wanted


class ExpressionReader:
    """Reads expressions from tokens, from the place `at` on."""

    def __init__(self, tokens: Sequence[Token]) -> None:
        self.tokens, self.at, self.nested = tokens, 0, 0

    # ---- tokens

    @property
    def token(self) -> Token | None:
        return self.tokens[self.at] if self.at < len(self.tokens) else None

    @property
    def text(self) -> str:
        """The next token's text; nothing at the end."""
        return self.tokens[self.at].text if self.at < len(self.tokens) else ""

    def is_kind(self, kind: Kind) -> bool:
        return self.at < len(self.tokens) and self.tokens[self.at].kind is kind

    def fail(self, wanted: str) -> SyntaxFault:
        return SyntaxFault(self.at, self.token, wanted)

    def take(self, text: str) -> Token:
        if self.text != text:
            raise self.fail(f"`{text}`")
        return self.skip()

    def skip(self) -> Token:
        self.at += 1
        return self.tokens[self.at - 1]

    def name(self, what: str = "a name") -> Token:
        if not self.is_kind(Kind.NAME):
            raise self.fail(what)
        return self.skip()

    def number(self) -> int:
        if not self.is_kind(Kind.NUMBER):
            raise self.fail("a number")
        return int(self.skip().text)

    def listed(self, close: str, read: Callable[[], Read]) -> tuple[Read, ...]:
        """At least one, with a comma between two, and then the closing sign."""
        found = [read()]
        while self.text == ",":
            self.skip()
            found.append(read())
        if self.text != close:
            raise self.fail(f"`,` or `{close}`")
        self.skip()
        return tuple(found)

    # ---- expressions

    def place(self, begin: int) -> dict[str, int]:
        """Where what was read from the token `begin` on stands."""
        first = self.tokens[begin]
        return {"first": first.at, "behind": self.tokens[self.at - 1].behind, "line": first.line}

    def expression(self, least: int = 1) -> Expr:
        """An expression whose operators outside brackets bind at least so tightly."""
        begin, left = self.at, self.operand()
        while LEVELS.get(self.text, 0) >= least:
            operator = self.skip().text
            right = self.expression(LEVELS[operator] + 1)
            left = Binary(operator, left, right, **self.place(begin))
        return left

    def operand(self) -> Expr:
        self.nested += 1
        if self.nested > DEEPEST:
            raise self.fail("a less deep expression")
        begin, text = self.at, self.text
        if text == "!" or text in PATH_OPERATORS:
            self.skip()
            inner = self.expression(PREFIX_LEVEL + 1)
            found: Expr = Unary(text, inner, **self.place(begin))
        else:
            found = self.single()
        self.nested -= 1
        return found

    def single(self) -> Expr:
        begin, token = self.at, self.token
        if token is None:
            raise self.fail("an expression")
        if token.kind is Kind.NAME:
            return self.path()
        readers: dict[str, Callable[[int], Expr]] = {
            "(": self.group, "{": self.braces, "case": self.case, "next": self.next_value, "E": self.until, "A": self.until,
        }
        if token.kind is Kind.NUMBER:
            return Number(int(self.skip().text), token.text, **self.place(begin))
        if token.text in ("TRUE", "FALSE"):
            self.skip()
            return Number(int(token.text == "TRUE"), token.text, **self.place(begin))
        if token.text == "running":
            self.skip()
            return Running(**self.place(begin))
        if token.text not in readers:
            raise self.fail("an expression")
        return readers[token.text](begin)

    def path(self) -> Path:
        begin, name = self.at, self.name()
        parts: list[str | Expr] = []
        while self.text in (".", "["):
            if self.skip().text == ".":
                parts.append(self.name().text)
            else:
                parts.append(self.expression())
                self.take("]")
        return Path(name.text, tuple(parts), **self.place(begin))

    def group(self, begin: int) -> Expr:
        self.skip()
        inner = self.expression()
        self.take(")")
        return Group(inner, **self.place(begin))

    def next_value(self, begin: int) -> Expr:
        self.skip()
        self.take("(")
        inner = self.expression()
        self.take(")")
        return Next(inner, **self.place(begin))

    def braces(self, begin: int) -> Expr:
        self.skip()
        elements = self.listed("}", self.expression)
        return Braces(elements, **self.place(begin))

    def case(self, begin: int) -> Expr:
        self.skip()
        arms: list[tuple[Expr, Expr]] = []
        while not arms or self.text != "esac":
            condition = self.expression()
            self.take(":")
            arms.append((condition, self.expression()))
            self.take(";")
        self.skip()
        return Case(tuple(arms), **self.place(begin))

    def until(self, begin: int) -> Expr:
        quantifier = self.skip().text
        self.take("[")
        left = self.expression()
        self.take("U")
        right = self.expression()
        self.take("]")
        return Until(quantifier, left, right, **self.place(begin))


class ProgramReader(ExpressionReader):
    """Reads modules."""

    def piece(self, begin: int) -> tuple[int, int, int]:
        first = self.tokens[begin]
        return first.at, self.tokens[self.at - 1].behind, first.line

    def program(self) -> list[Module]:
        found = []
        while self.token is not None:
            found.append(self.module())
        return found

    def module(self) -> Module:
        begin = self.at
        self.take("MODULE")
        name = self.name("the name of a module").text
        formals: tuple[str, ...] = ()
        if self.text == "(":
            self.skip()
            formals = self.closed(lambda: self.name().text)
        head, sections = self.tokens[self.at - 1].behind, []
        while self.token is not None and self.text != "MODULE":
            sections.append(self.section())
        return Module(*self.piece(begin), name, formals, tuple(sections), head)

    def closed(self, read: Callable[[], Read]) -> tuple[Read, ...]:
        """What stands behind `(`, which may be nothing, and then `)`."""
        if self.text == ")":
            self.skip()
            return ()
        return self.listed(")", read)

    def section(self) -> Section:
        begin, word = self.at, self.text
        if word not in SECTIONS:
            raise self.fail("a section or a module")
        self.skip()
        members: list[Member] = []
        readers: dict[str, Callable[[], Member]] = {
            "VAR": self.declaration, "ASSIGN": self.assignment, "DEFINE": self.definition,
        }
        if word not in readers:
            return self.statement(begin, word)
        while self.begins_member(word):
            members.append(readers[word]())
        return Section(*self.piece(begin), word, tuple(members))

    def begins_member(self, word: str) -> bool:
        """Whether a member follows; else the section ends, where something may follow it."""
        return self.is_kind(Kind.NAME) or word == "ASSIGN" and self.text in ("init", "next")

    def statement(self, begin: int, word: str) -> Section:
        expr = self.expression()
        if self.text == ";":
            self.skip()
        place = self.piece(begin)
        return Section(*place, word, (Statement(*place, word, expr),))

    def declaration(self) -> Declaration:
        begin, name = self.at, self.name().text
        self.take(":")
        kind = self.type()
        self.take(";")
        return Declaration(*self.piece(begin), name, kind)

    def definition(self) -> Definition:
        begin, name = self.at, self.name().text
        self.take(":=")
        right = self.expression()
        self.take(";")
        return Definition(*self.piece(begin), name, right)

    def assignment(self) -> Assignment:
        begin, part = self.at, ""
        if self.text in ("init", "next"):
            part = self.skip().text
            self.take("(")
            left = self.path()
            self.take(")")
        else:
            left = self.path()
        self.take(":=")
        right = self.expression()
        self.take(";")
        first, behind, _ = self.piece(begin)
        return Assignment(first, behind, right.line, part, left, right)

    # ---- types

    def type(self) -> Type:
        process = self.text == "process"
        if process:
            self.skip()
        if not process and not self.is_kind(Kind.NAME):
            return self.plain()
        name = self.name("the name of a module").text
        actuals: tuple[Expr, ...] = ()
        if self.text == "(":
            self.skip()
            actuals = self.closed(self.expression)
        return InstanceType(name, actuals, process)

    def plain(self) -> PlainType:
        self.nested += 1
        if self.nested > DEEPEST:
            raise self.fail("a less deep type")
        found = self.plain_inside()
        self.nested -= 1
        return found

    def plain_inside(self) -> PlainType:
        if self.text == "boolean":
            self.skip()
            return BooleanType()
        if self.text == "{":
            self.skip()
            return ListType(self.listed("}", self.constant))
        if self.text == "array":
            self.skip()
            low, _, high = self.number(), self.take(".."), self.number()
            self.take("of")
            return ArrayType(low, high, self.plain())
        if self.text == "-" or self.is_kind(Kind.NUMBER):
            low, _, high = self.end(), self.take(".."), self.end()
            return RangeType(low, high)
        raise self.fail("a type")

    def end(self) -> int:
        if self.text == "-":
            self.skip()
            return -self.number()
        return self.number()

    def constant(self) -> Value:
        if self.text in ("TRUE", "FALSE"):
            return int(self.skip().text == "TRUE")
        if self.is_kind(Kind.NUMBER):
            return int(self.skip().text)
        return self.name("a name or a number").text


def program_of(source: Source) -> list[Module]:
    """The modules of the text; LexFault or SyntaxFault where it is no program."""
    return ProgramReader(tokens_of(source)).program()


def expression_of(text: str) -> Expr:
    """The expression that the whole text is."""
    reader = ExpressionReader(tokens_of(Source(text.encode("latin-1"))))
    found = reader.expression()
    if reader.token is not None:
        raise reader.fail("the end of the expression")
    return found
