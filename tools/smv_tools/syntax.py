"""Expressions as trees, and how they are written."""
from __future__ import annotations

from collections.abc import Iterator
from dataclasses import dataclass, field
from typing import Union

Value = Union[int, str]


@dataclass(frozen=True)
class Node:
    """Where a tree stands in its text, which makes no difference between trees: first byte, the place behind, line."""

    first: int = field(default=0, compare=False, kw_only=True)
    behind: int = field(default=0, compare=False, kw_only=True)
    line: int = field(default=0, compare=False, kw_only=True)


@dataclass(frozen=True)
class Number(Node):
    """A number, or a truth value as `TRUE`, which is the text then."""

    value: int
    text: str = field(default="", compare=False)


@dataclass(frozen=True)
class Path(Node):
    """A name, and behind it names with a dot (texts) and indexes (expressions)."""

    name: str
    parts: tuple[Union[str, "Expr"], ...] = ()


@dataclass(frozen=True)
class Running(Node):
    pass


@dataclass(frozen=True)
class Next(Node):
    inner: Expr


@dataclass(frozen=True)
class Group(Node):
    """Parentheses."""

    inner: Expr


@dataclass(frozen=True)
class Braces(Node):
    elements: tuple[Expr, ...]


@dataclass(frozen=True)
class Case(Node):
    """Conditions with their right sides."""

    arms: tuple[tuple[Expr, Expr], ...]


@dataclass(frozen=True)
class Unary(Node):
    """`!` or a path operator as `EX`, before its operand."""

    operator: str
    inner: Expr


@dataclass(frozen=True)
class Until(Node):
    """`E[left U right]` or `A[left U right]`."""

    quantifier: str
    left: Expr
    right: Expr


@dataclass(frozen=True)
class Binary(Node):
    operator: str
    left: Expr
    right: Expr


Expr = Union[Number, Path, Running, Next, Group, Braces, Case, Unary, Until, Binary]

# From loose to tight, as docs/LANGUAGE.md counts its rules: prefix operators are level 4, what needs no operator is 11.
LEVELS = {"->": 1, "<->": 1, "|": 2, "&": 3, "=": 5, "<": 5, ">": 5, "<=": 5, ">=": 5, "in": 6, "union": 7, "mod": 8,
          "+": 9, "-": 9, "*": 10, "/": 10}
PREFIX_LEVEL = 4
SINGLE_LEVEL = 11
LOGIC = ("->", "<->", "|", "&")


def bare(expr: Expr) -> Expr:
    """The expression without the parentheses around it."""
    while isinstance(expr, Group):
        expr = expr.inner
    return expr


def children(expr: Expr) -> Iterator[Expr]:
    """The expressions right below, from left to right."""
    match expr:
        case Path(parts=parts):
            yield from (part for part in parts if not isinstance(part, str))
        case Next(inner=inner) | Group(inner=inner) | Unary(inner=inner):
            yield inner
        case Braces(elements=elements):
            yield from elements
        case Case(arms=arms):
            for condition, result in arms:
                yield condition
                yield result
        case Until(left=left, right=right) | Binary(left=left, right=right):
            yield left
            yield right


def walk(expr: Expr) -> Iterator[Expr]:
    """The expression and all below it, operators before their operands."""
    yield expr
    for child in children(expr):
        yield from walk(child)


def level_of(expr: Expr) -> int:
    match expr:
        case Binary(operator=operator):
            return LEVELS[operator]
        case Unary():
            return PREFIX_LEVEL
    return SINGLE_LEVEL


def _at_level(expr: Expr, level: int) -> str:
    text = written(expr)
    return text if level_of(expr) >= level else f"({text})"


def _path(expr: Path) -> str:
    return expr.name + "".join(f".{part}" if isinstance(part, str) else f"[{written(part)}]" for part in expr.parts)


def written(expr: Expr) -> str:
    """The expression as a text that is read as this tree, with parentheses where they are needed."""
    match expr:
        case Number(value=value, text=text):
            return text or (str(value) if value >= 0 else f"(0 - {-value})")
        case Path():
            return _path(expr)
        case Running():
            return "running"
        case Next(inner=inner):
            return f"next({written(inner)})"
        case Group(inner=inner):
            return f"({written(inner)})"
        case Braces(elements=elements):
            return "{" + ", ".join(map(written, elements)) + "}"
        case Case(arms=arms):
            return "case " + "".join(f"{written(it)} : {written(then)}; " for it, then in arms) + "esac"
        case Unary(operator=operator, inner=inner):
            return f"{operator}{'' if operator == '!' else ' '}{_at_level(inner, PREFIX_LEVEL)}"
        case Until(quantifier=quantifier, left=left, right=right):
            return f"{quantifier} [{written(left)} U {written(right)}]"
        case Binary(operator=operator, left=left, right=right):
            level = LEVELS[operator]
            return f"{_at_level(left, level)} {operator} {_at_level(right, level + 1)}"
