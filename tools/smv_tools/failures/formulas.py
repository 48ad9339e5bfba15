"""Specifications as formulas whose `!` stands before leaves alone.

A formula here says what a path has to show: of a false specification the formula is its negation, of a true one itself.
Leaves are the largest parts without path operators."""
from __future__ import annotations

from collections.abc import Iterator
from dataclasses import dataclass
from typing import Union

from ..model import Model, Scope, Stands, Unreadable
from ..syntax import Binary, Expr, Number, Path, Unary, Until, bare, walk


@dataclass(frozen=True)
class Leaf:
    """An expression without path operators, in the scope where it is read; `holds` is False where it has to be false."""

    expr: Expr
    scope: Scope
    holds: bool = True


@dataclass(frozen=True)
class Both:
    left: Formula
    right: Formula


@dataclass(frozen=True)
class Either:
    left: Formula
    right: Formula


@dataclass(frozen=True)
class Step:
    """X, F or G of a formula, on some path (E) or on all (A)."""

    quantifier: str
    operator: str
    inner: Formula


@dataclass(frozen=True)
class Pair:
    """On some path or on all: `left U right`, or `left R right`, which is right up to a state with both, or for ever."""

    quantifier: str
    operator: str
    left: Formula
    right: Formula


Formula = Union[Leaf, Both, Either, Step, Pair]
TURNED = {"E": "A", "A": "E", "F": "G", "G": "F", "X": "X", "U": "R", "R": "U"}


def has_path_operator(model: Model, expr: Expr, scope: Scope) -> bool:
    """Whether a path operator stands in the expression, or in what its names stand for."""
    for it in walk(expr):
        if isinstance(it, Until) or isinstance(it, Unary) and it.operator != "!":
            return True
        if isinstance(it, Path):
            try:
                found = model.denoted(it, scope)
            except Unreadable:
                continue
            if isinstance(found, Stands) and has_path_operator(model, found.expr, found.scope):
                return True
    return False


def formula_of(model: Model, expr: Expr, scope: Scope, holds: bool = True) -> Formula:
    """What it means that the expression holds, or doesn't, with `!` before leaves alone."""
    expr = bare(expr)
    if not has_path_operator(model, expr, scope):
        return Leaf(expr, scope, holds)
    match expr:
        case Path():
            found = model.denoted(expr, scope)
            assert isinstance(found, Stands)
            return formula_of(model, found.expr, found.scope, holds)
        case Unary(operator="!", inner=inner):
            return formula_of(model, inner, scope, not holds)
        case Unary(operator=operator, inner=inner):
            names = operator if holds else TURNED[operator[0]] + TURNED[operator[1]]
            return Step(names[0], names[1], formula_of(model, inner, scope, holds))
        case Until(quantifier=quantifier, left=left, right=right):
            first, second = (formula_of(model, it, scope, holds) for it in (left, right))
            return Pair(quantifier, "U", first, second) if holds else Pair(TURNED[quantifier], "R", first, second)
        case Binary(operator=operator, left=left, right=right):
            return _of_logic(model, operator, (left, right), scope, holds)
    raise Unreadable(f"line {expr.line}: a path operator stands where none may")


def _of_logic(model: Model, operator: str, sides: tuple[Expr, Expr], scope: Scope, holds: bool) -> Formula:
    def side(k: int, wanted: bool) -> Formula:
        return formula_of(model, sides[k], scope, wanted)

    if operator == "<->":
        return Either(Both(side(0, True), side(1, holds)), Both(side(0, False), side(1, not holds)))
    left = side(0, holds if operator != "->" else not holds)
    return Both(left, side(1, holds)) if (operator == "&") == holds else Either(left, side(1, holds))


def turned(formula: Formula) -> Formula:
    """The negation."""
    match formula:
        case Leaf(expr=expr, scope=scope, holds=holds):
            return Leaf(expr, scope, not holds)
        case Both(left=left, right=right):
            return Either(turned(left), turned(right))
        case Either(left=left, right=right):
            return Both(turned(left), turned(right))
        case Step(quantifier=quantifier, operator=operator, inner=inner):
            return Step(TURNED[quantifier], TURNED[operator], turned(inner))
        case Pair(quantifier=quantifier, operator=operator, left=left, right=right):
            return Pair(TURNED[quantifier], TURNED[operator], turned(left), turned(right))


def parts_of(formula: Formula) -> Iterator[Formula]:
    """The formula and all below it."""
    yield formula
    match formula:
        case Both(left=left, right=right) | Either(left=left, right=right) | Pair(left=left, right=right):
            yield from parts_of(left)
            yield from parts_of(right)
        case Step(inner=inner):
            yield from parts_of(inner)


def leaves_of(formula: Formula) -> list[Leaf]:
    """The leaves from left to right, each expression once, as they are written."""
    found = {(it.expr, it.scope): Leaf(it.expr, it.scope) for it in parts_of(formula) if isinstance(it, Leaf)}
    return [it for it in found.values() if not isinstance(it.expr, Number)]


def is_plain(formula: Formula) -> bool:
    """No path operator stands in it."""
    return not any(isinstance(it, (Step, Pair)) for it in parts_of(formula))


def conjuncts(formula: Formula) -> list[Formula]:
    if isinstance(formula, Both):
        return [*conjuncts(formula.left), *conjuncts(formula.right)]
    return [formula]


def all_of(formulas: list[Formula]) -> Formula:
    found = formulas[0]
    for it in formulas[1:]:
        found = Both(found, it)
    return found


def in_order(formula: Formula) -> Formula:
    """The same with the leaves before the path formulas wherever several have to hold."""
    match formula:
        case Both():
            parts = [in_order(it) for it in conjuncts(formula)]
            return all_of([*filter(is_plain, parts), *(it for it in parts if not is_plain(it))])
        case Either(left=left, right=right):
            return Either(in_order(left), in_order(right))
        case Step(quantifier=quantifier, operator=operator, inner=inner):
            return Step(quantifier, operator, in_order(inner))
        case Pair(quantifier=quantifier, operator=operator, left=left, right=right):
            return Pair(quantifier, operator, in_order(left), in_order(right))
    return formula


def is_single(formula: Formula) -> bool:
    """Whether one path shows all of it, in the form whose negation the program shows paths for (docs/FORMATS.md: the shape)."""
    match formula:
        case Leaf():
            return True
        case Both():
            rest = [it for it in conjuncts(formula) if not is_plain(it)]
            return not rest or len(rest) == 1 and is_single(rest[0])
        case Either(left=left, right=right):
            return is_single(left) and is_single(right)
        case Step(quantifier="E", operator="G", inner=inner):
            return is_plain(inner)
        case Step(quantifier="E", inner=inner):
            return is_single(inner)
        case Pair(quantifier="E", operator="R", left=left, right=right):
            return is_plain(left) and is_plain(right)
    return False


def shows_something(formula: Formula) -> bool:
    """Whether a path has something to show of it: it asks for one, and not for what is so on all paths alone."""
    match formula:
        case Step(quantifier="E") | Pair(quantifier="E"):
            return True
        case Both(left=left, right=right) | Either(left=left, right=right):
            return shows_something(left) or shows_something(right)
    return False


def as_until(formula: Pair) -> Formula:
    """`left R right` on some path, by G and U."""
    first = Step("E", "G", formula.right)
    return Either(first, Pair("E", "U", formula.right, Both(formula.left, formula.right)))


def relaxed(formula: Formula, scope: Scope) -> Formula:
    """What has to hold without path operators at a state of a fair path where the formula holds."""
    match formula:
        case Both(left=left, right=right):
            return Both(relaxed(left, scope), relaxed(right, scope))
        case Either(left=left, right=right):
            return Either(relaxed(left, scope), relaxed(right, scope))
        case Step(operator="G", inner=inner):
            return relaxed(inner, scope)
        case Step() | Pair():
            return Leaf(Number(1, "TRUE"), scope)
    return formula
