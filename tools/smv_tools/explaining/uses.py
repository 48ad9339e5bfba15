"""What an expression stands on once definitions and parameters are put in."""
from __future__ import annotations

from collections.abc import Iterator

from ..model import Flat, Model, Scope, Stands, Unreadable
from ..syntax import Expr, Next, Path, Unary, Until, children

DEEPEST = 400


def uses(model: Model, expr: Expr, scope: Scope, below_next: bool = False, deep: int = 0) -> Iterator[tuple[str, bool]]:
    """The flat variables in the expression, each with whether it stands below `next`."""
    if deep > DEEPEST:
        return
    if isinstance(expr, Path):
        try:
            found = model.denoted(expr, scope)
        except Unreadable:
            return
        if isinstance(found, Flat):
            yield found.name, below_next
        elif isinstance(found, Stands):
            yield from uses(model, found.expr, found.scope, below_next, deep + 1)
        return
    for child in children(expr):
        yield from uses(model, child, scope, below_next or isinstance(expr, Next), deep + 1)


def variables(model: Model, expr: Expr, scope: Scope) -> list[tuple[str, bool]]:
    """The variables of `uses`, each once and in declared order; those below `next` last."""
    order = {it.name: k for k, it in enumerate(model.variables)}
    return sorted(set(uses(model, expr, scope)), key=lambda it: (it[1], order.get(it[0], 0)))


def holds(model: Model, expr: Expr, scope: Scope, kinds: tuple[type, ...], deep: int = 0) -> bool:
    """Whether a tree of these kinds is in the expression, once definitions are put in."""
    if is_of(expr, kinds):
        return True
    if isinstance(expr, Path) and deep < DEEPEST:
        try:
            found = model.denoted(expr, scope)
        except Unreadable:
            return False
        return isinstance(found, Stands) and holds(model, found.expr, found.scope, kinds, deep + 1)
    return any(holds(model, child, scope, kinds, deep + 1) for child in children(expr)) if deep < DEEPEST else False


def is_of(expr: Expr, kinds: tuple[type, ...]) -> bool:
    """`!` is none of the path operators."""
    return isinstance(expr, kinds) and not (isinstance(expr, Unary) and expr.operator == "!")


def places(model: Model, expr: Expr, scope: Scope, kinds: tuple[type, ...]) -> Iterator[Expr]:
    """The trees of these kinds in the expression as it is written, and paths to definitions that hold one."""
    if is_of(expr, kinds) or isinstance(expr, Path) and holds(model, expr, scope, kinds):
        yield expr
    for child in children(expr):
        yield from places(model, child, scope, kinds)


PATH_OPERATORS: tuple[type, ...] = (Unary, Until)
NEXT: tuple[type, ...] = (Next,)
