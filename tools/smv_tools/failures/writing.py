"""Formulas written as CTL of `main`, and as a reader wants to see them."""
from __future__ import annotations

from dataclasses import fields, replace

from ..model import Model, Scope
from ..report import State
from ..syntax import LOGIC, Binary, Expr, Number, Path, Running, Unary, bare, children, written
from .formulas import TURNED, Both, Either, Formula, Leaf, Pair, Step, turned


def fresh(model: Model, name: str) -> str:
    """A name that doesn't stand in the model."""
    while name in model.source.text:
        name += "x"
    return name


def runs_name(model: Model) -> str:
    """What the word `running` of a process is called in copies, where it can't be said from main."""
    return fresh(model, "smv_runs")


def in_main(model: Model, expr: Expr, scope: Scope) -> str:
    """The expression as it is read in main, in parentheses where it needs them."""
    match bare(expr):
        case Path() as path:
            return _path(model, path, scope)
        case Running():
            return "running" if scope.process == "main" else f"{scope.process}.{runs_name(model)}"
        case inner:
            return f"({written(_renamed(model, inner, scope))})" if list(children(inner)) else written(inner)


def _path(model: Model, path: Path, scope: Scope) -> str:
    actual = bare(scope.actuals[path.name]) if path.name in scope.actuals else None
    if actual is not None and scope.caller:
        front = in_main(model, actual, scope.caller)
    elif path.name in scope.declarations or path.name in scope.definitions:
        front = scope.flat(path.name)
    else:
        front = path.name
    return front + "".join(f".{it}" if isinstance(it, str) else f"[{in_main(model, it, scope)}]" for it in path.parts)


def _renamed(model: Model, expr: Expr, scope: Scope) -> Expr:
    """The expression with each name written as main would write it."""
    if isinstance(expr, (Path, Running)):
        return Path(in_main(model, expr, scope))
    changes: dict[str, object] = {}
    for field in fields(expr):
        value = getattr(expr, field.name)
        if isinstance(value, tuple):
            changes[field.name] = tuple(
                tuple(_renamed(model, it, scope) for it in part) if isinstance(part, tuple) else _renamed(model, part, scope)
                for part in value
            )
        elif field.name in ("inner", "left", "right"):
            changes[field.name] = _renamed(model, value, scope)
    return replace(expr, **changes)


def pinned(model: Model, state: State) -> str:
    """An expression of main that is true at this state alone."""
    parts = []
    for variable in model.variables:
        value = state[variable.name]
        if len(variable.values) == 1:
            continue
        if variable.declaration is None:
            parts.append("running" if value == "main" else f"{value}.{runs_name(model)}")
        elif variable.kind == "boolean":
            parts.append(variable.name if value == 1 else f"!{variable.name}")
        else:
            text = f"(0 - {-value})" if isinstance(value, int) and value < 0 else value
            parts.append(f"{variable.name} = {text}")
    return f"({' & '.join(parts)})" if parts else "1"


def ctl(model: Model, formula: Formula) -> str:
    """The formula as a specification of main."""
    match formula:
        case Leaf(expr=expr, scope=scope, holds=holds):
            text = in_main(model, expr, scope)
            return text if holds else f"!{text}"
        case Both(left=left, right=right):
            return f"({ctl(model, left)} & {ctl(model, right)})"
        case Either(left=left, right=right):
            return f"({ctl(model, left)} | {ctl(model, right)})"
        case Step(quantifier=quantifier, operator=operator, inner=inner):
            return f"({quantifier}{operator} {ctl(model, inner)})"
        case Pair(operator="U", quantifier=quantifier, left=left, right=right):
            return f"{quantifier} [{ctl(model, left)} U {ctl(model, right)}]"
        case Pair(quantifier=quantifier, left=left, right=right):
            return f"(!{TURNED[quantifier]} [{ctl(model, turned(left))} U {ctl(model, turned(right))}])"


# ---- for a reader

def needs_group(expr: Expr) -> bool:
    inner = bare(expr)
    return isinstance(inner, Binary) and inner.operator in LOGIC


def shown_leaf(expr: Expr, holds: bool = True) -> str:
    """A leaf as its module writes it."""
    inner = bare(expr)
    if holds:
        return written(inner)
    if isinstance(inner, Unary) and inner.operator == "!":
        return written(bare(inner.inner))
    if isinstance(inner, Number):
        return "0" if inner.value == 1 else "1"
    return f"!({written(inner)})" if isinstance(inner, Binary) else f"!{written(inner)}"


def shown(formula: Formula) -> str:
    """The formula as it is told, its leaves as their module writes them."""
    text = _shown(formula)
    return text[1:-1] if isinstance(formula, (Both, Either)) else text


def _side(formula: Formula) -> str:
    text = _shown(formula)
    if not isinstance(formula, Leaf):
        return text
    inner = bare(formula.expr)
    if not formula.holds and isinstance(inner, Unary):
        return f"({text})" if needs_group(inner.inner) else text
    return f"({text})" if formula.holds and needs_group(inner) else text


def _shown(formula: Formula) -> str:
    match formula:
        case Leaf(expr=expr, holds=holds):
            return shown_leaf(expr, holds)
        case Both(left=left, right=right):
            return f"({_side(left)} & {_side(right)})"
        case Either(left=left, right=right):
            return f"({_side(left)} | {_side(right)})"
        case Step(quantifier=quantifier, operator=operator, inner=inner):
            return f"{quantifier}{operator} {_side(inner)}"
        case Pair(operator="U", quantifier=quantifier, left=left, right=right):
            return f"{quantifier} [{shown(left)} U {shown(right)}]"
        case Pair(quantifier=quantifier, left=left, right=right):
            return f"!{TURNED[quantifier]} [{shown(turned(left))} U {shown(turned(right))}]"
