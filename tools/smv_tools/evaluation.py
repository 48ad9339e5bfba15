"""Values of expressions at a state, or at a state and a next one ("Numbers", "Faults" and "Case" in docs/LANGUAGE.md)."""
from __future__ import annotations

from collections.abc import Callable, Mapping

from .model import SELECTOR, Constant, Flat, Model, Scope, Stands, Unreadable
from .syntax import Binary, Braces, Case, Expr, Group, Next, Number, Path, Running, Unary, Until, Value, written

State = Mapping[str, Value]
Values = tuple[Value, ...]
LEAST, GREATEST = -2_147_483_648, 2_147_483_647


class Fault(Exception):
    """The expression has no value: the kind of the fault, where it comes, and the values that were met."""

    def __init__(self, kind: str, expr: Expr, met: Values = ()) -> None:
        super().__init__(f"{kind} in {written(expr)}")
        self.kind, self.expr, self.met = kind, expr, met


def quotient(a: int, b: int) -> int:
    """Rounded toward zero."""
    return abs(a) // abs(b) * (1 if (a < 0) == (b < 0) else -1)


ARITHMETIC: dict[str, Callable[[int, int], int]] = {
    "+": lambda a, b: a + b,
    "-": lambda a, b: a - b,
    "*": lambda a, b: a * b,
    "/": quotient,
    "mod": lambda a, b: a - b * quotient(a, b),
    "<": lambda a, b: int(a < b),
    ">": lambda a, b: int(a > b),
    "<=": lambda a, b: int(a <= b),
    ">=": lambda a, b: int(a >= b),
}
LOGIC: dict[str, Callable[[int, int], int]] = {
    "&": lambda a, b: a & b,
    "|": lambda a, b: a | b,
    "->": lambda a, b: (1 - a) | b,
    "<->": lambda a, b: int(a == b),
}


class Evaluation:
    """Evaluates expressions of a model at the state `now`, and below `next` at the state `after`."""

    def __init__(self, model: Model, now: State, after: State | None = None) -> None:
        self.model, self.now, self.after = model, now, after

    def values(self, expr: Expr, scope: Scope) -> Values:
        """The values of the expression, each once; one for all but a set. Fault where it has none."""
        match expr:
            case Number(value=value):
                return (value,)
            case Path():
                return self._path(expr, scope)
            case Running():
                return (int(self.now.get(SELECTOR, scope.process) == scope.process),)
            case Group(inner=inner):
                return self.values(inner, scope)
            case Next(inner=inner):
                if self.after is None:
                    raise Unreadable(f"line {expr.line}: there is no next state here")
                return Evaluation(self.model, self.after).values(inner, scope)
            case Braces(elements=elements):
                return tuple(dict.fromkeys(value for it in elements for value in self.values(it, scope)))
            case Case(arms=arms):
                return self._case(arms, scope)
            case Unary(operator="!", inner=inner):
                return (1 - self.truth(inner, scope),)
            case Binary():
                return self._binary(expr, scope)
            case Unary() | Until():
                raise Unreadable(f"line {expr.line}: a path operator has no value at a state")

    def single(self, expr: Expr, scope: Scope) -> Value:
        """The one value; ManyValues where there are several."""
        values = self.values(expr, scope)
        if len(values) != 1:
            raise Fault("ManyValues", expr, values)
        return values[0]

    def number(self, expr: Expr, scope: Scope) -> int:
        value = self.single(expr, scope)
        if isinstance(value, str):
            raise Fault("NotNumber", expr, (value,))
        return value

    def truth(self, expr: Expr, scope: Scope) -> int:
        """0 or 1; NotBoolean for another value."""
        value = self.single(expr, scope)
        if value not in (0, 1) or isinstance(value, str):
            raise Fault("NotBoolean", expr, (value,))
        return value

    def _path(self, path: Path, scope: Scope) -> Values:
        found = self.model.denoted(path, scope)
        match found:
            case Flat(name=name):
                return (self.now[name],)
            case Stands(expr=expr, scope=inner):
                return self.values(expr, inner)
            case Constant(symbol=symbol):
                return (symbol,)
        raise Unreadable(f"line {path.line}: {written(path)} has no value")

    def _case(self, arms: tuple[tuple[Expr, Expr], ...], scope: Scope) -> Values:
        for condition, result in arms:
            if self.truth(condition, scope):
                return self.values(result, scope)
        return (1,)

    def _binary(self, expr: Binary, scope: Scope) -> Values:
        operator, left, right = expr.operator, expr.left, expr.right
        if operator == "union":
            return tuple(dict.fromkeys((*self.values(left, scope), *self.values(right, scope))))
        if operator == "in":
            wanted = self.single(left, scope)
            return (int(wanted in self.values(right, scope)),)
        if operator == "=":
            one = self.single(left, scope)
            return (int(one == self.single(right, scope)),)
        if operator in LOGIC:
            truth = self.truth(left, scope)
            return (LOGIC[operator](truth, self.truth(right, scope)),)
        a = self.number(left, scope)
        b = self.number(right, scope)
        if operator in ("/", "mod") and b == 0:
            raise Fault("ZeroDivisor", expr, (a, b))
        result = ARITHMETIC[operator](a, b)
        if not LEAST <= result <= GREATEST:
            raise Fault("Overflow", expr, (a, b))
        return (result,)


class _NoState(dict[str, Value]):
    def __missing__(self, name: str) -> Value:
        raise Unreadable(f"{name} varies from state to state")


def constant(model: Model, expr: Expr, scope: Scope) -> Value:
    """The value of an expression that no variable stands in, as an index."""
    try:
        return Evaluation(model, _NoState()).single(expr, scope)
    except Fault as fault:
        raise Unreadable(str(fault)) from None
