"""Faults (E23): where an item has no value, what came out, and the variables that it depends on."""
from __future__ import annotations

from collections.abc import Iterator
from dataclasses import dataclass

from ..evaluation import Evaluation, Fault, Values
from ..model import Item, Model, Stands, Unreadable
from ..refusals import Refusal
from ..syntax import LOGIC, Binary, Case, Expr, Group, Number, Path, Unary, Until, Value, bare, walk, written
from .marks import Edit, Finding, Mark
from .static import items_on
from .uses import variables

KINDS = {
    "ManyValues": "A set of more than one value stands where one value is wanted.",
    "NotNumber": "A symbol stands where a number is wanted.",
    "NotBoolean": "A value other than 0 and 1 stands where a truth value is wanted.",
    "ZeroDivisor": "The divisor is 0.",
    "Overflow": "The result leaves the range of numbers.",
    "OutOfType": "The value isn't among those of the variable's type.",
}


@dataclass
class Met:
    """A fault of an item: where it comes, the values that were met, and the part of the item that stands there."""

    item: Item
    leaf: Expr
    kind: str
    place: Expr
    values: Values


def leaves(word: str, item: Item) -> Iterator[Expr]:
    """The parts without path operators of a specification or a constraint; else the whole."""
    if word not in ("SPEC", "FAIRNESS"):
        yield item.expr
        return
    yield from parts(item.expr)


def parts(expr: Expr) -> Iterator[Expr]:
    if not any(is_operator(it) for it in walk(expr)):
        yield expr
        return
    match bare(expr):
        case Unary(inner=inner):
            yield from parts(inner)
        case Binary(operator=operator, left=left, right=right) if operator in LOGIC:
            yield from parts(left)
            yield from parts(right)
        case Until(left=left, right=right):
            yield from parts(left)
            yield from parts(right)


def is_operator(expr: Expr) -> bool:
    return isinstance(expr, Until) or isinstance(expr, Unary) and expr.operator != "!"


def met(model: Model, refusal: Refusal) -> Met | None:
    """The first item of the line that faults at the values that the program tells."""
    at = Evaluation(model, refusal.now, {**refusal.now, **refusal.after} if refusal.after else refusal.now)
    for word, item in items_on(model, refusal.line):
        for leaf in leaves(word, item):
            try:
                if word == "ASSIGN":
                    values = at.values(leaf, item.scope)
                    wrong = tuple(it for it in values if it not in model.variable[item.target].values)
                    if wrong:
                        return Met(item, leaf, "OutOfType", leaf, wrong)
                else:
                    at.truth(leaf, item.scope)
            except Fault as fault:
                return Met(item, leaf, fault.kind, fault.expr, fault.met)
            except (Unreadable, KeyError):
                continue
    return None


def fault(model: Model, refusal: Refusal) -> Finding | None:
    found = met(model, refusal)
    if found is None or found.kind != refusal.kind:
        return Finding([], [KINDS.get(refusal.kind, ""), state_of(refusal, None)])
    at = Evaluation(model, refusal.now, {**refusal.now, **refusal.after} if refusal.after else refusal.now)
    source_of = source(found, at)
    place = source_of.place or found.place
    inside = found.leaf.first <= place.first < found.leaf.behind
    mark = Mark(place.first, place.behind)
    marks = [mark] if inside else [Mark(found.leaf.first, found.leaf.behind), Mark(place.first, place.behind, "stands for it")]
    needed = variables(model, found.leaf, found.item.scope)
    return Finding(marks, [KINDS[found.kind], came_out(model, found, source_of.missing), state_of(refusal, needed)],
                   mends(model, found, source_of))


def state_of(refusal: Refusal, needed: list[tuple[str, bool]] | None) -> str:
    """The values of the state, of the variables that matter where these are known."""
    pairs = [(name, value) for name, value in refusal.now.items() if needed is None or (name, False) in needed]
    told = [f"{name} = {value}" for name, value in pairs]
    told += [f"next({name}) = {value}" for name, value in refusal.after.items() if needed is None or (name, True) in needed]
    return f"So it is where {', '.join(told)}." if told else "So it is at every state."


def shown(values: Values) -> str:
    return ", ".join(map(str, values[:8])) + (", .." if len(values) > 8 else "")


def came_out(model: Model, found: Met, missing: bool) -> str:
    what = f"`{written(found.place)}`" if len(written(found.place)) < 60 else "It"
    if found.kind == "OutOfType":
        name = found.item.target
        if missing:
            return f"No arm of the `case` is 1 here, so its value is 1; `{name}` has {extent(model, name)}."
        return f"The value {shown(found.values)} comes out; `{name}` has {extent(model, name)}."
    if found.kind in ("ZeroDivisor", "Overflow"):
        return f"{what} is of {' and '.join(map(str, found.values))}."
    if missing:
        return "No arm of the `case` is 1 here, so its value is 1."
    return f"{what} is {shown(found.values)}."


def extent(model: Model, name: str) -> str:
    values = model.variable[name].values
    numbers = [it for it in values if isinstance(it, int)]
    if len(numbers) == len(values) > 2 and list(numbers) == list(range(numbers[0], numbers[-1] + 1)):
        return f"{numbers[0]} to {numbers[-1]}"
    return f"the values {shown(values)}"


@dataclass
class Origin:
    """Where a wrong value comes from in an expression: the part of it, the `case` and its arm, or that no arm was met."""

    place: Expr | None = None
    case: Case | None = None
    arm: int = -1
    missing: bool = False


def source(found: Met, at: Evaluation) -> Origin:
    """Follows the wrong value of an assignment down to the arm that gave it."""
    if found.kind != "OutOfType":
        return Origin()
    expr, scope, origin = bare(found.place), found.item.scope, Origin()
    while True:
        if isinstance(expr, Path):
            denoted = at.model.denoted(expr, scope)
            if not isinstance(denoted, Stands):
                return Origin(expr, origin.case, origin.arm)
            expr, scope = bare(denoted.expr), denoted.scope
            continue
        if not isinstance(expr, Case):
            return Origin(expr, origin.case, origin.arm)
        k = next((k for k, (condition, _) in enumerate(expr.arms) if at.truth(condition, scope)), None)
        if k is None:
            return Origin(expr, expr, -1, True)
        origin = Origin(None, expr, k)
        expr = bare(expr.arms[k][1])


def beside_zero(model: Model, found: Met) -> list[Edit]:
    """The item by a `case` where the divisor is 0: a condition holds there, and a variable keeps its value."""
    leaf, place = found.leaf, found.place
    if not isinstance(place, Binary) or not leaf.first <= place.first < leaf.behind or "\n" in written(place.right):
        return []
    then = "1" if not found.item.target else here_called(model, found.item)
    if found.item.target and found.item.part != "next":
        return []
    divisor = written(place.right)
    return [Edit(leaf.first, leaf.first, f"case {divisor} = 0 : {then}; 1 : "), Edit(leaf.behind, leaf.behind, "; esac")]


def mends(model: Model, found: Met, origin: Origin) -> list[Edit]:
    """A last arm of a `case` that lacks one, a bound of what counts beyond its type, or what holds where a divisor is 0."""
    if found.kind == "ZeroDivisor":
        return beside_zero(model, found)
    if found.kind != "OutOfType" or origin.place is None or not found.leaf.first <= origin.place.first < found.leaf.behind:
        return []
    name = here_called(model, found.item)
    if origin.missing:
        arms = origin.place
        return [Edit(arms.behind - 4, arms.behind - 4, f"1 : {name}; ")] if found.item.part == "next" else []
    bound = bound_of(model, found, origin.place)
    if bound is None:
        return []
    if origin.case is None:
        whole = found.leaf
        return [Edit(whole.first, whole.first, f"case {bound} : "), Edit(whole.behind, whole.behind, f"; 1 : {name}; esac")]
    condition = origin.case.arms[origin.arm][0]
    later = origin.case.arms[origin.arm + 1:]
    if not later:
        first = condition.first
        if is_always(condition):
            return [Edit(first, condition.behind, bound),
                    Edit(origin.case.behind - 4, origin.case.behind - 4, f"1 : {name}; ")]
        return []
    if is_always(condition):
        return []
    if isinstance(bare(condition), Binary) and not isinstance(condition, Group) and loose(condition):
        return [Edit(condition.first, condition.first, "("), Edit(condition.behind, condition.behind, f") & {bound}")]
    return [Edit(condition.behind, condition.behind, f" & {bound}")]


def loose(expr: Expr) -> bool:
    return isinstance(expr, Binary) and expr.operator in ("|", "->", "<->")


def is_always(expr: Expr) -> bool:
    inner = bare(expr)
    return isinstance(inner, Number) and inner.value == 1


def here_called(model: Model, item: Item) -> str:
    """The left side's variable as it is written."""
    text = model.source.text[item.first:model.source.text.index(":=", item.first)].strip()
    if item.part:
        text = text[text.index("(") + 1:text.rindex(")")].strip()
    return text


def bound_of(model: Model, found: Met, place: Expr) -> str | None:
    """Of `x + 1` the condition under which it is still a value of the variable; none for other forms."""
    values = model.variable[found.item.target].values
    numbers = [it for it in values if isinstance(it, int)]
    if len(numbers) != len(values) or not isinstance(place, Binary) or place.operator not in ("+", "-"):
        return None
    left, right = bare(place.left), bare(place.right)
    if not isinstance(left, Path) or not isinstance(right, Number) or found.item.part != "next":
        return None
    text: Value = written(left)
    if place.operator == "+":
        top = max(numbers) - right.value
        return f"{text} < {top + 1}" if top + 1 > min(numbers) else None
    bottom = min(numbers) + right.value
    return f"{text} > {bottom - 1}" if bottom - 1 >= 0 else f"{text} >= {bottom}" if bottom >= 0 else None
