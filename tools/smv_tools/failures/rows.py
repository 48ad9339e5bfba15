"""The rows of a table or picture: variables, definitions and leaves, with their values at each state."""
from __future__ import annotations

from collections.abc import Sequence
from dataclasses import dataclass

from ..evaluation import Evaluation, Fault
from ..model import Model, Scope, Unreadable
from ..report import State
from ..statuses import USAGE, Stop
from ..syntax import Expr, Value
from ..wrong_words import instead
from .formulas import Leaf, has_path_operator
from .writing import shown_leaf

VARIABLE, DEFINE, LEAF = "variable", "define", "leaf"


@dataclass
class Row:
    """A name, what it is (`kind`), its type as the model has it, and a value for each state."""

    name: str
    kind: str
    type: str
    cells: list[str]

    @property
    def is_bit(self) -> bool:
        return self.type == "boolean"

    def changed(self, k: int) -> bool:
        """Whether the step into state k changed it."""
        return k > 0 and self.cells[k] != self.cells[k - 1]

    @property
    def changes(self) -> bool:
        return any(map(self.changed, range(len(self.cells))))


def variable_rows(model: Model, states: Sequence[State]) -> list[Row]:
    return [Row(it.name, VARIABLE, it.kind, [str(state[it.name]) for state in states]) for it in model.variables]


def values_of(model: Model, expr: Expr, scope: Scope, states: Sequence[State]) -> list[tuple[Value, ...]] | None:
    """The values at each state; None where the expression has none at one of them."""
    try:
        return [Evaluation(model, state).values(expr, scope) for state in states]
    except (Fault, Unreadable):
        return None


def written_values(values: tuple[Value, ...]) -> str:
    return str(values[0]) if len(values) == 1 else "{" + ", ".join(map(str, values)) + "}"


def _row(name: str, kind: str, found: list[tuple[Value, ...]]) -> Row:
    is_bit = kind == LEAF or all(values in ((0,), (1,)) for values in found)
    return Row(name, kind, "boolean" if is_bit else "value", [written_values(it) for it in found])


def define_rows(model: Model, states: Sequence[State]) -> list[Row]:
    """The definitions that have a value at each state."""
    rows = []
    for name, it, scope in model.definitions:
        if has_path_operator(model, it.right, scope):
            continue
        found = values_of(model, it.right, scope, states)
        if found is not None:
            rows.append(_row(name, DEFINE, found))
    return rows


def leaf_rows(model: Model, leaves: Sequence[Leaf], states: Sequence[State]) -> list[Row]:
    """The leaves of a specification, but for those that are a variable or definition of `main`."""
    known = {it.name for it in model.variables} | {name for name, _, _ in model.definitions}
    rows = []
    for leaf in leaves:
        name = shown_leaf(leaf.expr)
        found = values_of(model, leaf.expr, leaf.scope, states)
        if found is not None and (name not in known or leaf.scope.name):
            rows.append(_row(name, LEAF, found))
    return rows


def all_rows(model: Model, states: Sequence[State], leaves: Sequence[Leaf] = ()) -> list[Row]:
    return [*variable_rows(model, states), *define_rows(model, states), *leaf_rows(model, leaves, states)]


def only(rows: Sequence[Row], names: str) -> list[Row]:
    """The rows of these names, which are separated by commas; that of an instance or array is all in it."""
    wanted = [it.strip() for it in names.split(",") if it.strip()]
    found = []
    for name in wanted:
        some = [row for row in rows if row.name == name or row.name.startswith((f"{name}.", f"{name}["))]
        if not some:
            raise Stop(f"there is no {name} to show{instead(name, [row.name for row in rows])}", USAGE)
        found += some
    return [row for row in rows if any(row is it for it in found)]
