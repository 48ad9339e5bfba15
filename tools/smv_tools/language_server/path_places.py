"""Where the steps of a path come from: of each step the assignment, and in a `case` the arm, that gave a variable its value."""
from __future__ import annotations

from collections.abc import Iterator

from ..evaluation import Evaluation, Fault
from ..model import SELECTOR, Item, Model, Unreadable
from ..report import State, Trace
from ..syntax import Case, Expr, bare

# Of a longer path the states up to here are told, and of a state so many values.
MOST_STATES = 200
MOST_VALUES = 12
Place = tuple[int, int]


def values_text(values: dict[str, object]) -> str:
    shown = [f"{name} = {value}" for name, value in list(values.items())[:MOST_VALUES]]
    more = len(values) - len(shown)
    return ", ".join(shown) + (f", and {more} more" if more else "")


class Steps:
    """Finds the places of steps."""

    def __init__(self, model: Model) -> None:
        self.model = model
        self.assignments: dict[str, list[Item]] = {}
        for item in model.assignments:
            self.assignments.setdefault(item.target, []).append(item)

    def assigned(self, name: str, now: State, after: State) -> Place | None:
        """The assignment that gives the variable its value of `after`; None where it is free."""
        process = now.get(SELECTOR, "main")
        for item in self.assignments.get(name, []):
            if item.part == "next" and item.scope.process == process:
                return self._chosen(item, now, after)
            if not item.part:
                return self._chosen(item, after, None)
        return None

    def process_place(self, name: object) -> Place | None:
        """Where a process is declared."""
        scope = next((it for it in self.model.scopes if it.name == name and it.caller), None)
        caller = scope.caller if scope else None
        if scope is None or caller is None:
            return None
        return self._declared(caller.declarations.get(scope.name.rpartition(".")[2]))

    @staticmethod
    def _declared(declaration: object) -> Place | None:
        first, behind = getattr(declaration, "first", None), getattr(declaration, "behind", None)
        return (first, behind) if first is not None and behind is not None else None

    def _chosen(self, item: Item, now: State, after: State | None) -> Place:
        """The arm that is taken, or the assignment."""
        found: Expr = bare(item.expr)
        evaluation = Evaluation(self.model, now, after)
        arm: tuple[Expr, Expr] | None = None
        try:
            while isinstance(found, Case):
                arm = next(it for it in found.arms if evaluation.truth(it[0], item.scope))
                found = bare(arm[1])
        except (Fault, Unreadable, StopIteration, KeyError, RecursionError):
            pass
        return (arm[0].first, arm[1].behind) if arm else (item.first, item.behind)

    def of_step(self, now: State, after: State, other: Place) -> Place:
        """The place of the first assigned variable that changes, else of the first free one, else of the process that moves."""
        changed = [name for name in changes(now, after) if name != SELECTOR]
        places: list[Place | None] = [self.assigned(name, now, after) for name in changed]
        variables = [self.model.variable.get(name) for name in changed]
        places += [self._declared(variable.declaration) for variable in variables if variable]
        found = [place for place in places if place]
        return found[0] if found else self.process_place(now.get(SELECTOR)) or other


def changes(now: State, after: State) -> dict[str, object]:
    return {name: value for name, value in after.items() if now[name] != value}


def path_places(model: Model, trace: Trace, spec: Place) -> Iterator[tuple[int, int, str]]:
    """Of each state of the path a place, and its values: of state 0 all, and of the others what changes."""
    steps, states = Steps(model), trace.states
    yield *spec, f"state 0: {values_text(dict(states[0]))}"
    for k in range(1, min(len(states), MOST_STATES)):
        changed = changes(states[k - 1], states[k])
        yield *steps.of_step(states[k - 1], states[k], spec), f"state {k}: {values_text(changed) or 'nothing changes'}"
    if len(states) > MOST_STATES:
        yield *spec, f"and {len(states) - MOST_STATES} states more, up to state {len(states) - 1}"
    if trace.loop is not None:
        last, again = states[-1], states[trace.loop]
        changed = changes(last, again)
        yield (*steps.of_step(last, again, spec),
               f"state {trace.loop} again, for ever: {values_text(changed) or 'nothing changes'}")
