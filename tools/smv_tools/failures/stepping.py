"""Initial states and next states by the tools' own evaluation, each in turn ("Processes" in docs/LANGUAGE.md). No fixpoint."""
from __future__ import annotations

from collections.abc import Iterator, Sequence
from dataclasses import dataclass

from ..evaluation import Evaluation, Fault
from ..model import SELECTOR, Flat, Item, Model, Scope, Stands, Unreadable, Variable
from ..report import State
from ..syntax import Expr, Next, Path, Value, walk


def read(model: Model, expr: Expr, scope: Scope, below_next: bool) -> set[str]:
    """The flat variables that the expression reads; with `below_next` those that it reads in the next state alone."""
    found: set[str] = set()
    inner = [it.inner for it in walk(expr) if isinstance(it, Next)] if below_next else [expr]
    for part in inner:
        for it in walk(part):
            denoted = model.denoted(it, scope) if isinstance(it, Path) and not _is_constant(model, it, scope) else None
            if isinstance(denoted, Flat):
                found.add(denoted.name)
            elif isinstance(denoted, Stands):
                found |= read(model, denoted.expr, denoted.scope, False)
    if below_next:
        for it in walk(expr):
            denoted = model.denoted(it, scope) if isinstance(it, Path) and not _is_constant(model, it, scope) else None
            if isinstance(denoted, Stands):
                found |= read(model, denoted.expr, denoted.scope, True)
    if any(type(it).__name__ == "Running" for it in walk(expr)) and not below_next and model.has_selector:
        found.add(SELECTOR)
    return found


def _is_constant(model: Model, path: Path, scope: Scope) -> bool:
    try:
        return not isinstance(model.denoted(path, scope), (Flat, Stands))
    except Unreadable:
        return True


@dataclass
class Test:
    """A constraint of states, with the variables that have to be known before it is read."""

    item: Item
    needs: set[str]


class Stepping:
    """The states of a model, one after the other. `most` bounds how many are listed."""

    def __init__(self, model: Model) -> None:
        self.model = model
        everything = {it.name for it in model.variables}
        self.current = {it.target: it for it in model.assignments if not it.part}
        self.initial = {it.target: it for it in model.assignments if it.part == "init"}
        self.steps: dict[str, dict[str, Item]] = {}
        for it in model.assignments:
            if it.part == "next":
                self.steps.setdefault(it.scope.process, {})[it.target] = it
        self.stepped = {name for items in self.steps.values() for name in items}
        self.init_tests = [Test(it, read(model, it.expr, it.scope, False)) for it in model.statements("INIT")]
        self.invariants = [Test(it, read(model, it.expr, it.scope, False)) for it in model.statements("INVAR")]
        self.trans = [Test(it, read(model, it.expr, it.scope, True)) for it in model.statements("TRANS")]
        assert everything

    # ---- initial states

    def initial_states(self) -> Iterator[State]:
        """The initial states, in their order where no variable hangs on a later one."""
        tied = {name: it for name, it in {**self.initial, **self.current}.items()}
        needs = {name: read(self.model, it.expr, it.scope, False) for name, it in tied.items()}

        def values(variable: Variable, part: State) -> Sequence[Value]:
            it = tied.get(variable.name)
            return variable.values if it is None else Evaluation(self.model, part).values(it.expr, it.scope)

        def holds(test: Test, part: State) -> bool:
            return bool(Evaluation(self.model, part).truth(test.item.expr, test.item.scope))

        yield from self._filled(needs, values, [(it, holds) for it in [*self.init_tests, *self.invariants]])

    # ---- steps

    def next_states(self, state: State) -> Iterator[State]:
        """The states that the state steps to."""
        model = self.model
        if not all(Evaluation(model, state).truth(it.item.expr, it.item.scope) for it in self.invariants):
            return
        driven = self.steps.get(str(state.get(SELECTOR, "main")), {})
        needs = {name: read(model, it.expr, it.scope, False) for name, it in self.current.items()}
        needs.update({name: read(model, it.expr, it.scope, True) for name, it in driven.items()})

        def values(variable: Variable, part: State) -> Sequence[Value]:
            name = variable.name
            if name in self.current:
                it = self.current[name]
                return Evaluation(model, part).values(it.expr, it.scope)
            if name in driven:
                it = driven[name]
                return Evaluation(model, state, part).values(it.expr, it.scope)
            return (state[name],) if name in self.stepped else variable.values

        def here(test: Test, part: State) -> bool:
            return bool(Evaluation(model, part).truth(test.item.expr, test.item.scope))

        def step(test: Test, part: State) -> bool:
            return bool(Evaluation(model, state, part).truth(test.item.expr, test.item.scope))

        yield from self._filled(needs, values, [*((it, here) for it in self.invariants), *((it, step) for it in self.trans)])

    # ---- both

    def _filled(self, needs: dict[str, set[str]], values, tests) -> Iterator[State]:  # type: ignore[no-untyped-def]
        """All states of these values that pass the tests: a variable is filled in behind those that it needs, and a test is
        read as soon as it can be."""
        order = in_order([it.name for it in self.model.variables], needs)
        due: list[list[tuple[object, object]]] = [[] for _ in order]
        place = {name: k for k, name in enumerate(order)}
        for test, holds in tests:
            due[max((place[it] for it in test.needs), default=0)].append((test, holds))
        names = [it.name for it in self.model.variables]

        def fill(k: int, part: State) -> Iterator[State]:
            if k == len(order):
                yield {name: part[name] for name in names}
                return
            variable = self.model.variable[order[k]]
            for value in values(variable, part):
                part[order[k]] = value
                if all(holds(test, part) for test, holds in due[k]):  # type: ignore[operator]
                    yield from fill(k + 1, part)
            part.pop(order[k], None)

        try:
            yield from fill(0, {})
        except Fault as fault:
            raise Unreadable(f"a value can't be told: {fault}") from None


def in_order(names: Sequence[str], needs: dict[str, set[str]]) -> list[str]:
    """The names, each behind those that it needs, and else in their order."""
    found: dict[str, None] = {}

    def take(name: str) -> None:
        if name not in found:
            for it in names:
                if it != name and it in needs.get(name, ()):
                    take(it)
            found[name] = None

    for name in names:
        take(name)
    return list(found)
