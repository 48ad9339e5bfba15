"""Paths that show formulas: by the program over copies, one way after the other where one copy isn't enough."""
from __future__ import annotations

from dataclasses import dataclass, field

from ..report import State, Trace
from .asking import Asking, Unanswered
from .copies import Copy
from .formulas import (Both, Either, Formula, Leaf, Pair, Step, all_of, as_until, conjuncts, in_order, is_plain, is_single,
                       relaxed, shows_something, turned)
from .picking import Picking
from .writing import ctl, pinned

# How often a path is asked for anew where one leaves the states that it has to stay in.
MOST_TRIES = 60


class NoPath(Exception):
    """No path is shown: why."""


@dataclass
class Found:
    """A path, and specifications of main that fail on it exactly where it shows what it has to, as far as one path can."""

    trace: Trace
    specs: list[str] = field(default_factory=list)

    def behind(self, way: list[State]) -> Trace:
        """The path behind a way that ends where it begins."""
        states = [*way[:-1], *self.trace.states]
        loop = None if self.trace.loop is None else self.trace.loop + len(way) - 1
        return Trace(states, loop)


class Finder:
    def __init__(self, asking: Asking) -> None:
        self.asking, self.model = asking, asking.model
        self.picking = Picking(asking)

    def from_initial(self, formula: Formula, state: State) -> Found:
        """A path from this initial state, at which the formula holds, that shows it; NoPath says why there is none."""
        formula = in_order(formula)
        if not shows_something(formula):
            raise NoPath("no one path shows it")
        found = self.show(formula, state)
        if found.trace.loop is None:
            raise NoPath("no fair path begins at state 0")
        refused = self.asking.refused(found.specs or ["0"], found.trace)
        if refused:
            raise NoPath(f"a path was found that isn't one: {refused}")
        return found

    def show(self, formula: Formula, state: State) -> Found:
        """A path from a state at which the formula holds."""
        if not shows_something(formula):
            return Found(self.asking.fair_path(state))
        if is_single(formula):
            return self._single(formula, state)
        match formula:
            case Both():
                return self._both(conjuncts(formula), state)
            case Either(left=left, right=right):
                return self.show(self._side(left, right, state), state)
            case Step(operator="G", inner=inner):
                return self._always(inner, state)
            case Step(operator=operator, inner=inner):
                return self._to(operator, None, inner, state)
            case Pair(operator="R"):
                return self.show(in_order(as_until(formula)), state)
            case Pair(left=left, right=right):
                return self._to("U", left, right, state)
        raise AssertionError(formula)

    def _single(self, formula: Formula, state: State) -> Found:
        spec = ctl(self.model, turned(formula))
        found = self.asking.path(Copy(self.model, [spec], start=state))
        if found is None or found.loop is None:
            raise Unanswered("a path that has to be there wasn't found")
        return Found(found, [spec])

    def _both(self, parts: list[Formula], state: State) -> Found:
        """One path shows one part in which a path is asked for; the leaves are so at the state."""
        plain = [it for it in parts if is_plain(it)]
        found = self.show(next(it for it in parts if shows_something(it)), state)
        for it in plain:
            found.specs = [f"({ctl(self.model, turned(it))} | {spec})" for spec in found.specs or ["0"]]
        return found

    def _side(self, left: Formula, right: Formula, state: State) -> Formula:
        """The one of two that holds at the state, rather one that asks for a path."""
        sides = sorted((left, right), key=lambda it: not shows_something(it))
        return sides[0] if self.asking.holds(state, sides[0]) else sides[1]

    # ---- to a state

    def _to(self, operator: str, left: Formula | None, inner: Formula, state: State) -> Found:
        """Over a way to a state where the inner formula holds, and then on as that asks."""
        inner = in_order(inner)
        if left is not None and is_plain(left) and is_plain(inner):
            return self._until(left, inner, state)
        text = ctl(self.model, inner)
        through = ctl(self.model, left) if left is not None else ""
        wraps = {"X": lambda it: f"EX ({text} & {it})", "F": lambda it: f"EF ({text} & {it})",
                 "U": lambda it: f"E [{through} U ({text} & {it})]"}
        target = self.picking.state(state, wraps[operator])
        way = self._way(operator, left, state, target)
        way = self._sooner(way, inner) if operator == "F" else way
        goal = pinned(self.model, way[-1])
        rest = self.show(inner, way[-1])
        word = "AX" if operator == "X" else "AG"
        specs = [f"{word} (!{goal} | {it})" for it in rest.specs or ["0"]]
        if left is not None:
            near = ctl(self.model, relaxed(left, self.model.main))
            specs.append(f"A [!{goal} U !({near} | {goal})]")
        return Found(rest.behind(way), specs)

    def _until(self, left: Formula, right: Formula, state: State) -> Found:
        through, target = ctl(self.model, left), ctl(self.model, right)
        found = self.picking.way_through(state, through, target)
        if found is None or found.loop is None:
            raise Unanswered("a path that has to be there wasn't found")
        return Found(found, [f"AG !{target}", f"A [!{target} U !({through} | {target})]"])

    def _way(self, operator: str, left: Formula | None, state: State, target: State) -> list[State]:
        """The states up to the target."""
        goal = pinned(self.model, target)
        if operator == "X":
            found = self.picking.next_way(state, goal)
            return self._up_to(found, target, 1)
        if left is None:
            return self._up_to(self.picking.way(state, goal), target)
        near, away = ctl(self.model, relaxed(left, self.model.main)), ""
        for _ in range(MOST_TRIES):
            way = self._up_to(self.picking.way_through(state, f"{near}{away}", goal), target)
            wrong = self._wrong(way[:-1], left)
            if not wrong:
                return way
            away += "".join(f" & !{pinned(self.model, it)}" for it in wrong)
        raise NoPath("no path was found that stays where it has to before it comes there")

    def _up_to(self, found: Trace | None, target: State, first: int = 0) -> list[State]:
        if found is None:
            raise Unanswered("a path that has to be there wasn't found")
        at = found.states.index(target, first)
        return found.states[:at + 1]

    def _sooner(self, way: list[State], inner: Formula) -> list[State]:
        """The way up to its first state where the inner formula holds."""
        at = self.asking.all_hold(way, inner).index(True)
        return way[:at + 1]

    def _wrong(self, states: list[State], formula: Formula) -> list[State]:
        """The states at which the formula doesn't hold."""
        if is_plain(formula) or not states:
            return []
        return [state for state, fine in zip(states, self.asking.all_hold(states, formula)) if not fine]

    # ---- for ever

    def _always(self, inner: Formula, state: State) -> Found:
        """A path whose states all have the inner formula, which has path operators: paths that stay where its leaves
        allow it are asked for until one does."""
        near, away = ctl(self.model, relaxed(inner, self.model.main)), ""
        for attempt in range(MOST_TRIES):
            more = [f"FAIRNESS {ctl(self.model, inner)}"] if attempt == 0 else []
            spec = f"AF !({near}{away})"
            found = self.asking.path(Copy(self.model, [spec], more, state))
            if found is None and attempt:
                raise Unanswered("a path that has to be there wasn't found")
            if found is None or found.loop is None:
                continue
            wrong = self._wrong(found.states, inner)
            if not wrong:
                return Found(found, [f"AF !({near})"])
            if attempt:
                away += "".join(f" & !{pinned(self.model, it)}" for it in wrong)
        raise NoPath("no path was found on which it is always so")
