"""What a path shows of a formula, state by state: read off its states, and asked of the program where no path can show it."""
from __future__ import annotations

from collections.abc import Iterator
from dataclasses import dataclass

from ..evaluation import Evaluation
from ..report import Trace
from ..syntax import Number
from .asking import Asking
from .formulas import Both, Either, Formula, Leaf, Pair, Step, as_until, conjuncts, is_plain
from .writing import shown

ON_PATH, ON_ALL, ON_OTHER = "", "on every path from there", "on another path from there"


@dataclass(frozen=True)
class Fact:
    """From the first state to the last (for ever where it is None) the formula holds. `how` says what shows it where this
    path doesn't."""

    first: int
    last: int | None
    formula: Formula
    how: str = ON_PATH

    @property
    def place(self) -> str:
        if self.last is None:
            return f"from state {self.first} on, for ever"
        return f"state {self.first}" if self.first == self.last else f"states {self.first} to {self.last}"

    def __str__(self) -> str:
        return f"{self.place}: {shown(self.formula)}{f' ({self.how})' if self.how else ''}"


Facts = list[Fact]


class Lasso:
    """A path with a loop, at whose states formulas are read. The program is asked only where `asking` is given."""

    def __init__(self, trace: Trace, asking: Asking) -> None:
        assert trace.loop is not None
        self.states, self.loop, self.asking = trace.states, trace.loop, asking
        self.ask = False

    def following(self, k: int) -> Iterator[int]:
        """The places from k on, each once."""
        yield from range(k, len(self.states))
        yield from range(self.loop, k)

    def next(self, k: int) -> int:
        return k + 1 if k + 1 < len(self.states) else self.loop

    def facts(self, formula: Formula) -> Facts:
        """What the path shows of the formula from state 0 on; nothing where it doesn't show it."""
        for self.ask in (False, True):
            found = self._facts(formula, 0)
            if found is not None:
                return sorted(dict.fromkeys(found), key=lambda it: it.first)
        return []

    def truth(self, leaf: Leaf, k: int) -> bool:
        value = Evaluation(self.asking.model, self.states[k]).truth(leaf.expr, leaf.scope)
        return bool(value) == leaf.holds

    def _told(self, formula: Formula, k: int) -> Facts | None:
        """What the program says of the formula at a state."""
        if not self.ask:
            return None
        places = list(self.following(k))
        known = dict(zip(places, self.asking.all_hold([self.states[j] for j in places], formula)))
        how = ON_OTHER if isinstance(formula, (Step, Pair)) and formula.quantifier == "E" else ON_ALL
        return [Fact(k, k, formula, how)] if known[k] else None

    def _facts(self, formula: Formula, k: int) -> Facts | None:
        match formula:
            case Leaf():
                if not self.truth(formula, k):
                    return None
                return [] if isinstance(formula.expr, Number) else [Fact(k, k, formula)]
            case Both():
                return self._all([self._facts(it, k) for it in conjuncts(formula)])
            case Either(left=left, right=right):
                found = self._facts(left, k)
                return self._facts(right, k) if found is None else found
            case Step(quantifier="A") | Pair(quantifier="A"):
                return self._told(formula, k)
            case Step() | Pair():
                found = self._on_path(formula, k)
                return self._told(formula, k) if found is None and k > 0 else found
        raise AssertionError(formula)

    @staticmethod
    def _all(parts: list[Facts | None]) -> Facts | None:
        found: Facts = []
        for it in parts:
            if it is None:
                return None
            found += it
        return found

    def _on_path(self, formula: Step | Pair, k: int) -> Facts | None:
        match formula:
            case Step(operator="X", inner=inner):
                return self._facts(inner, self.next(k))
            case Step(operator="F", inner=inner):
                tried = (self._facts(inner, j) for j in self.following(k))
                return next((it for it in tried if it is not None), None)
            case Step(inner=inner):
                always = all(self._facts(inner, j) is not None for j in self.following(k))
                how = ON_PATH if is_plain(inner) else "at each of these states, as the program says"
                return [Fact(min(k, self.loop), None, inner, how)] if always else None
            case Pair(operator="U", left=left, right=right):
                return self._until(left, right, k)
        return self._facts(as_until(formula), k)

    def _until(self, left: Formula, right: Formula, k: int) -> Facts | None:
        behind = k
        for j in self.following(k):
            found = self._facts(right, j)
            if found is not None:
                before = [] if j == k or isinstance(left, Leaf) and isinstance(left.expr, Number) else [Fact(k, behind, left)]
                return [*before, *found]
            if self._facts(left, j) is None:
                return None
            behind = j
        return None
