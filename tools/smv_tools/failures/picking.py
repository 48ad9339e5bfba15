"""States that are chosen among those that a path can come to, and the ways to them."""
from __future__ import annotations

from collections.abc import Callable, Sequence
from dataclasses import dataclass

from ..model import Variable
from ..report import State, Trace
from ..syntax import Value
from .asking import Asking, Unanswered
from .copies import Copy
from .writing import fresh, runs_name

# Bits that are chosen in one run, and that a state may have.
BITS_AT_ONCE = 12
MOST_BITS = 128
Wrap = Callable[[str], str]


def bits_of(variable: Variable) -> int:
    return (len(variable.values) - 1).bit_length()


@dataclass(frozen=True)
class Goal:
    """A variable that is chosen: a copy's variable that never changes has the value that it is to have."""

    variable: Variable
    name: str
    runs: str

    @property
    def declared(self) -> str:
        kind = self.variable.kind if self.variable.declaration else f"0..{len(self.variable.values) - 1}"
        return f"VAR {self.name} : {kind}; TRANS next({self.name}) = {self.name}"

    @property
    def met(self) -> str:
        """Where the variable has the value that is chosen."""
        if self.variable.declaration:
            return f"{self.variable.name} = {self.name}"
        return f"({' | '.join(f'{self.name} = {k} & {self.is_value(it)}' for k, it in enumerate(self.variable.values))})"

    def is_value(self, value: Value) -> str:
        """Where the variable has this value."""
        if self.variable.declaration:
            return f"{self.variable.name} = {f'(0 - {-value})' if isinstance(value, int) and value < 0 else value}"
        return "running" if value == "main" else f"{value}.{self.runs}"

    def value_of(self, chosen: State) -> Value:
        value = chosen[self.name]
        return value if self.variable.declaration else self.variable.values[int(value)]


class Picking:
    """Chooses states and finds ways over a model's copies."""

    def __init__(self, asking: Asking) -> None:
        self.asking, self.model = asking, asking.model
        self.bits = sum(map(bits_of, self.model.variables))

    def state(self, start: State, wrap: Wrap) -> State:
        """A state t such that `wrap(t)` holds at the start. There has to be one."""
        found: State = {it.name: it.values[0] for it in self.model.variables}
        fixed: list[str] = []
        rest = [Goal(it, fresh(self.model, f"smv_goal{k}"), runs_name(self.model))
                for k, it in enumerate(self.model.variables) if len(it.values) > 1]
        while rest:
            chunk = self._chunk(rest)
            values = self._together(start, wrap, fixed, chunk) if chunk else self._each(start, wrap, fixed, rest[0])
            for goal, value in zip(rest, values):
                found[goal.variable.name] = value
                fixed.append(goal.is_value(value))
            rest = rest[len(values):]
        return found

    def _chunk(self, rest: Sequence[Goal]) -> list[Goal]:
        """The first ones for which a state has room in one run."""
        chunk: list[Goal] = []
        room = min(BITS_AT_ONCE, MOST_BITS - self.bits)
        for goal in rest:
            room -= bits_of(goal.variable)
            if room < 0 and (chunk or self.bits + bits_of(goal.variable) > MOST_BITS):
                break
            chunk.append(goal)
        return chunk

    def _together(self, start: State, wrap: Wrap, fixed: list[str], chunk: list[Goal]) -> list[Value]:
        target = " & ".join([*fixed, *(it.met for it in chunk)])
        copy = Copy(self.model, [f"!{wrap(target)}"], [it.declared for it in chunk], start)
        found = self.asking.report(copy).parts[0].trace
        if found is None:
            raise Unanswered("no state was found that a path comes to")
        return [it.value_of(found.states[0]) for it in chunk]

    def _each(self, start: State, wrap: Wrap, fixed: list[str], goal: Goal) -> list[Value]:
        """The value of one variable, by a specification for each but the last."""
        values = goal.variable.values
        for at in range(0, len(values), 256):
            some = values[at:at + 256]
            specs = [f"!{wrap(' & '.join([*fixed, goal.is_value(it)]))}" for it in some]
            parts = self.asking.report(Copy(self.model, specs, start=start)).parts
            for value, part in zip(some, parts):
                if part.verdict == "false":
                    return [value]
        raise Unanswered("no state was found that a path comes to")

    def way(self, start: State, target: str) -> Trace | None:
        """A path from the start through a state where the target holds; None where there is none."""
        return self.asking.path(Copy(self.model, [f"AG !({target})"], start=start))

    def next_way(self, start: State, target: str) -> Trace | None:
        return self.asking.path(Copy(self.model, [f"AX !({target})"], start=start))

    def way_through(self, start: State | None, through: str, target: str) -> Trace | None:
        """A path from the start (an initial state where none is given) to the target through states where `through` holds."""
        seen = fresh(self.model, "smv_seen")
        more = [f"VAR {seen} : boolean; INIT {seen} = ({target}) TRANS next({seen}) = ({seen} | next(({target})))",
                f"INVAR {seen} | ({target}) | ({through})"]
        return self.asking.path(Copy(self.model, [f"AG !{seen}"], more, start))
