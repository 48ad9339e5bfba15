"""A path as a value change dump, which GTKWave and the like read: one unit of time for each state.

Types are the model's: a Boolean is a wire, a range a vector (an integer where it has negative values), an enumeration a
string. Each instance is a scope."""
from __future__ import annotations

from collections.abc import Iterator, Sequence
from dataclasses import dataclass, field
from typing import TextIO

from ..model import Model, Variable
from ..report import Trace
from ..syntax import Value

BIT, VECTOR, INTEGER, STRING = "bit", "vector", "integer", "string"


@dataclass
class Signal:
    """What is drawn: its own name, its kind and width in bits, its sign in the file, a value for each state."""

    name: str
    kind: str
    width: int
    sign: str
    values: list[Value]

    @property
    def declared(self) -> str:
        form = {BIT: "wire 1", VECTOR: f"reg {self.width}", INTEGER: "integer 32", STRING: "string 1"}[self.kind]
        bounds = f" [{self.width - 1}:0]" if self.kind == VECTOR else ""
        return f"$var {form} {self.sign} {self.name}{bounds} $end"

    def written(self, k: int) -> str:
        value = self.values[k]
        if self.kind == BIT:
            return f"{value}{self.sign}"
        if self.kind == STRING:
            return f"s{value} {self.sign}"
        return f"b{int(value) & 0xFFFFFFFF:b} {self.sign}"


@dataclass
class Level:
    """A scope of the file: an instance."""

    signals: list[Signal] = field(default_factory=list)
    inner: dict[str, Level] = field(default_factory=dict)

    def at(self, names: Sequence[str]) -> Level:
        return self.inner.setdefault(names[0], Level()).at(names[1:]) if names else self

    def lines(self, name: str) -> Iterator[str]:
        yield f"$scope module {name} $end"
        yield from (it.declared for it in self.signals)
        for inner, level in self.inner.items():
            yield from level.lines(inner)
        yield "$upscope $end"

    def all(self) -> Iterator[Signal]:
        yield from self.signals
        for level in self.inner.values():
            yield from level.all()


def sign_of(k: int) -> str:
    """The k-th identifier: printable signs."""
    sign = chr(33 + k % 94)
    return sign if k < 94 else sign_of(k // 94 - 1) + sign


def kind_of(variable: Variable) -> tuple[str, int]:
    """The kind of a variable by its type, and its width."""
    if variable.kind == "boolean":
        return BIT, 1
    numbers = [it for it in variable.values if isinstance(it, int)]
    if len(numbers) < len(variable.values):
        return STRING, 1
    return (INTEGER, 32) if min(numbers) < 0 else (VECTOR, max(max(numbers).bit_length(), 1))


def split(name: str) -> tuple[list[str], str]:
    *scopes, own = name.split(".")
    return scopes, own


def levels_of(model: Model, trace: Trace, marks: Sequence[int]) -> Level:
    """The signals in the scopes of their instances; `loop` and `shows` mark states where no variable has these names."""
    top, count = Level(), len(trace.states)
    inside = [int(trace.loop is not None and k >= trace.loop) for k in range(count)]
    extra = {"loop": inside, "shows": [int(k in marks) for k in range(count)]}
    for name, bits in extra.items():
        if name not in model.variable and name not in model.main.instances:
            top.signals.append(Signal(name, BIT, 1, sign_of(len(top.signals)), list(bits)))
    for k, variable in enumerate(model.variables):
        scopes, own = split(variable.name)
        kind, width = kind_of(variable)
        values = [state[variable.name] for state in trace.states]
        top.at(scopes).signals.append(Signal(own, kind, width, sign_of(k + len(extra)), values))
    return top


def write(model: Model, trace: Trace, marks: Sequence[int], file: TextIO) -> None:
    top = levels_of(model, trace, marks)
    signals = list(top.all())
    lines = ["$timescale 1 ns $end", *top.lines("main"), "$enddefinitions $end"]
    for k in range(len(trace.states)):
        lines.append(f"#{k}")
        lines += [it.written(k) for it in signals if k == 0 or it.values[k] != it.values[k - 1]]
    # The last time is where the last state ends.
    lines.append(f"#{len(trace.states)}")
    file.write("\n".join(lines) + "\n")
