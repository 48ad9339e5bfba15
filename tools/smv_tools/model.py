"""The model of a program: instances, flat variables, processes, and where each item stands and of which instance.

What the program refuses isn't refused here, where it can be read all the same. Unreadable says why a text can't be."""
from __future__ import annotations

from collections.abc import Iterator
from dataclasses import dataclass, field
from functools import cached_property
from typing import Union

from .modules import (ArrayType, Assignment, BooleanType, Declaration, Definition, InstanceType, ListType, Module, PlainType,
                      RangeType)
from .reading import SyntaxFault, program_of
from .source import Source
from .syntax import Expr, Path, Value
from .tokens import LexFault

MOST_INSTANCES = 1023
MOST_VALUES = 1024
SELECTOR = "running"


class Unreadable(Exception):
    """The text is no model that is read here."""


@dataclass(frozen=True)
class Variable:
    """A flat variable, with its values in order; the selector has no declaration."""

    name: str
    values: tuple[Value, ...]
    kind: str
    declaration: Declaration | None
    scope: Scope

    @property
    def line(self) -> int:
        return self.declaration.line if self.declaration else 0


@dataclass(eq=False)
class Scope:
    """An instance: its flat name (nothing for main), its module, who declares it, what its parameters stand for, the process
    that makes its steps."""

    name: str
    module: Module
    caller: Scope | None
    actuals: dict[str, Expr]
    process: str
    instances: dict[str, Scope] = field(default_factory=dict)
    definitions: dict[str, Definition] = field(default_factory=dict)
    declarations: dict[str, Declaration] = field(default_factory=dict)

    def flat(self, name: str) -> str:
        """The flat name of a name of this instance."""
        return f"{self.name}.{name}" if self.name else name

    def __repr__(self) -> str:
        return f"Scope({self.name or 'main'})"


# ---- what a path denotes

@dataclass(frozen=True)
class Flat:
    """A flat variable."""

    name: str


@dataclass(frozen=True)
class Array:
    """An array or a part of one: the flat name so far, and its type."""

    name: str
    type: ArrayType


@dataclass(frozen=True)
class Instance:
    scope: Scope


@dataclass(frozen=True)
class Stands:
    """A defined symbol or a parameter that stands for another expression, read in that scope."""

    expr: Expr
    scope: Scope


@dataclass(frozen=True)
class Constant:
    symbol: str


Denoted = Union[Flat, Array, Instance, Stands, Constant]


@dataclass(frozen=True)
class Item:
    """An assignment (its target is a flat name), a constraint, a specification or the like, of an instance."""

    expr: Expr
    scope: Scope
    line: int
    first: int
    behind: int
    part: str = ""
    target: str = ""

    @property
    def instance(self) -> str:
        return self.scope.name or "main"


def type_values(kind: PlainType) -> tuple[Value, ...]:
    match kind:
        case BooleanType():
            return (0, 1)
        case ListType(values=values):
            return tuple(dict.fromkeys(values))
        case RangeType(low=low, high=high):
            if high - low >= MOST_VALUES:
                raise Unreadable("a variable has too many values")
            return tuple(range(low, high + 1))
    raise Unreadable("an array has no values of its own")


def type_text(kind: PlainType) -> str:
    """The type as it is written."""
    match kind:
        case BooleanType():
            return "boolean"
        case ListType(values=values):
            return "{" + ", ".join(map(str, values)) + "}"
        case RangeType(low=low, high=high):
            return f"{low}..{high}"
        case ArrayType(low=low, high=high, element=element):
            return f"array {low}..{high} of {type_text(element)}"


def elements(name: str, kind: PlainType) -> Iterator[tuple[str, PlainType]]:
    """The flat variables of a declaration, by name and type."""
    if not isinstance(kind, ArrayType):
        yield name, kind
        return
    for k in range(kind.low, kind.high + 1):
        yield from elements(f"{name}[{k}]", kind.element)


class Model:
    """The flat model of a text, in the orders of docs/LANGUAGE.md ("What is refused, and where")."""

    def __init__(self, modules: list[Module], source: Source) -> None:
        self.source = source
        self.modules: dict[str, Module] = {}
        for module in modules:
            self.modules.setdefault(module.name, module)
        if "main" not in self.modules or self.modules["main"].formals:
            raise Unreadable("there is no module main without parameters")
        # In instantiation order.
        self.scopes: list[Scope] = []
        self.main = self._instance("", self.modules["main"], None, (), "main", ())

    @classmethod
    def of(cls, source: Source) -> Model:
        """The model of the text; Unreadable where it isn't one."""
        try:
            return cls(program_of(source), source)
        except LexFault as fault:
            raise Unreadable(f"line {fault.line}: no token begins here") from None
        except SyntaxFault as fault:
            line = fault.token.line if fault.token else len(source.lines) + 1
            raise Unreadable(f"line {line}: {fault}") from None

    def _instance(self, name: str, module: Module, caller: Scope | None, actuals: tuple[Expr, ...], process: str,
                  above: tuple[str, ...]) -> Scope:
        if module.name in above or len(self.scopes) > MOST_INSTANCES:
            raise Unreadable("a module contains itself, or there are too many instances")
        scope = Scope(name, module, caller, dict(zip(module.formals, actuals)), process)
        scope.definitions = {it.name: it for it in module.definitions}
        scope.declarations = {it.name: it for it in module.declarations}
        self.scopes.append(scope)
        for it in module.declarations:
            if isinstance(it.type, InstanceType):
                if it.type.module not in self.modules:
                    raise Unreadable(f"line {it.line}: there is no module {it.type.module}")
                inner = scope.flat(it.name)
                scope.instances[it.name] = self._instance(
                    inner, self.modules[it.type.module], scope, it.type.actuals, inner if it.type.process else process,
                    (*above, module.name)
                )
        return scope

    # ---- variables

    @cached_property
    def processes(self) -> list[str]:
        """`main` and the process instances, in order. One alone is no process instance."""
        return ["main", *(scope.name for scope in self.scopes if scope.process == scope.name)]

    @property
    def has_selector(self) -> bool:
        return len(self.processes) > 1

    @cached_property
    def variables(self) -> list[Variable]:
        """The flat variables in declared order, the selector first."""
        found = list(self._variables_of(self.main))
        if self.has_selector:
            found.insert(0, Variable(SELECTOR, tuple(self.processes), "process", None, self.main))
        return found

    def _variables_of(self, scope: Scope) -> Iterator[Variable]:
        for it in scope.module.declarations:
            if isinstance(it.type, InstanceType):
                yield from self._variables_of(scope.instances[it.name])
            else:
                for name, kind in elements(scope.flat(it.name), it.type):
                    yield Variable(name, type_values(kind), type_text(kind), it, scope)

    @cached_property
    def variable(self) -> dict[str, Variable]:
        """The flat variables by name."""
        return {it.name: it for it in self.variables}

    @cached_property
    def symbols(self) -> set[str]:
        """The symbolic constants: of the enumerations in all instances."""
        return {value for it in self.variables if it.declaration for value in it.values if isinstance(value, str)}

    # ---- items

    @cached_property
    def assignments(self) -> list[Item]:
        return [self._assigned(it, scope) for scope in self.scopes for it in scope.module.assignments]

    def _assigned(self, it: Assignment, scope: Scope) -> Item:
        found = self.denoted(it.left, scope)
        target = found.name if isinstance(found, Flat) else ""
        return Item(it.right, scope, it.line, it.first, it.behind, it.part, target)

    def statements(self, word: str) -> list[Item]:
        """The sections of this word in instantiation order: INIT, INVAR, TRANS, FAIRNESS or SPEC."""
        return [Item(it.expr, scope, it.line, it.first, it.behind)
                for scope in self.scopes for it in scope.module.statements(word)]

    @cached_property
    def specs(self) -> list[Item]:
        """The specifications: the first one is number 1."""
        return self.statements("SPEC")

    @cached_property
    def constraints(self) -> list[Item]:
        return self.statements("FAIRNESS")

    @cached_property
    def definitions(self) -> list[tuple[str, Definition, Scope]]:
        """The DEFINEs of all instances, by their flat names."""
        return [(scope.flat(it.name), it, scope) for scope in self.scopes for it in scope.module.definitions]

    # ---- paths

    def denoted(self, path: Path, scope: Scope) -> Denoted:
        """What the path denotes in the scope; Unreadable where it is nothing."""
        from .denoting import denoted
        return denoted(self, path, scope)
