"""What the names of a text are and where they are declared, as far as it can be read."""
from __future__ import annotations

import bisect
from collections.abc import Iterator
from dataclasses import dataclass
from enum import Enum
from functools import cached_property

from ..modules import ArrayType, Declaration, Definition, InstanceType, ListType, Module, PlainType
from ..source import Source
from ..syntax import Expr, Path, bare
from ..tokens import Kind, Token
from .tolerant import TolerantReader, tokens_there

MOST_INSTANCES = 1024


class Role(Enum):
    """What a name is."""

    MODULE = "module"
    PARAMETER = "parameter"
    VARIABLE = "variable"
    INSTANCE = "instance"
    PROCESS = "process"
    DEFINITION = "definition"
    CONSTANT = "constant"


@dataclass(frozen=True)
class Symbol:
    """A name where it is declared: the module that it is of, its bytes, what declares it."""

    role: Role
    name: str
    module: Module
    first: int
    node: Declaration | Definition | None = None

    @property
    def behind(self) -> int:
        return self.first + len(self.name)


def role_of(declaration: Declaration) -> Role:
    if not isinstance(declaration.type, InstanceType):
        return Role.VARIABLE
    return Role.PROCESS if declaration.type.process else Role.INSTANCE


def enumerated(kind: PlainType) -> tuple[str, ...]:
    """The symbolic constants of a type."""
    while isinstance(kind, ArrayType):
        kind = kind.element
    return tuple(it for it in kind.values if isinstance(it, str)) if isinstance(kind, ListType) else ()


class Outline:
    """The modules of a text, and their names."""

    def __init__(self, source: Source) -> None:
        self.source = source
        self.tokens: list[Token] = list(tokens_there(source))
        self.places = [token.at for token in self.tokens]
        self.modules = TolerantReader(self.tokens).program()
        self.by_name: dict[str, Module] = {}
        for module in self.modules:
            self.by_name.setdefault(module.name, module)
        self._names: dict[int, dict[str, Symbol]] = {}
        self._inner: dict[int, list[Module]] = {}

    # ---- tokens

    def token_at(self, offset: int) -> int | None:
        """The number of the token that holds the byte, or that ends before it."""
        place = bisect.bisect_right(self.places, offset) - 1
        if place >= 0 and offset < self.tokens[place].behind:
            return place
        return place if place >= 0 and offset == self.tokens[place].behind else None

    def tokens_in(self, first: int, behind: int) -> list[Token]:
        return self.tokens[bisect.bisect_left(self.places, first):bisect.bisect_left(self.places, behind)]

    def module_at(self, offset: int) -> Module | None:
        """The module that the byte is in or behind."""
        return next((it for it in reversed(self.modules) if it.first <= offset), None)

    def chain_to(self, place: int) -> list[str]:
        """The names of a path up to this token; what is between brackets is left out."""
        names = [self.tokens[place].text]
        while place >= 2 and self.tokens[place - 1].text == ".":
            place = self._before_brackets(place - 2)
            if place < 0 or self.tokens[place].kind is not Kind.NAME:
                break
            names.insert(0, self.tokens[place].text)
        return names

    def _before_brackets(self, place: int) -> int:
        depth = 0
        while place >= 0:
            depth += (self.tokens[place].text == "]") - (self.tokens[place].text == "[")
            if depth <= 0 and self.tokens[place].text != "[":
                return place
            place -= 1
        return place

    # ---- declared names

    def names_of(self, module: Module) -> dict[str, Symbol]:
        """The names of a module, the first where one is declared twice."""
        if module.first not in self._names:
            found: dict[str, Symbol] = {}
            for symbol in self._declared(module):
                found.setdefault(symbol.name, symbol)
            self._names[module.first] = found
        return self._names[module.first]

    def _declared(self, module: Module) -> Iterator[Symbol]:
        for token in self.tokens_in(module.first, module.head_behind)[2:]:
            if token.kind is Kind.NAME and token.text in module.formals:
                yield Symbol(Role.PARAMETER, token.text, module, token.at)
        for it in module.declarations:
            yield Symbol(role_of(it), it.name, module, it.first, it)
        for definition in module.definitions:
            yield Symbol(Role.DEFINITION, definition.name, module, definition.first, definition)

    def module_symbol(self, name: str) -> Symbol | None:
        module = self.by_name.get(name)
        if module is None or not name:
            return None
        return Symbol(Role.MODULE, name, module, self.tokens_in(module.first, module.behind)[1].at)

    @cached_property
    def constants(self) -> dict[str, list[Symbol]]:
        """The values of enumerations, each where it is written first in a declaration."""
        found: dict[str, list[Symbol]] = {}
        for module in self.modules:
            for it in module.declarations:
                values = () if isinstance(it.type, InstanceType) else enumerated(it.type)
                if values:
                    written = {token.text: token.at for token in reversed(self.tokens_in(it.first, it.behind)[1:])}
                    for value in dict.fromkeys(values):
                        found.setdefault(value, []).append(Symbol(Role.CONSTANT, value, module, written[value], it))
        return found

    @cached_property
    def uses(self) -> dict[str, list[tuple[Module, Declaration]]]:
        """Of each module the declarations of its instances, each with the module that it stands in."""
        found: dict[str, list[tuple[Module, Declaration]]] = {}
        for module in self.modules:
            for it in module.declarations:
                if isinstance(it.type, InstanceType):
                    found.setdefault(it.type.module, []).append((module, it))
        return found

    @cached_property
    def instances(self) -> dict[str, list[str]]:
        """Of each module the flat names of its instances, in order; that of `main` is empty."""
        found: dict[str, list[str]] = {}
        left: list[tuple[str, str, tuple[str, ...]]] = [("main", "", ())]
        count = 0
        while left and count < MOST_INSTANCES:
            name, flat, above = left.pop(0)
            module = self.by_name.get(name)
            if module is None or name in above:
                continue
            count += 1
            found.setdefault(name, []).append(flat)
            for it in module.declarations:
                if isinstance(it.type, InstanceType):
                    left.append((it.type.module, f"{flat}.{it.name}" if flat else it.name, (*above, name)))
        return found

    def flat_names(self, module: Module, name: str) -> list[str]:
        return [f"{flat}.{name}" if flat else name for flat in self.instances.get(module.name, [])]

    # ---- what a path denotes

    def denoted(self, names: list[str], module: Module) -> list[Symbol]:
        """The symbols that a path of these names may be; several where parameters stand for several."""
        own = self.names_of(module).get(names[0])
        if own is None:
            return self.constants.get(names[0], []) if len(names) == 1 else []
        found = [own]
        for name in names[1:]:
            inner = [self.names_of(it).get(name) for symbol in found for it in self.modules_of(symbol)]
            found = list({it.first: it for it in inner if it is not None}.values())
        return found

    def actuals_of(self, symbol: Symbol) -> list[tuple[Module, Declaration, Expr]]:
        """What a parameter stands for: of each instance of its module, with the module that the instance is declared in."""
        place = symbol.module.formals.index(symbol.name)
        return [(caller, it, it.type.actuals[place]) for caller, it in self.uses.get(symbol.module.name, [])
                if isinstance(it.type, InstanceType) and place < len(it.type.actuals)]

    def modules_of(self, symbol: Symbol) -> list[Module]:
        """The modules whose instances the symbol may be."""
        if isinstance(symbol.node, Declaration) and isinstance(symbol.node.type, InstanceType):
            module = self.by_name.get(symbol.node.type.module)
            return [module] if module else []
        if symbol.role is not Role.PARAMETER:
            return []
        if symbol.first not in self._inner:
            # What comes back to itself adds nothing.
            self._inner[symbol.first] = []
            self._inner[symbol.first] = self._modules_handed(symbol)
        return self._inner[symbol.first]

    def _modules_handed(self, symbol: Symbol) -> list[Module]:
        found: dict[int, Module] = {}
        for caller, _, expr in self.actuals_of(symbol):
            actual = bare(expr)
            names = [actual.name, *(it for it in actual.parts if isinstance(it, str))] if isinstance(actual, Path) else []
            for inner in self.denoted(names, caller) if names else []:
                found.update({one.first: one for one in self.modules_of(inner)})
        return list(found.values())

    def symbols_at(self, place: int) -> list[Symbol]:
        """What the name at this token is."""
        token = self.tokens[place]
        module = self.module_at(token.at)
        if token.kind is not Kind.NAME or module is None:
            return []
        before = self.tokens[place - 1].text if place else ""
        if before == "MODULE":
            return [Symbol(Role.MODULE, token.text, module, token.at)]
        holder = next((it for it in module.declarations if it.first < token.at < it.behind), None)
        if holder and isinstance(holder.type, InstanceType) and before in (":", "process"):
            symbol = self.module_symbol(token.text)
            return [symbol] if symbol else []
        if holder and not isinstance(holder.type, InstanceType):
            return [it for it in self.constants.get(token.text, []) if it.node is holder]
        return self.denoted(self.chain_to(place), module)
