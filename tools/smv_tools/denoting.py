"""What a path denotes ("Names" in docs/LANGUAGE.md)."""
from __future__ import annotations

from .model import Array, Constant, Denoted, Flat, Instance, Model, Scope, Stands, Unreadable
from .modules import ArrayType, InstanceType, PlainType
from .syntax import Expr, Path, bare, written


class Unknown(Unreadable):
    """The path denotes nothing: the name at fault, what is allowed in its place."""

    def __init__(self, name: str, allowed: list[str], path: Path) -> None:
        super().__init__(f"line {path.line}: {name} denotes nothing")
        self.name, self.allowed, self.path = name, allowed, path


def names_of(scope: Scope) -> list[str]:
    """The names that are declared in the instance."""
    return [*scope.actuals, *scope.declarations, *scope.definitions]


def declared(name: str, kind: PlainType) -> Denoted:
    return Array(name, kind) if isinstance(kind, ArrayType) else Flat(name)


def _actual(model: Model, expr: Expr, caller: Scope) -> Denoted:
    """What a parameter with this actual denotes: what a path denotes, without its parentheses, or what it stands for."""
    inner = bare(expr)
    if isinstance(inner, Path):
        return denoted(model, inner, caller)
    return Stands(expr, caller)


def own(model: Model, name: str, scope: Scope) -> Denoted | None:
    """What the name denotes among those of the instance."""
    if name in scope.actuals and scope.caller:
        return _actual(model, scope.actuals[name], scope.caller)
    if name in scope.declarations:
        kind = scope.declarations[name].type
        return Instance(scope.instances[name]) if isinstance(kind, InstanceType) else declared(scope.flat(name), kind)
    if name in scope.definitions:
        return Stands(scope.definitions[name].right, scope)
    return None


def _element(model: Model, array: Denoted, index: Expr, scope: Scope, path: Path) -> Denoted:
    from .evaluation import constant
    if not isinstance(array, Array):
        raise Unknown(written(path), [], path)
    k = constant(model, index, scope)
    if not isinstance(k, int) or not array.type.low <= k <= array.type.high:
        raise Unreadable(f"line {path.line}: the index {written(index)} is no place of {array.name}")
    return declared(f"{array.name}[{k}]", array.type.element)


def denoted(model: Model, path: Path, scope: Scope) -> Denoted:
    """What the path denotes in the scope; Unknown where it is nothing, Unreadable where an index is none."""
    found = own(model, path.name, scope)
    if found is None and not path.parts and path.name in model.symbols:
        return Constant(path.name)
    if found is None:
        raise Unknown(path.name, names_of(scope), path)
    for part in path.parts:
        if not isinstance(part, str):
            found = _element(model, found, part, scope, path)
            continue
        inner = own(model, part, found.scope) if isinstance(found, Instance) else None
        if inner is None:
            raise Unknown(part, names_of(found.scope) if isinstance(found, Instance) else [], path)
        found = inner
    return found
