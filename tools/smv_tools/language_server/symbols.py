"""The outline of a text for editors: modules, and in each its names and specifications."""
from __future__ import annotations

from collections.abc import Iterator

from ..modules import Module, Piece, Statement
from .documents import Document, utf8
from .outline import Outline, Role, Symbol
from .protocol import Json

# The kinds of the protocol.
SYMBOL_KINDS = {Role.MODULE: 2, Role.PARAMETER: 13, Role.VARIABLE: 8, Role.INSTANCE: 19, Role.PROCESS: 24,
                Role.DEFINITION: 14, Role.CONSTANT: 22}
SPECIFICATION_KIND = 17
WIDTH = 80


def of_piece(document: Document, name: str, kind: int, piece: Piece, first: int, behind: int) -> Json:
    return {"name": name, "kind": kind, "range": document.range(piece.first, piece.behind),
            "selectionRange": document.range(first, behind), "children": []}


def of_statement(document: Document, statement: Statement) -> Json:
    text = " ".join(utf8(document.source.text[statement.first:statement.behind]).split())
    name = text if len(text) <= WIDTH else text[:WIDTH] + " .."
    return of_piece(document, name, SPECIFICATION_KIND, statement, statement.first, statement.first + len(statement.word))


def in_module(document: Document, outline: Outline, module: Module) -> Iterator[tuple[int, Json]]:
    """What stands in the module, with its place."""
    for symbol in outline.names_of(module).values():
        if symbol.node is not None:
            kind = SYMBOL_KINDS[symbol.role]
            yield symbol.first, of_piece(document, symbol.name, kind, symbol.node, symbol.first, symbol.behind)
    for section in module.sections:
        for member in section.members:
            if isinstance(member, Statement) and member.word in ("SPEC", "FAIRNESS"):
                yield member.first, of_statement(document, member)


def symbols_of(document: Document) -> list[Json]:
    outline, found = document.outline, []
    for module in outline.modules:
        name = next((Symbol(Role.MODULE, module.name, module, it.at)
                     for it in outline.tokens_in(module.first, module.behind)[1:2] if module.name), None)
        first, behind = (name.first, name.behind) if name else (module.first, module.first + len("MODULE"))
        json = of_piece(document, module.name or "MODULE", SYMBOL_KINDS[Role.MODULE], module, first, behind)
        json["children"] = [it for _, it in sorted(in_module(document, outline, module), key=lambda pair: pair[0])]
        found.append(json)
    return found
