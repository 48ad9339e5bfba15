"""Names that the checker doesn't take: reserved words, and other letters than its own. And `self`."""
import re

from .changes import KEPT, Changes
from .scope import Scope, actuals_of, formals_of
from .sections import fresh
from .tokens import ATOM, RESERVED, Token
from .tree import Node, copied, name_of, plain

ATOM_WHOLE = re.compile(ATOM)


def rename(program: Node, scope: Scope, changes: Changes) -> None:
    """Gives names that aren't atoms, or are reserved, another name wherever they stand."""
    taken, named = scope.names() | RESERVED, {}
    for token in declared(scope):
        if token.text not in named and (token.text in RESERVED or not ATOM_WHOLE.fullmatch(token.text)):
            named[token.text] = fresh(wanted(token.text), taken)
            taken.add(named[token.text])
            changes.tell(token.line, f"the name `{token.text}` is `{named[token.text]}`")
    for node in program.walk():
        if node.kind in ("path", "module", "declaration", "definition", "constant", "type", "section"):
            for token in node.parts:
                if isinstance(token, Token) and token.kind == "name" and token.text in named and is_use(node, token):
                    token.text = named[token.text]


def is_use(node: Node, token: Token) -> bool:
    """Whether the word isn't the section's own or the type's own."""
    return not (node.kind in ("module", "section") and token is node.parts[0])


def wanted(name: str) -> str:
    plain_name = re.sub(r"[^A-Za-z0-9_-]", "_", name).strip("_-") or "v"
    if not plain_name[0].isalpha():
        plain_name = f"v{plain_name}"
    return f"{plain_name}_" if plain_name in RESERVED or name.startswith("_") else plain_name


def declared(scope: Scope) -> list[Token]:
    """The tokens by which the text declares names."""
    found = []
    for module in scope.modules.values():
        for node in module.node.walk():
            if node.kind == "module":
                found += [part for part in node.parts[1:] if isinstance(part, Token) and part.kind == "name"]
            elif node.kind in ("declaration", "definition") or node.kind == "constant" and node.parts[0].text not in ("TRUE", "FALSE"):
                found += [node.parts[0]] if node.parts[0].kind == "name" else []
    return found


# ---- self

def replace_self(program: Node, scope: Scope, changes: Changes) -> None:
    """`self.x` is `x`. A parameter for which `self` is handed over is a parameter for each name behind its dot."""
    for node in program.walk():
        if node.kind == "path" and node.parts[0].text == "self" and len(node.parts) > 2 and node.parts[1].text == ".":
            changes.tell(node.line, f"`{plain(node)}` is `{plain(node)[5:]}`")
            before = node.parts[0].before
            node.parts = node.parts[2:]
            node.parts[0].before = before
    for _ in range(len(scope.modules)):
        for module in list(scope.modules.values()):
            for formal in list(module.formals):
                if any(is_self(actual) for _, actual in scope.handed.get((module.name, formal), [])):
                    replace_formal(scope, changes, module, formal)
                    scope.handed = scope.hand_over()


def is_self(node: Node) -> bool:
    return name_of(node) == "self"


def replace_formal(scope: Scope, changes: Changes, module, formal: str) -> None:
    uses = [node for node in module.node.walk() if node.kind == "path" and node.parts[0].text == formal]
    parts = list(dict.fromkeys(use.parts[2].text for use in uses if len(use.parts) > 2 and use.parts[1].text == "."))
    if any(len(use.parts) < 3 or use.parts[1].text != "." for use in uses):
        changes.tell(module.node.line, f"`self` for `{formal}` of `{module.name}`, which hands it on", KEPT)
        return
    taken = scope.names()
    names = {part: fresh(f"{formal}_{part}", taken) for part in parts}
    for use in uses:
        first = use.parts[0]
        use.parts = [Token("name", names[use.parts[2].text], first.line, first.before), *use.parts[3:]]
    place = module.formals.index(formal)
    changes.tell(
        module.node.line,
        f"the parameter `{formal}` of `{module.name}`, for which `self` is handed over, is {listed(names.values())}",
    )
    module.node.parts = with_formals(module.node, place, list(names.values()))
    module.formals = formals_of(module.node)
    for caller in scope.modules.values():
        for _, kind, name in caller.instances():
            if name == module.name:
                kind.parts = with_actuals(kind, place, parts)


def listed(names) -> str:
    return ", ".join(f"`{name}`" for name in names) or "left out"


def with_formals(node: Node, place: int, names: list[str]) -> list:
    """The module's parts with these parameters in the place of one."""
    end = next(k for k, part in enumerate(node.parts) if isinstance(part, Token) and part.text == ")")
    formals = [[part] for part in node.parts[3:end] if part.text != ","]
    line = node.line
    formals[place:place + 1] = [[Token("name", name, line, " ")] for name in names]
    return [*node.parts[:2], *separated(formals, line), *node.parts[end + 1:]]


def with_actuals(kind: Node, place: int, names: list[str]) -> list:
    actuals = [[node] for node in actuals_of(kind)]
    old = actuals[place][0]
    made = []
    for name in names:
        named = Token("name", name, old.line, " ")
        if is_self(old):
            made.append([Node("path", [named])])
        else:
            named.before = ""
            base = copied(old)
            base.first().before = " "
            made.append([Node("path", [*base.parts, Token("sign", ".", old.line), named])])
    actuals[place:place + 1] = made
    opening = next(k for k, part in enumerate(kind.parts) if isinstance(part, Token) and part.text == "(")
    return [*kind.parts[:opening], *separated(actuals, kind.line)]


def separated(items: list[list], line: int) -> list:
    """The items in parentheses, with commas; nothing where there is none."""
    if not items:
        return []
    parts: list = [Token("sign", "(", line)]
    for place, item in enumerate(items):
        first = item[0].first() if isinstance(item[0], Node) else item[0]
        first.before = " " if place else ""
        parts += ([Token("sign", ",", line)] if place else []) + item
    return [*parts, Token("sign", ")", line)]


