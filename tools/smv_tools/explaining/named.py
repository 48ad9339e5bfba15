"""Names and declarations that are refused (E6 to E15)."""
from __future__ import annotations

import difflib
from collections.abc import Iterable, Iterator

from ..denoting import Unknown, names_of
from ..evaluation import constant as constant_of
from ..model import Array, Flat, Instance, Model, Scope, Stands, Unreadable
from ..modules import ArrayType, Declaration, Definition, InstanceType, ListType, Module, RangeType
from ..reading import program_of
from ..refusals import Refusal
from ..source import Source
from ..syntax import Expr, Path, bare, children, walk, written
from ..tokens import Token, tokens_of
from .marks import Edit, Finding, Mark

# Names of other tools for what this one has.
OTHER_NAMES = {"true": "TRUE", "false": "FALSE", "True": "TRUE", "False": "FALSE", "default": "1", "else": "1",
               "otherwise": "1", "bool": "boolean", "Boolean": "boolean", "BOOLEAN": "boolean", "Bool": "boolean"}
NUMBERS = ("integer", "int", "Integer", "real", "unsigned", "natural")
MOST_ARMS = 16


def near(name: str, names: Iterable[str]) -> str | None:
    found = difflib.get_close_matches(name, sorted(set(names)), 1, 0.6)
    return found[0] if found else None


def tokens_between(source: Source, first: int, behind: int) -> list[Token]:
    return [it for it in tokens_of(source) if first <= it.at < behind]


def name_in(source: Source, first: int, behind: int, name: str) -> Token | None:
    """The first token between the places that is the name."""
    return next((it for it in tokens_between(source, first, behind) if it.text == name), None)


def mark_of(token: Token | None, note: str = "") -> list[Mark]:
    return [Mark(token.at, token.behind, note)] if token else []


def on_line(source: Source, line: int | None) -> Iterator[tuple[Module, Declaration]]:
    """The declarations that the program tells this line of."""
    for module in program_of(source):
        yield from ((module, it) for it in module.declarations if it.line == line)


# ---- modules and declarations

def no_main(source: Source, _: Refusal) -> Finding:
    modules = program_of(source)
    main = next((it for it in modules if it.name == "main"), None)
    if main is not None:
        first = source.text.index("(", main.first)
        return Finding([Mark(first, main.head_behind)], ["`main` has parameters: what they stand for nobody says."])
    if not modules:
        return Finding([], ["The file has no module."])
    used = {it.type.module for module in modules for it in module.declarations if isinstance(it.type, InstanceType)}
    free = [it for it in modules if not it.formals and it.name not in used]
    if len(free) != 1:
        return Finding([], [f"Its modules are {', '.join(f'`{it.name}`' for it in modules)}."])
    token = name_in(source, free[0].first, free[0].behind, free[0].name)
    edits = [Edit(token.at, token.behind, "main")] if token else []
    return Finding(mark_of(token), [f"No other module has an instance of `{free[0].name}`."], edits)


def twice(source: Source, refusal: Refusal) -> Finding | None:
    modules = program_of(source)
    seen: dict[str, Module] = {}
    for module in modules:
        if module.name in seen and module.line == refusal.line:
            first, second = (name_in(source, it.first, it.behind, it.name) for it in (seen[module.name], module))
            return Finding(mark_of(second) + mark_of(first, "the first"), [f"The module `{module.name}` is there already."])
        seen.setdefault(module.name, module)
    for module in modules:
        found = again_in(source, module, refusal)
        if found:
            return found
    return None


def again_in(source: Source, module: Module, refusal: Refusal) -> Finding | None:
    """The name that the module declares again on that line."""
    formals = {it.text: it for it in tokens_between(source, module.first, module.head_behind)[2:]}
    places: dict[str, int] = {name: formals[name].at for name in module.formals if name in formals}
    members: list[Declaration | Definition] = [*module.declarations, *module.definitions]
    members.sort(key=lambda it: it.first)
    for it in members:
        if it.name in places and it.line == refusal.line:
            first = places[it.name]
            marks = [Mark(it.first, it.first + len(it.name)), Mark(first, first + len(it.name), "the first")]
            same = next((other for other in members if other.first == first and type(other) is type(it)), None)
            edits = [Edit(it.first, it.behind, "")] if same and same_member(same, it) else []
            return Finding(marks, [f"`{it.name}` is declared on line {source.line_at(first)} already."], edits)
        places.setdefault(it.name, it.first)
    if module.name == "main":
        for it in module.declarations:
            if it.name == "main" and it.line == refusal.line:
                return Finding([Mark(it.first, it.first + 4)], ["Process 0 is called `main`."])
    return None


def same_member(one: object, other: object) -> bool:
    if isinstance(one, Declaration) and isinstance(other, Declaration):
        return one.type == other.type
    return getattr(one, "right", 0) == getattr(other, "right", 1)


def unknown_module(source: Source, refusal: Refusal) -> Finding | None:
    """The module of a declaration that isn't there; None where it is another name."""
    names = {it.name for it in program_of(source)}
    for _, it in on_line(source, refusal.line):
        if not isinstance(it.type, InstanceType) or it.type.module in names:
            continue
        tokens = tokens_between(source, it.first, it.behind)
        colon = next(k for k, token in enumerate(tokens) if token.text == ":")
        token = name_in(source, tokens[colon].at, it.behind, it.type.module)
        return other_module(it.type.module, token, names)
    return None


def other_module(name: str, token: Token | None, names: Iterable[str]) -> Finding:
    sentence, new = f"There is no module `{name}`, and so no such type.", OTHER_NAMES.get(name)
    if name in NUMBERS:
        sentence, new = "A number has a range: `0..255` and the like.", "0..255"
    elif new is None:
        new = near(name, [*names, "boolean"])
    return Finding(mark_of(token), [sentence], [Edit(token.at, token.behind, new)] if new and token else [])


def recursive(source: Source, refusal: Refusal) -> Finding | None:
    for module, it in on_line(source, refusal.line):
        if isinstance(it.type, InstanceType):
            token = name_in(source, it.first + len(it.name), it.behind, it.type.module)
            inside = "itself" if module.name == it.type.module else f"`{module.name}`, which is in `{it.type.module}` again"
            return Finding(mark_of(token), [f"The module `{it.type.module}` has an instance of {inside}."])
    return None


def arguments(source: Source, refusal: Refusal) -> Finding | None:
    modules = {it.name: it for it in reversed(program_of(source))}
    for module, it in on_line(source, refusal.line):
        if not isinstance(it.type, InstanceType) or it.type.module not in modules:
            continue
        formals, given = modules[it.type.module].formals, len(it.type.actuals)
        if len(formals) == given:
            continue
        token = name_in(source, it.first + len(it.name), it.behind, it.type.module)
        named = f"`{it.type.module}` has {count(len(formals), 'parameter')}"
        listed = f": {', '.join(f'`{name}`' for name in formals)}" if formals else ""
        sentence = f"{named}{listed}. {'None is' if not given else count(given, 'is', 'are')} handed over."
        if token is None:
            return Finding([], [sentence])
        mark = Mark(token.at, it.behind - 1)
        own = {*module.formals, *(other.name for other in module.declarations), *(other.name for other in module.definitions)}
        missing = formals[given:]
        if given < len(formals) and all(name in own for name in missing):
            actuals = ", ".join([*map(written, it.type.actuals), *missing])
            return Finding([mark], [sentence], [Edit(token.behind, it.behind - 1, f"({actuals})")])
        edits = [Edit(token.behind, it.behind - 1, "")] if not formals else []
        return Finding([mark], [sentence], edits)
    return None


def count(number: int, one: str, many: str = "") -> str:
    return f"{number} {one if number == 1 else many or one + 's'}"


def reversed_range(source: Source, refusal: Refusal) -> Finding | None:
    for _, it in on_line(source, refusal.line):
        kind = it.type
        while isinstance(kind, ArrayType) and kind.low <= kind.high:
            kind = kind.element
        if isinstance(kind, (RangeType, ArrayType)) and kind.low > kind.high:
            tokens = tokens_between(source, it.first, it.behind)
            dots = next(k for k, token in enumerate(tokens) if token.text == ".." and ends_of(tokens, k) == (kind.low, kind.high))
            first = tokens[dots - (2 if tokens[dots - 2].text == "-" else 1)].at
            behind = tokens[dots + (2 if tokens[dots + 1].text == "-" else 1)].behind
            return Finding([Mark(first, behind)], [f"{kind.low} is above {kind.high}."],
                           [Edit(first, behind, f"{kind.high}..{kind.low}")])
    return None


def ends_of(tokens: list[Token], dots: int) -> tuple[int, int]:
    low = int(tokens[dots - 1].text) * (-1 if tokens[dots - 2].text == "-" else 1)
    at = dots + (2 if tokens[dots + 1].text == "-" else 1)
    return low, int(tokens[at].text) * (-1 if tokens[dots + 1].text == "-" else 1)


# ---- paths

def expressions(model: Model) -> Iterator[tuple[Expr, Scope]]:
    """What is looked at for names, as the passes take it: definitions and actuals, then the items."""
    for scope in model.scopes:
        for declared in scope.module.declarations:
            if isinstance(declared.type, InstanceType):
                yield from ((actual, scope) for actual in declared.type.actuals)
        yield from ((it.right, scope) for it in scope.module.definitions)
    for scope in model.scopes:
        for section in scope.module.sections:
            for it in section.members:
                left, right = getattr(it, "left", None), getattr(it, "right", None)
                yield from ((expr, scope) for expr in (left, right, getattr(it, "expr", None)) if expr and
                            section.word not in ("VAR", "DEFINE"))


def paths(model: Model, line: int | None) -> Iterator[tuple[Path, Scope]]:
    """The paths on the line; those of an index too, behind the one that they stand in."""
    for expr, scope in expressions(model):
        yield from ((it, scope) for it in walk(expr) if isinstance(it, Path) and it.line == line)


def actual_paths(model: Model) -> set[int]:
    """The first bytes of the paths that are actuals, or left sides: they may denote what is no value."""
    found = set()
    for scope in model.scopes:
        for it in scope.module.declarations:
            if isinstance(it.type, InstanceType):
                found |= {inner.first for inner in map(bare, it.type.actuals) if isinstance(inner, Path)}
        found |= {it.left.first for it in scope.module.assignments}
    return found


def unknown(model: Model, refusal: Refusal) -> Finding | None:
    free = actual_paths(model)
    for path, scope in paths(model, refusal.line):
        try:
            found = model.denoted(path, scope)
        except Unknown as fault:
            return unknown_name(model, fault, scope)
        except Unreadable:
            continue
        if path.first not in free and isinstance(found, Array):
            return whole_array(found, path)
        if path.first not in free and isinstance(found, Instance):
            members = ", ".join(f"`{written(path)}.{name}`" for name in list(names_of(found.scope))[:4])
            return Finding([Mark(path.first, path.behind)], [f"`{written(path)}` is an instance, and no value. It has {members}."])
    return None


def whole_array(found: Array, path: Path) -> Finding:
    sentence = f"`{written(path)}` is an array, and no value: it has the places {found.type.low} to {found.type.high}."
    return Finding([Mark(path.first, path.behind)], [sentence], [Edit(path.behind, path.behind, f"[{found.type.low}]")])


def unknown_name(model: Model, fault: Unknown, scope: Scope) -> Finding:
    """The name that denotes nothing, with the one that is meant by all appearance."""
    name, path = fault.name, fault.path
    root = name == path.name and name in fault_names(fault, path)
    token = name_in(model.source, path.first, path.behind, name)
    if token is None:
        return Finding([Mark(path.first, path.behind)], [f"`{written(path)}` is no array here."])
    new = OTHER_NAMES.get(name) if not path.parts else None
    sentence = f"Nothing is called `{name}` {place_of(scope)}."
    if new is None and root:
        inner = [f"{front}.{name}" for front, it in scope.instances.items() if name in names_of(it)]
        new = inner[0] if inner else near(name, [*fault.allowed, *(model.symbols if not path.parts else ())])
        if inner:
            sentence += f" {', '.join(f'`{it}`' for it in inner)} {'is' if len(inner) == 1 else 'are'}."
    elif new is None:
        sentence = f"`{written(path)}` denotes nothing: there is no `{name}`."
        new = near(name, fault.allowed)
    if new is None and fault.allowed:
        sentence += f" There {'is' if len(fault.allowed) == 1 else 'are'} {', '.join(f'`{it}`' for it in fault.allowed[:12])}."
    return Finding(mark_of(token), [sentence], [Edit(token.at, token.behind, new)] if new else [])


def fault_names(fault: Unknown, path: Path) -> list[str]:
    return [path.name] if fault.allowed or not path.parts else []


def place_of(scope: Scope) -> str:
    return f"in the module `{scope.module.name}`"


def circular(model: Model, refusal: Refusal) -> Finding | None:
    """The definitions that lead from that of the line back to it."""
    for scope in model.scopes:
        for it in scope.module.definitions:
            if it.line == refusal.line:
                chain = chain_of(model, scope, it.name, [])
                if chain:
                    lines = {name: found.line for name, found in scope.definitions.items()}
                    told = " -> ".join(f"`{name}`" + (f" (line {lines[name]})" if name in lines else "") for name in chain)
                    return Finding([Mark(it.first, it.first + len(it.name))], [f"The circle is {told}."])
    found = next((it for _, it in on_line(model.source, refusal.line)), None)
    return Finding([Mark(found.first, found.behind)]) if found else None


def chain_of(model: Model, scope: Scope, name: str, above: list[str]) -> list[str]:
    """The names of one module on the way from the definition back to it; nothing where it leads elsewhere."""
    if name in above:
        return [*above, name] if name == above[0] else []
    if name not in scope.definitions:
        return []
    for it in walk(scope.definitions[name].right):
        if isinstance(it, Path) and not it.parts:
            found = chain_of(model, scope, it.name, [*above, name])
            if found:
                return found
    return []


def constant(model: Model, refusal: Refusal) -> Finding | None:
    main = model.main.module
    members: list[Declaration | Definition] = [*main.declarations, *main.definitions]
    for it in members:
        if it.line == refusal.line and it.name in model.symbols:
            marks = [Mark(it.first, it.first + len(it.name))]
            for scope in model.scopes:
                for other in scope.module.declarations:
                    token = name_in(model.source, other.first + len(other.name), other.behind, it.name)
                    if isinstance(other.type, ListType) and token:
                        return Finding([*marks, Mark(token.at, token.behind, "the value")],
                                       [f"`{it.name}` is a value of `{scope.flat(other.name)}`."])
    return None


def index(model: Model, refusal: Refusal) -> Finding | None:
    for path, scope in paths(model, refusal.line):
        for place, part in enumerate(path.parts):
            if isinstance(part, str):
                continue
            try:
                array = model.denoted(Path(path.name, path.parts[:place], first=path.first, line=path.line), scope)
            except Unreadable:
                continue
            if isinstance(array, Array):
                found = bad_index(model, path, part, array, scope)
                if found:
                    return found
    return None


def bad_index(model: Model, path: Path, part: Expr, array: Array, scope: Scope) -> Finding | None:
    low, high = array.type.low, array.type.high
    mark = [Mark(part.first, part.behind)]
    try:
        value = constant_of(model, part, scope)
    except Unreadable as why:
        sentence = f"`{written(part)}` varies from state to state, or has no value."
        return Finding(mark, [sentence if "varies" in str(why) else f"{why}."], chosen(model, path, part, array, scope))
    if isinstance(value, int) and low <= value <= high and all(not isinstance(it, Path) for it in walk(part)):
        return None
    return Finding(mark, [f"The index is {value}, and the places of `{array.name}` are {low} to {high}."]
                   if not isinstance(value, int) or not low <= value <= high else ["An index is arithmetic on numbers."])


def chosen(model: Model, path: Path, part: Expr, array: Array, scope: Scope) -> list[Edit]:
    """A `case` over the places in place of a path whose one index varies; nothing for a left side."""
    low, high, text = array.type.low, array.type.high, model.source.text
    if high - low >= MOST_ARMS or path.first in {it.left.first for it in scope.module.assignments}:
        return []
    if any(isinstance(it, Path) for it in children(path) if it is not part):
        return []
    index_text = written(part) if isinstance(part, Path) else f"({written(part)})"
    before, behind = text[path.first:part.first], text[part.behind:path.behind]
    arms = [f"{index_text} = {k} : {before}{k}{behind};" for k in range(low, high)] + [f"1 : {before}{high}{behind};"]
    return [Edit(path.first, path.behind, f"case {' '.join(arms)} esac")]


def left_side(model: Model, refusal: Refusal) -> Finding | None:
    for scope in model.scopes:
        for it in scope.module.assignments:
            if model.source.line_at(it.first) != refusal.line:
                continue
            try:
                found = model.denoted(it.left, scope)
            except Unreadable:
                continue
            kinds = {Stands: "a definition, or a parameter that stands for another expression", Array: "a whole array",
                     Instance: "an instance"}
            if not isinstance(found, Flat):
                kind = kinds.get(type(found), "a constant")
                return Finding([Mark(it.left.first, it.left.behind)], [f"`{written(it.left)}` is {kind}{stands(found)}."],
                               element_edits(model, it.first, it.behind, found, it.left))
    return None


def stands(found: object) -> str:
    return f": `{written(found.expr)}`" if isinstance(found, Stands) else ""


def element_edits(model: Model, first: int, behind: int, found: object, left: Path) -> list[Edit]:
    """The assignment for each element of an array."""
    text = model.source.text[first:behind]
    if not isinstance(found, Array) or found.type.high - found.type.low >= MOST_ARMS or "\n" in text:
        return []
    before, after = model.source.text[first:left.behind], model.source.text[left.behind:behind]
    return [Edit(first, behind, " ".join(f"{before}[{k}]{after}" for k in range(found.type.low, found.type.high + 1)))]

