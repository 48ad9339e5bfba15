"""Assignments, `next` and path operators that stand wrong, and limits (E16 to E22)."""
from __future__ import annotations

from collections.abc import Iterator

from ..model import Item, Model
from ..modules import ArrayType, InstanceType, ListType, PlainType, RangeType
from ..reading import program_of
from ..refusals import Refusal
from ..source import Source
from ..syntax import LOGIC, Binary, Case, Expr, Group, Next, Path, Unary, Until, children, walk, written
from .marks import Edit, Finding, Mark
from .named import on_line, tokens_between
from .uses import NEXT, PATH_OPERATORS, places, uses

LIMITS = {"variables": "256 variables", "values": "1,024 values of a variable", "instances": "1,023 instances beside `main`",
          "depth": "instances 32 deep", "specifications": "256 specifications", "constraints": "64 constraints",
          "nodes": "200,000 nodes of expressions", "nesting": "expressions 1,024 deep, with definitions put in"}
PROBES = {"nodes": "Definitions that use one another twice grow twofold at each step: make such a one a variable with a current "
                   "value."}
STATED = ("INIT", "INVAR", "TRANS", "FAIRNESS", "SPEC")
MOST_SHOWN = 8


# ---- limits

def limit(source: Source, refusal: Refusal) -> Finding:
    which = refusal.words[0] if refusal.words else ""
    sentences = [f"At most {LIMITS[which]} are taken." if which in LIMITS else ""] + ([PROBES[which]] if which in PROBES else [])
    marks = []
    for _, it in on_line(source, refusal.line):
        if which == "values" and not isinstance(it.type, InstanceType) and value_count(it.type) > 1024:
            tokens = tokens_between(source, it.first, it.behind)
            marks.append(Mark(tokens[2].at, tokens[-2].behind))
        elif which in ("variables", "instances", "depth"):
            marks.append(Mark(it.first, it.behind))
    for module in program_of(source):
        for section in module.sections:
            for member in section.members:
                if section.line == refusal.line and section.word in STATED or member.line == refusal.line and not marks:
                    marks.append(Mark(member.first, member.behind))
    return Finding(marks[:1], [it for it in sentences if it])


def value_count(kind: PlainType) -> int:
    while isinstance(kind, ArrayType):
        kind = kind.element
    if isinstance(kind, RangeType):
        return kind.high - kind.low + 1
    return len(set(kind.values)) if isinstance(kind, ListType) else 2


def bits(model: Model, _: Refusal) -> Finding:
    taken: dict[str, int] = {}
    for it in model.variables:
        name = it.name.partition("[")[0]
        taken[name] = taken.get(name, 0) + (len(it.values) - 1).bit_length()
    most = sorted(taken.items(), key=lambda it: -it[1])[:MOST_SHOWN]
    listed = ", ".join(f"`{name}` {number}" for name, number in most)
    more = f", and {len(taken) - len(most)} further ones" if len(taken) > len(most) else ""
    first = next((it.declaration for it in model.variables if it.declaration and it.name.partition("[")[0] == most[0][0]), None)
    marks = [Mark(first.first, first.behind)] if first else []
    return Finding(marks, [f"All take {sum(taken.values())} bits: {listed}{more}."])


# ---- assignments

def left_mark(model: Model, item: Item, note: str = "") -> Mark:
    """The left side of an assignment."""
    behind = model.source.text.index(":=", item.first)
    return Mark(item.first, len(model.source.text[:behind].rstrip()), note)


def process_of(item: Item) -> str:
    return item.scope.process


def meets(one: Item, other: Item) -> bool:
    """Whether both assign one variable where one may."""
    if one.target != other.target or not one.target or one.part != other.part:
        return False
    return one.part != "next" or process_of(one) == process_of(other)


def twice(model: Model, refusal: Refusal) -> Finding | None:
    items = model.assignments
    for k, it in enumerate(items):
        first = next((other for other in items[:k] if meets(it, other)), None)
        if it.line != refusal.line or first is None:
            continue
        what = {"next": "next value", "init": "initial value", "": "current value"}[it.part]
        sentence = f"`{it.target}` gets its {what} on line {first.line} already{who(first, it)}."
        marks = [left_mark(model, it), left_mark(model, first, "the first")]
        if first.first == it.first:
            return Finding(marks[:1], [f"`{it.target}` gets its {what} by each instance of the module{who(first, it)}."])
        edits = [Edit(it.first, it.behind, "")] if it.expr == first.expr and it.scope is first.scope else []
        return Finding(marks, [sentence], edits)
    return None


def who(first: Item, second: Item) -> str:
    """Of which instances the two assignments are, where that isn't plain."""
    names = [it.scope.name or "main" for it in (first, second)]
    return f": once in `{names[0]}`, once in `{names[1]}`" if names[0] != names[1] else ""


def beside(model: Model, refusal: Refusal) -> Finding | None:
    for it in model.assignments:
        if it.line != refusal.line or it.part:
            continue
        others = [other for other in model.assignments if other.target == it.target and other.part]
        if others:
            marks = [left_mark(model, it), *(left_mark(model, other, "the other") for other in others)]
            lines = ", ".join(str(other.line) for other in others)
            return Finding(marks, [f"`{it.target}` has a current value here, and `{others[0].part}` on line {lines}."],
                           [Edit(other.first, other.behind, "") for other in others])
    return None


Graph = dict[str, list[tuple[str, Item]]]


def graphs(model: Model) -> Iterator[Graph]:
    """The graphs of dependencies: the initial one, and that of each process."""
    for process in [None, *model.processes]:
        graph: Graph = {}
        for it in model.assignments:
            if it.part == "next" and it.scope.process != process or it.part == "init" and process is not None:
                continue
            needed = dict.fromkeys(name for name, below in uses(model, it.expr, it.scope) if it.part != "next" or below)
            graph.setdefault(it.target, []).extend((name, it) for name in needed)
        yield graph


def way_back(graph: Graph, begin: str, item: Item) -> list[tuple[str, Item]] | None:
    """The assignments on a shortest circle from the variable through this assignment, each with the variable that it needs."""
    ways = [[(name, it)] for name, it in graph.get(begin, []) if it is item]
    seen: set[str] = set()
    while ways:
        way = ways.pop(0)
        name = way[-1][0]
        if name == begin:
            return way
        if name not in seen:
            seen.add(name)
            ways += [[*way, step] for step in graph.get(name, [])]
    return None


def circle(model: Model, refusal: Refusal) -> Finding | None:
    for item in model.assignments:
        if item.line != refusal.line:
            continue
        for graph in graphs(model):
            way = way_back(graph, item.target, item)
            if way:
                parts = [f"`{it.target}` (line {it.line}) needs `{name}`" for name, it in way]
                marks = [left_mark(model, it, "" if k == 0 else "on the circle") for k, (_, it) in enumerate(way)]
                return Finding(list(dict.fromkeys(marks)), [f"The circle: {', '.join(parts)}."])
    return None


# ---- next, and path operators

def items_on(model: Model, line: int | None) -> Iterator[tuple[str, Item]]:
    """The items that the program tells this line of, with the section of each, in flat order."""
    yield from (("ASSIGN", it) for it in model.assignments if it.line == line)
    for word in STATED:
        yield from ((word, it) for it in model.statements(word) if line in (it.line, it.expr.line))


def above(expr: Expr, inner: Expr) -> list[Expr]:
    """The trees around the inner one, the outermost first."""
    for child in children(expr):
        if child is inner:
            return [expr]
        found = above(child, inner)
        if found:
            return [expr, *found]
    return []


def head_edit(model: Model, item: Item, word: str) -> Edit:
    """Another word in place of that of the section."""
    end = item.first
    while model.source.text[end:end + 1].isalpha():
        end += 1
    return Edit(item.first, end, word)


def next_stands(model: Model, refusal: Refusal) -> Finding | None:
    for word, item in items_on(model, refusal.line):
        allowed = word == "TRANS" or item.part == "next"
        for place in places(model, item.expr, item.scope, NEXT):
            inside = any(isinstance(it, Next) for it in above(item.expr, place))
            if allowed and not inside:
                continue
            return wrong_next(model, word, item, place, inside)
    return None


def wrong_next(model: Model, word: str, item: Item, place: Expr, inside: bool) -> Finding:
    called = {"": "a current value", "init": "an initial value"}.get(item.part, "") if word == "ASSIGN" else f"`{word}`"
    sentence = "It stands within another `next`." if inside else f"There is no next state in {called}."
    if isinstance(place, Path):
        sentence += f" `{written(place)}` stands for an expression with `next`."
    edits: list[Edit] = []
    if isinstance(place, Next) and not inside:
        if word == "INVAR":
            edits = [head_edit(model, item, "TRANS")]
        elif word == "SPEC" and all(is_logical(it) for it in above(item.expr, place)):
            open_at = model.source.text.index("(", place.first)
            edits = [Edit(place.first, open_at, "AX ")]
    return Finding([Mark(place.first, place.behind)], [sentence], edits)


def is_logical(expr: Expr) -> bool:
    """Whether path operators may stand right below."""
    return isinstance(expr, (Group, Unary, Until)) or isinstance(expr, Binary) and expr.operator in LOGIC


def operates(model: Model, refusal: Refusal) -> Finding | None:
    for word, item in items_on(model, refusal.line):
        for place in places(model, item.expr, item.scope, PATH_OPERATORS):
            around = above(item.expr, place)
            over = next((it for it in around if not is_logical(it)), None)
            if word in ("SPEC", "FAIRNESS") and over is None:
                continue
            return wrong_operator(model, word, item, place, over)
    return None


def operator_mark(place: Expr) -> Mark:
    """The word of the operator, or the whole path that stands for one."""
    length = len(place.operator) if isinstance(place, Unary) else 1 if isinstance(place, Until) else place.behind - place.first
    return Mark(place.first, place.first + length)


def wrong_operator(model: Model, word: str, item: Item, place: Expr, over: Expr | None) -> Finding:
    mark = operator_mark(place)
    if word not in ("SPEC", "FAIRNESS"):
        edits = []
        if word in ("INIT", "INVAR", "TRANS") and not any(isinstance(it, Next) for it in walk(item.expr)):
            edits = [head_edit(model, item, "SPEC" if word == "INIT" else "SPEC AG")]
            if word != "INIT" and not isinstance(item.expr, Group):
                edits += [Edit(item.expr.first, item.expr.first, "("), Edit(item.expr.behind, item.expr.behind, ")")]
        said = "an assignment" if word == "ASSIGN" else f"`{word}`"
        return Finding([mark], [f"{said[0].upper()}{said[1:]} speaks of single states and steps. What is to be checked of paths is "
                                "a SPEC."], edits)
    what = "a `case`" if isinstance(over, Case) else f"`{over.operator}`" if isinstance(over, Binary) else "an operator"
    edits = []
    if isinstance(over, Binary) and over.operator == "=":
        edits = equal_edits(model, item, over)
    return Finding([mark], [f"It stands below {what}, which takes values and no formulas."], edits)


def equal_edits(model: Model, item: Item, over: Binary) -> list[Edit]:
    """`<->` in place of `=`, in parentheses where it isn't the whole of something."""
    sign = next(it for it in tokens_between(model.source, over.left.behind, over.right.first) if it.text == "=")
    edits = [Edit(sign.at, sign.behind, "<->")]
    outer = above(item.expr, over)[-1:]
    if outer and not isinstance(outer[0], Group):
        edits += [Edit(over.first, over.first, "("), Edit(over.behind, over.behind, ")")]
    return edits

