"""Expressions of NuSMV that the checker lacks, one by one, as expressions that it has."""
from .changes import KEPT, Changes, form
from .scope import Module, Scope, constant_value
from .tokens import Token
from .tree import Node, copied, grouped, plain, rewritten

MOST_ELEMENTS = 1024
MOST_STEPS = 60
INFIX = {"!=": "!($0 = $1)", "xor": "!($0 <-> $1)", "xnor": "$0 <-> $1"}
CALLED = {
    ("max", 2): "case $0 > $1 : $0; 1 : $1; esac", ("min", 2): "case $0 < $1 : $0; 1 : $1; esac",
    ("abs", 1): "case $0 < 0 : 0 - $0; 1 : $0; esac", ("bool", 1): "!($0 = 0)", ("toint", 1): "$0", ("word1", 1): "$0",
    ("unsigned", 1): "$0",
}
BITWISE = {"&", "|", "xor", "xnor", "->", "<->", "<<", ">>", "::"}


class Values:
    """Rewrites the expressions of one module."""

    def __init__(self, scope: Scope, module: Module, changes: Changes, has_words: bool):
        self.scope, self.module, self.changes, self.has_words = scope, module, changes, has_words
        self.widths: dict[int, int | None] = {}

    def expression(self, node: Node) -> Node:
        self.widths = {id(it): self.width(it) for it in node.walk()} if self.has_words else {}
        # Numbers, so that an identity is of one node alone while this goes on.
        alive = list(node.walk())
        found = rewritten(node, self.change)
        del alive
        return found

    def width(self, node: Node) -> int | None:
        if node.kind == "call" and node.word in ("extend", "resize"):
            value = self.scope.constant(self.module, node.nodes()[1])
            inner = self.scope.bits(self.module, node.nodes()[0])
            return value if node.word == "resize" else inner and value and inner + value
        return self.scope.bits(self.module, node)

    def change(self, node: Node) -> Node:
        change = getattr(self, f"change_{node.kind.replace('-', '_')}", None)
        if not change:
            return node
        old, line = plain(node), node.line
        new = change(node)
        if new is not node:
            new = grouped(new)
            self.changes.rewrite(old, line, new)
        return new

    def keep(self, node: Node, why: str) -> Node:
        self.changes.tell(node.line, f"`{plain(node)}`: {why}", KEPT)
        return node

    # ---- operators

    def change_binary(self, node: Node) -> Node:
        left, _, right = node.parts
        widths = self.widths.get(id(left)), self.widths.get(id(right))
        if node.word in BITWISE and (any(widths) or node.word in ("<<", ">>", "::")):
            return self.keep(node, "an operation on the bits of words")
        if node.word in INFIX:
            return form(INFIX[node.word], left, right)
        bits = widths[0] or widths[1]
        if bits and node.word in ("+", "-", "*") and bits <= 16:
            template = "$0 - $1 + " + str(1 << bits) if node.word == "-" else f"$0 {node.word} $1"
            return form(f"({template}) mod {1 << bits}", left, right)
        return node

    def change_prefix(self, node: Node) -> Node:
        if node.word == "!" and self.widths.get(id(node.parts[1])):
            return self.keep(node, "an operation on the bits of words")
        return form("0 - $0", node.parts[1]) if node.word == "-" else node

    def change_ternary(self, node: Node) -> Node:
        return form("case $0 : $1; 1 : $2; esac", *node.nodes())

    def change_span(self, node: Node) -> Node:
        ends = [self.scope.constant(self.module, it) for it in node.nodes()]
        if None in ends:
            return self.keep(node, "the ends of a set aren't numbers")
        low, high = ends
        if not low <= high < low + MOST_ELEMENTS:
            return self.keep(node, "a set without elements, or of too many")
        return form(f"{{{', '.join(number_text(value) for value in range(low, high + 1))}}}")

    def change_set(self, node: Node) -> Node:
        """A set in a set is the elements of it."""
        if len(node.nodes()) == 1 and node.nodes()[0].kind == "set":
            return node.nodes()[0]
        return node

    def change_word(self, node: Node) -> Node:
        if "s" in node.parts[0].text.split("_")[0]:
            return self.keep(node, "a signed word")
        return form(str(constant_value(node.parts[0].text)))

    def change_bits(self, node: Node) -> Node:
        return self.keep(node, "a choice of bits of a word")

    def change_elements(self, node: Node) -> Node:
        return self.keep(node, "an array's elements as a value")

    def change_call(self, node: Node) -> Node:
        operands = node.nodes()
        if node.word == "count":
            return form(" + ".join(f"${k}" for k in range(len(operands))), *operands) if len(operands) < 10 else \
                self.keep(node, "count of more than nine")
        if (node.word, len(operands)) in CALLED:
            return form(CALLED[node.word, len(operands)], *operands)
        if node.word == "extend" and self.widths.get(id(operands[0])):
            return form("$0", operands[0])
        if node.word == "resize" and self.widths.get(id(node)):
            return form(f"$0 mod {1 << self.widths[id(node)]}", operands[0])
        return self.keep(node, "a function of words that has no like")

    # ---- indexes that vary

    def change_path(self, node: Node) -> Node:
        for place, part in enumerate(node.parts):
            if isinstance(part, Node) and self.scope.varies(self.module, part):
                return self.chosen(node, place)
        return node

    def chosen(self, path: Node, place: int) -> Node:
        """A `case` over the values of the index at this place."""
        array = Node("path", path.parts[:place - 1])
        found = self.scope.type_of(self.module, array)
        ends = self.scope.bounds(*found) if found and found[1].word == "array" else None
        if not ends or not 0 <= ends[1] - ends[0] < MOST_ELEMENTS:
            return self.keep(path, "an index that varies, of what is no array with numbers for bounds")
        index, texts, nodes = path.parts[place], [], [path.parts[place]]
        for value in range(ends[0], ends[1] + 1):
            other = copied(path)
            other.parts[place] = Node("number", [Token("number", str(value), index.line)])
            condition = f"{render_index(index)} = {value}" if value < ends[1] else "1"
            texts.append((condition, self.change_path(other)))
        return case_of(texts, path)

    # ---- bounded path operators

    def change_bounded(self, node: Node) -> Node:
        numbers = [int(it.parts[0].text) for it in node.nodes("number")[-2:]] if node.word == "BU" else \
            [int(it.parts[0].text) for it in node.nodes()[:2]]
        low, high = numbers
        if not low <= high <= MOST_STEPS:
            return self.keep(node, f"bounds above {MOST_STEPS}, or without a value")
        if node.word == "BU":
            step = "AX" if node.parts[0].text == "A" else "EX"
            before, after = node.nodes()[0], node.nodes()[-1]
            return form(until_steps(step, low, high), before, after)
        step = node.word[0] + "X"
        return form(some_steps(step, "|" if node.word[2] == "F" else "&", low, high), node.nodes()[-1])


def number_text(value: int) -> str:
    return str(value) if value >= 0 else f"0 - {-value}"


def render_index(index: Node) -> str:
    return plain(index) if index.kind in ("path", "paren", "number") else f"({plain(index)})"


def case_of(arms: list[tuple[str, Node]], path: Node) -> Node:
    """A `case` of conditions and values; the first is ten arms at most in a template, so each arm is one by itself."""
    first = path.first()
    parts: list = [Token("name", "case", first.line, first.before)]
    for condition, value in arms:
        arm = form(f"case {condition} : $0; esac", bare(value)).parts[1]
        arm.first().before = " "
        arm.nodes()[1].first().before = " "
        parts.append(arm)
    return Node("case", [*parts, Token("name", "esac", first.line, " ")])


def bare(node: Node) -> Node:
    other = copied(node)
    other.first().before = ""
    return other


def some_steps(step: str, operator: str, low: int, high: int) -> str:
    text = "$0"
    for _ in range(high - low):
        text = f"$0 {operator} {step} ({text})"
    for _ in range(low):
        text = f"{step} ({text})"
    return text


def until_steps(step: str, low: int, high: int) -> str:
    text = "$1"
    for _ in range(high - low):
        text = f"$1 | $0 & {step} ({text})"
    for _ in range(low):
        text = f"$0 & {step} ({text})"
    return text
