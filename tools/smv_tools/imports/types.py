"""Types of NuSMV as types that the checker has: ends of ranges as numbers, words as ranges, arrays of modules one by one."""
from .changes import KEPT, Changes
from .scope import Module, Scope
from .sections import fresh, text_section
from .tokens import Token
from .tree import Node, copied, plain

MOST_BITS = 8


class Types:
    """Rewrites the declarations of one module, and the paths to what was unrolled."""

    def __init__(self, scope: Scope, module: Module, changes: Changes, unrolled: dict):
        self.scope, self.module, self.changes, self.unrolled = scope, module, changes, unrolled

    def rewrite(self) -> None:
        parts = []
        for section in self.module.node.parts:
            parts.append(section)
            if not isinstance(section, Node) or section.kind != "section":
                continue
            members, more = [], []
            for member in section.parts:
                if isinstance(member, Node) and member.kind == "declaration":
                    more += self.type(member, member.parts[2])
                    members += self.members(member)
                else:
                    members.append(member)
            section.parts = members
            parts += more
        self.module.node.parts = parts

    def type(self, member: Node, kind: Node) -> list[Node]:
        """Rewrites the type, and gives the sections that it wants behind this one."""
        change = getattr(self, f"type_{kind.word}", None)
        return change(member, kind) or [] if change else []

    def keep(self, kind: Node, why: str) -> None:
        self.changes.tell(kind.line, f"`{plain(kind)}`: {why}", KEPT)

    def type_integer(self, _: Node, kind: Node) -> None:
        self.keep(kind, "a type has an end: write a range that holds all values")

    type_real = type_integer

    def type_range(self, _: Node, kind: Node) -> None:
        self.ends(kind, kind.parts[0], kind.parts[2], 0, 2)

    def type_array(self, member: Node, kind: Node) -> list[Node]:
        self.ends(kind, kind.parts[1], kind.parts[3], 1, 3)
        return self.type(member, kind.parts[-1])

    def ends(self, kind: Node, low: Node, high: Node, *places: int) -> None:
        old = plain(kind)
        for place, end in zip(places, (low, high)):
            value = self.scope.constant(self.module, end)
            if value is None:
                return self.keep(kind, "an end isn't a number")
            if not (end.kind == "number" or end.kind == "prefix" and end.word == "-" and end.parts[1].kind == "number"):
                kind.parts[place] = Node("number", [Token("number", str(value), end.line, end.first().before)])
        if plain(kind) != old:
            self.changes.tell(kind.line, f"`{old}` is `{plain(kind)}`: the ends are numbers")

    def type_word(self, _: Node, kind: Node) -> None:
        bits = self.scope.constant(self.module, kind.nodes()[0])
        if kind.parts[0].text == "signed" or bits is None or not 1 <= bits <= MOST_BITS:
            return self.keep(kind, f"a word that is signed, or of more than {MOST_BITS} bits")
        old, first = plain(kind), kind.first()
        text = f"0..{(1 << bits) - 1}"
        self.changes.tell(kind.line, f"`{old}` is `{text}`: sums and differences wrap by `mod`")
        kind.parts, kind.word = [Token("text", text, first.line, first.before)], "range, written"

    def type_enumeration(self, member: Node, kind: Node) -> list[Node]:
        """Negative numbers and ranges among the values: a range, and where it has more values an INVAR."""
        if all(len(node.parts) == 1 for node in kind.nodes()):
            return []
        values = [value for node in kind.nodes() for value in element_values(node)]
        old, first, name = plain(kind), kind.first(), member.parts[0].text
        if all(isinstance(value, str) or value is not None and value >= 0 for value in values):
            text = f"{{{', '.join(map(str, values))}}}"
            kind.parts, kind.word = [Token("text", text, first.line, first.before)], "enumeration, written"
            self.changes.tell(first.line, f"`{old}` is `{text}`")
            return []
        if not all(isinstance(value, int) for value in values):
            self.keep(kind, "negative numbers beside names")
            return []
        low, high = min(values), max(values)
        kind.parts, kind.word = [Token("text", f"{low}..{high}", first.line, first.before)], "range, written"
        if len(set(values)) == high - low + 1:
            self.changes.tell(first.line, f"`{old}` is `{low}..{high}`")
            return []
        listed = ", ".join(str(value) if value >= 0 else f"0 - {-value}" for value in sorted(set(values)))
        self.changes.tell(first.line, f"`{old}` is `{low}..{high}` with `INVAR {name} in {{{listed}}}`")
        return [text_section("INVAR", f"INVAR {name} in {{{listed}}}", first.line)]

    # ---- arrays of modules

    def members(self, member: Node) -> list[Node]:
        kind = member.parts[2]
        if kind.word != "array" or element(kind).word != "instance":
            return [member]
        name, found = member.parts[0].text, []
        for numbers in self.indexes(kind):
            other = copied(member)
            other.parts[2] = copied(element(kind))
            other.parts[0].text = self.unrolled_name(name, numbers)
            other.first().before = member.first().before if not found else "\n  "
            found.append(other)
        if not found:
            self.keep(kind, "the ends of the array aren't numbers")
            return [member]
        names = [other.parts[0].text for other in found]
        self.changes.tell(member.line, f"`{name}`, an array of modules, is {', '.join(f'`{it}`' for it in names)}")
        return found

    def indexes(self, kind: Node) -> list[tuple[int, ...]]:
        if kind.word != "array":
            return [()]
        ends = self.scope.bounds(self.module, kind)
        return [(k, *rest) for k in range(ends[0], ends[1] + 1) for rest in self.indexes(kind.parts[-1])] if ends else []

    def unrolled_name(self, name: str, numbers: tuple[int, ...]) -> str:
        key = (self.module.name, name, numbers)
        if key not in self.unrolled:
            taken = self.scope.names() | set(self.unrolled.values())
            self.unrolled[key] = fresh("_".join([name, *map(str, numbers)]), taken)
        return self.unrolled[key]

    def path(self, node: Node) -> Node:
        """A path to an element of an array of modules, as one to the instance that stands for it."""
        if node.kind != "path":
            return node
        name, place, numbers = node.parts[0].text, 1, ()
        kind = self.module.types.get(name)
        while kind and kind.word == "array" and element(kind).word == "instance" and place + 2 < len(node.parts) + 1:
            if node.parts[place:] and not isinstance(node.parts[place], Node) and node.parts[place].text == "[":
                numbers += (self.scope.constant(self.module, node.parts[place + 1]),)
                kind, place = kind.parts[-1], place + 3
            else:
                return node
        if not numbers or (self.module.name, name, numbers) not in self.unrolled:
            return node
        first = node.parts[0]
        named = Token("name", self.unrolled[self.module.name, name, numbers], first.line, first.before)
        return Node("path", [named, *node.parts[place:]])


def element(kind: Node) -> Node:
    return element(kind.parts[-1]) if kind.word == "array" else kind


def element_values(node: Node) -> list[int | str | None]:
    if node.kind == "span":
        low, high = element_values(node.parts[0])[0], element_values(node.parts[2])[0]
        return list(range(low, high + 1)) if isinstance(low, int) and isinstance(high, int) else [None]
    text = "".join(part.text for part in node.parts)
    return [int(text) if text.lstrip("-").isdigit() else text]


