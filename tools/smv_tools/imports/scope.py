"""What the names of a program denote: modules, declarations, definitions, parameters with what is handed over for them."""
from collections import defaultdict
from dataclasses import dataclass, field

from .tree import Node, name_of

DEPTH = 24


@dataclass
class Module:
    node: Node
    name: str
    formals: list[str]
    types: dict[str, Node] = field(default_factory=dict)
    definitions: dict[str, Node] = field(default_factory=dict)

    def instances(self) -> list[tuple[str, Node, str]]:
        """Of each instance that is declared its name, the node of its type and its module; arrays of them too."""
        found = []
        for name, kind in self.types.items():
            while kind.word == "array":
                kind = kind.parts[-1]
            if kind.word == "instance":
                found.append((name, kind, module_of(kind)))
        return found


def module_of(kind: Node) -> str:
    return next(part.text for part in kind.parts if not isinstance(part, Node) and part.text != "process")


def actuals_of(kind: Node) -> list[Node]:
    return kind.nodes()


def formals_of(node: Node) -> list[str]:
    names = [part.text for part in node.parts if not isinstance(part, Node) and part.kind == "name"]
    return names[2:]


class Scope:
    def __init__(self, program: Node):
        self.modules: dict[str, Module] = {}
        for node in program.nodes("module"):
            module = Module(node, node.parts[1].text, formals_of(node))
            self.modules.setdefault(module.name, module)
            self.declare(module)
        self.handed = self.hand_over()
        self.constants = self.symbols()

    def declare(self, module: Module) -> None:
        for section in module.node.nodes("section"):
            for member in section.nodes():
                if member.kind == "declaration":
                    module.types[member.parts[0].text] = member.parts[2]
                elif member.kind == "definition":
                    module.definitions[member.parts[0].text] = member.parts[2]

    def hand_over(self) -> dict[tuple[str, str], list[tuple[Module, Node]]]:
        """For each parameter of a module what each instance hands over, with the module that does."""
        handed = defaultdict(list)
        for module in self.modules.values():
            for _, kind, name in module.instances():
                if name in self.modules:
                    for formal, actual in zip(self.modules[name].formals, actuals_of(kind)):
                        handed[name, formal].append((module, actual))
        return handed

    def symbols(self) -> set[str]:
        """The constants of enumerations."""
        found = set()
        for module in self.modules.values():
            for kind in module.types.values():
                for node in kind.walk():
                    if node.kind == "constant" and node.parts[0].kind == "name":
                        found.add(node.parts[0].text)
        return found

    def names(self) -> set[str]:
        """Every name of the text."""
        return {token.text for module in self.modules.values() for token in module.node.tokens() if token.kind == "name"}

    # ---- values of constant expressions

    def constant(self, module: Module, node: Node, depth: int = DEPTH) -> int | None:
        """The number that the expression is in each instance of the module; none where it may vary."""
        if depth == 0:
            return None
        if node.kind == "number":
            return int(node.parts[0].text)
        if node.kind == "paren":
            return self.constant(module, node.parts[1], depth - 1)
        if node.kind == "prefix" and node.word == "-":
            value = self.constant(module, node.parts[1], depth - 1)
            return None if value is None else -value
        if node.kind == "binary":
            return calculated(node.word, *(self.constant(module, node.parts[k], depth - 1) for k in (0, 2)))
        return self.named(module, name_of(node), depth - 1)

    def named(self, module: Module, name: str, depth: int) -> int | None:
        if name in module.definitions:
            return self.constant(module, module.definitions[name], depth)
        values = {self.constant(caller, actual, depth) for caller, actual in self.handed.get((module.name, name), [])}
        return values.pop() if len(values) == 1 else None

    def varies(self, module: Module, node: Node, depth: int = DEPTH) -> bool:
        """Whether an index isn't a number in each instance, once definitions and parameters are put in."""
        if depth == 0:
            return True
        if node.kind == "path":
            name = name_of(node)
            if name in module.definitions:
                return self.varies(module, module.definitions[name], depth - 1)
            handed = self.handed.get((module.name, name)) if name else None
            return not handed or any(self.varies(caller, actual, depth - 1) for caller, actual in handed)
        if node.kind in ("number", "word-value"):
            return False
        return node.kind not in ("paren", "binary", "prefix") or any(self.varies(module, it, depth - 1) for it in node.nodes())

    # ---- types

    def type_of(self, module: Module, node: Node, depth: int = DEPTH) -> tuple[Module, Node] | None:
        """The type of a path, an array's or an instance's too, with the module that declares it."""
        if node.kind == "paren":
            return self.type_of(module, node.parts[1], depth)
        if node.kind != "path" or depth == 0:
            return None
        found = self.type_of_name(module, node.parts[0].text, depth - 1)
        parts = node.parts[1:]
        while found and parts:
            found = self.part_type(found, parts, depth - 1)
            parts = parts[2:] if parts[0].text == "." else parts[3:]
        return found

    def type_of_name(self, module: Module, name: str, depth: int):
        if depth <= 0:
            return None
        if name in module.types:
            return module, module.types[name]
        if name in module.definitions:
            return self.type_of(module, module.definitions[name], depth)
        for caller, actual in self.handed.get((module.name, name), []):
            found = self.type_of(caller, actual, depth)
            if found:
                return found
        return None

    def part_type(self, found, parts, depth: int):
        module, kind = found
        if parts[0].text == "[":
            return (module, kind.parts[-1]) if kind.word == "array" else None
        if kind.word != "instance":
            return None
        inner = self.modules.get(module_of(kind))
        return self.type_of_name(inner, parts[1].text, depth) if inner else None

    def bounds(self, module: Module, kind: Node) -> tuple[int, int] | None:
        """The ends of a range or of an array."""
        low, high = kind.nodes()[:2]
        ends = self.constant(module, low), self.constant(module, high)
        return None if None in ends else ends

    def bits(self, module: Module, node: Node, depth: int = DEPTH) -> int | None:
        """How many bits the expression has, where it is one of NuSMV's words."""
        if depth == 0:
            return None
        if node.kind == "word":
            return constant_bits(node.parts[0].text)
        if node.kind == "path":
            name = name_of(node)
            if name in module.definitions:
                return self.bits(module, module.definitions[name], depth - 1)
            found = self.type_of(module, node)
            return self.constant(found[0], found[1].nodes()[0]) if found and found[1].word == "word" else None
        if node.kind == "next" or node.kind == "paren":
            return self.bits(module, node.nodes()[0], depth - 1)
        if node.kind == "binary" and node.word in ("+", "-", "*"):
            sides = [self.bits(module, it, depth - 1) for it in node.nodes()]
            return sides[0] or sides[1]
        if node.kind == "case":
            return self.bits(module, node.nodes()[0].nodes()[1], depth - 1)
        return None

    # ---- instances

    def tree(self, name: str = "main", depth: int = DEPTH):
        """The modules of the instances in the order of the program's reports: main, then depth first."""
        module = self.modules.get(name)
        if not module or depth == 0:
            return
        yield module
        for _, _, inner in module.instances():
            yield from self.tree(inner, depth - 1)


def calculated(word: str, left: int | None, right: int | None) -> int | None:
    if left is None or right is None or word in ("/", "mod") and right == 0:
        return None
    if word in ("/", "mod"):
        quotient = abs(left) // abs(right) * (1 if left * right >= 0 else -1)
        return quotient if word == "/" else left - right * quotient
    return {"+": left + right, "-": left - right, "*": left * right}.get(word)


def constant_bits(text: str) -> int | None:
    """The width of `0ud8_5`; where none is said that of its digits."""
    head, digits = text.split("_", 1)
    width = head.lstrip("0").lstrip("us").lstrip("bBoOdDhH")
    if width:
        return int(width)
    digits = digits.replace("_", "")
    return {"b": 1, "o": 3, "h": 4}.get(head.lstrip("0us")[0].lower(), 0) * len(digits) or None


def constant_value(text: str) -> int:
    head, digits = text.split("_", 1)
    base = {"b": 2, "o": 8, "d": 10, "h": 16}[next(letter for letter in head.lower() if letter in "bodh")]
    return int(digits.replace("_", ""), base)
