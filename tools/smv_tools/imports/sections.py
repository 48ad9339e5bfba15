"""Sections of NuSMV and CMU SMV as sections that the checker has."""
import itertools

from .changes import KEPT, LEFT_OUT, Changes, form
from .linear import NotBranching, branching
from .scope import Module, Scope
from .tokens import Token
from .tree import Node, copied, plain, render, take_place

INVARIANT = "invariants speak of states on fair paths alone here"


class Sections:
    """Rewrites the sections of one module. `asked` has the commands to ask, with the specifications that they name."""

    def __init__(self, scope: Scope, module: Module, changes: Changes, asked: list):
        self.scope, self.module, self.changes, self.asked = scope, module, changes, asked

    def rewrite(self) -> None:
        parts = []
        for part in self.module.node.parts:
            parts += self.section(part) if isinstance(part, Node) and part.kind == "section" else [part]
        self.module.node.parts = parts

    def section(self, node: Node) -> list[Node]:
        word = node.word
        change = getattr(self, f"take_{word.lower()}", None)
        if word.endswith(".."):
            return self.leave_out(node, "no form that the checker has")
        return change(node) if change else [node]

    def reword(self, node: Node, word: str, why: str = "") -> list[Node]:
        first = node.parts[0]
        self.changes.tell(first.line, f"`{node.word}` is `{word}`" + (f": {why}" if why else ""))
        first.text, node.word = word, word
        return [node]

    # ---- declarations

    def take_ivar(self, node: Node) -> list[Node]:
        return self.reword(node, "VAR", "a free variable, which is part of the state")

    def take_frozenvar(self, node: Node) -> list[Node]:
        self.reword(node, "VAR", "each keeps its value by an assignment of its `next`")
        names = [path for member in node.nodes() for path in self.elements(member.parts[0].text, member.parts[2])]
        if not names:
            return [node]
        lines = "".join(f"\n  next({name}) := {name};" for name in names)
        return [node, text_section("ASSIGN", f"ASSIGN{lines}", node.line)]

    def elements(self, name: str, kind: Node) -> list[str]:
        """The variables that the declaration makes."""
        if kind.word == "array":
            ends = self.scope.bounds(self.module, kind)
            numbers = range(ends[0], ends[1] + 1) if ends else ()
            return [path for k in numbers for path in self.elements(f"{name}[{k}]", kind.parts[-1])]
        return [] if kind.word == "instance" else [name]

    def take_constants(self, node: Node) -> list[Node]:
        names = [part.text for part in node.parts[1:] if part.kind == "name"]
        rest = [name for name in names if name not in self.scope.constants]
        if not rest:
            return self.leave_out(node, "each is a value of some enumeration", "rewritten")
        name = fresh("constants", self.scope.names())
        self.changes.tell(node.line, f"`CONSTANTS` is the type of `{name}`, which keeps its value: a constant is a value of some type")
        text = f"VAR {name} : {{{', '.join(rest)}}};\nASSIGN {name} := {rest[0]};"
        return [text_section("VAR", text, node.line, node.first().before)]

    def take_assign(self, node: Node) -> list[Node]:
        """An array's elements that are assigned at once, one by one."""
        parts = []
        for part in node.parts:
            spread = isinstance(part, Node) and part.kind == "assignment" and part.parts[2].kind == "elements"
            parts += self.one_by_one(part) if spread else [part]
        node.parts = parts
        return [node]

    def one_by_one(self, node: Node) -> list[Node]:
        path = node.parts[0].nodes()[0]
        found = self.scope.type_of(self.module, path)
        ends = self.scope.bounds(*found) if found and found[1].word == "array" else None
        values = node.parts[2].nodes()
        if not ends or ends[1] - ends[0] + 1 != len(values):
            return [node]
        made = []
        for number, value in zip(range(ends[0], ends[1] + 1), values):
            other = copied(node)
            inner = other.parts[0].nodes()[0]
            inner.parts += [Token("sign", "[", node.line), Node("number", [Token("number", str(number), node.line)]),
                            Token("sign", "]", node.line)]
            other.parts[2] = copied(value)
            other.parts[2].first().before = " "
            other.first().before = node.first().before if not made else "\n  "
            made.append(other)
        self.changes.tell(node.line, f"`{plain(node)}` is {len(made)} assignments")
        return [part for other in made for part in self.spread(other)]

    def spread(self, node: Node) -> list[Node]:
        return self.one_by_one(node) if node.parts[2].kind == "elements" else [node]

    # ---- specifications and constraints

    def take_spec(self, node: Node) -> list[Node]:
        if isinstance(node.parts[1], Node):
            return [node]
        word, _, name, _, *rest = node.parts
        self.changes.tell(word.line, f"`{node.word} NAME {name.text} :=` is `SPEC` behind the comment `-- NAME {name.text}`")
        word.before = f"{word.before or chr(10)}-- NAME {name.text}\n"
        word.text, node.word, node.parts = "SPEC", "SPEC", [word, *rest]
        return [node]

    def take_ctlspec(self, node: Node) -> list[Node]:
        return self.take_spec(self.reword(node, "SPEC")[0])

    def take_invarspec(self, node: Node) -> list[Node]:
        place = next(k for k, part in enumerate(node.parts) if isinstance(part, Node))
        if any(it.kind == "next" for it in node.parts[place].walk()):
            return self.leave_out(node, "an invariant of steps")
        inside = node.parts[place]
        node.parts[place] = form("AG $0" if inside.kind == "paren" else "AG ($0)", inside)
        return self.take_spec(self.reword(node, "SPEC", f"`SPEC AG ( .. )`; {INVARIANT}")[0])

    def take_justice(self, node: Node) -> list[Node]:
        return self.reword(node, "FAIRNESS")

    def take_ltlspec(self, node: Node) -> list[Node]:
        place = next(k for k, part in enumerate(node.parts) if isinstance(part, Node))
        old = node.parts[place]
        try:
            new = branching(old)
        except NotBranching:
            return self.leave_out(node, "no formula of branching time is known to say the same")
        first, text = node.parts[0], plain(old)
        if new is not old:
            take_place(old, new)
        node.parts[place] = new
        self.changes.tell(first.line, f"`LTLSPEC {text}` is `SPEC {plain(new)}`")
        first.text, node.word = "SPEC", "SPEC"
        return self.take_spec(node)

    def take_compassion(self, node: Node) -> list[Node]:
        pair = self.pair(node, "./smv strong FILE", "{}:{}")
        self.changes.tell(
            node.line, f"`{plain(node).rstrip(';')}` is a pair of specifications; `check` doesn't know of the constraint"
        )
        return pair

    def take_compute(self, node: Node) -> list[Node]:
        self.changes.tell(node.line, f"`{plain(node).rstrip(';')}` is a pair of specifications, whose delays `delay` tells")
        return self.pair(node, "./smv delay FILE", "{} {}")

    def pair(self, node: Node, command: str, numbers: str) -> list[Node]:
        """Two specifications that name sets of states, behind a comment with the command that asks."""
        first, line = node.first(), node.line
        specs = []
        for part in node.nodes():
            inside = copied(part)
            inside.first().before = " "
            specs.append(Node("section", [Token("name", "SPEC", line, "\n"), inside], "SPEC"))
        comment = Node("comment", [Token("comment", f"-- {plain(node).rstrip(';')}: {command}", line, first.before)])
        self.asked.append((self.module, comment, specs, command, numbers))
        return [comment, *specs]

    def take_isa(self, node: Node) -> list[Node]:
        """The sections of the module that is named, in its place."""
        name = node.parts[1].text if len(node.parts) > 1 else ""
        module = self.scope.modules.get(name)
        if not module or module.formals or module is self.module:
            self.changes.tell(node.line, f"`{plain(node)}`: of a module without parameters only", KEPT)
            return [node]
        self.changes.tell(node.line, f"`ISA {name}` is the sections of `{name}` in its place")
        taken = []
        for section in module.node.nodes("section"):
            taken += self.section(copied(section))
        return taken

    def leave_out(self, node: Node, why: str, kind: str = LEFT_OUT) -> list[Node]:
        text = " ".join(render(node).split("\n")[0].split())
        self.changes.tell(node.line, f"`{plain(node)}`: {why}", kind)
        before = node.first().before
        node.first().before = ""
        lines = render(node).split("\n")
        text = "\n".join(f"-- {kind if place == 0 else ' ' * len(kind)}: {line}" for place, line in enumerate(lines))
        return [Node("comment", [Token("comment", text, node.first().line, before)])]


def text_section(word: str, text: str, line: int, before: str = "\n") -> Node:
    """Sections that are written here, as one token."""
    return Node("section", [Token("text", text, line, before)], f"{word}, written")


def fresh(wanted: str, names) -> str:
    """The name, or the name with a number, that isn't among these."""
    return next(name for name in itertools.chain([wanted], (f"{wanted}_{k}" for k in itertools.count(2))) if name not in names)
