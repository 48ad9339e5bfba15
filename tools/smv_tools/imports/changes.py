"""What an import did, and forms built from templates."""
from dataclasses import dataclass, field

from .grammar import our_expression
from .tree import Node, plain

REWRITTEN = "rewritten"
OTHER_MEANING = "note"
LEFT_OUT = "left out"
KEPT = "not rewritten"
WIDTH = 100


@dataclass(order=True)
class Change:
    line: int
    kind: str
    text: str

    def __str__(self) -> str:
        return f"line {self.line}: {'' if self.kind == REWRITTEN else self.kind + ': '}{self.text}"


@dataclass
class Changes:
    """The changes of one import, each once."""

    found: dict[tuple, Change] = field(default_factory=dict)

    def tell(self, line: int, text: str, kind: str = REWRITTEN) -> None:
        self.found.setdefault((line, kind, text), Change(line, kind, text))

    def rewrite(self, old: str, line: int, new: Node) -> None:
        self.tell(line, f"`{short(old)}` is `{short(plain(new))}`")

    def listed(self) -> list[Change]:
        return sorted(self.found.values(), key=lambda change: change.line)

    def some(self, *kinds: str) -> bool:
        return any(change.kind in kinds for change in self.found.values())


def short(text: str) -> str:
    return text if len(text) <= WIDTH else text[:WIDTH] + " .."


def form(template: str, *nodes: Node) -> Node:
    """The template as an expression, with the nodes in place of $0, $1 and so on; with what stands before the first node."""
    lead = nodes[0].first() if nodes else None
    before, line = (lead.before, lead.line) if lead else ("", 0)
    if lead:
        lead.before = ""
    made = our_expression(template, nodes)
    for token in made.tokens():
        token.line = token.line if token.line > 1 else line
    made.first().before = before
    if lead:
        lead.before = before
    return made
