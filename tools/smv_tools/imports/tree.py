"""Trees of a text that keep each token, so that a tree that isn't changed is the text again."""
from dataclasses import dataclass, field
from typing import Callable, Iterator, Union

from .tokens import Token

# How tight the checker's operators bind, the tightest highest.
TIGHTNESS = {
    "*": 10, "/": 10, "+": 9, "-": 9, "mod": 8, "union": 7, "in": 6,
    "=": 5, "<": 5, ">": 5, "<=": 5, ">=": 5, "&": 3, "|": 2, "->": 1, "<->": 1,
}
PREFIX_TIGHTNESS = 4
PATH_OPERATORS = frozenset({"EX", "AX", "EF", "AF", "EG", "AG"})
PREFIXES = PATH_OPERATORS | {"!"}


@dataclass(eq=False)
class Node:
    """A part of a program. `word` is its operator, section or function, where its kind has one."""

    kind: str
    parts: list[Union["Node", Token]] = field(default_factory=list)
    word: str = ""

    def tokens(self) -> Iterator[Token]:
        for part in self.parts:
            if isinstance(part, Node):
                yield from part.tokens()
            else:
                yield part

    def first(self) -> Token:
        return next(self.tokens())

    @property
    def line(self) -> int:
        return self.first().line

    def nodes(self, *kinds: str) -> list["Node"]:
        """The parts that are nodes, of these kinds where any are named."""
        return [part for part in self.parts if isinstance(part, Node) and (not kinds or part.kind in kinds)]

    def walk(self) -> Iterator["Node"]:
        yield self
        for part in self.parts:
            if isinstance(part, Node):
                yield from part.walk()


def render(part: Union[Node, Token]) -> str:
    tokens = [part] if isinstance(part, Token) else part.tokens()
    return "".join(token.before + token.text for token in tokens)


def plain(node: Node) -> str:
    """The text on one line, without comments."""
    return " ".join(joined_plain(list(node.tokens())).split())


def joined_plain(tokens: list[Token]) -> str:
    """Tokens with a space where white space or a comment stood."""
    parts = []
    for place, token in enumerate(tokens):
        if place and token.before:
            parts.append(" ")
        parts.append(token.text)
    return "".join(parts)


def copied(node: Node) -> Node:
    return Node(node.kind, [copied(part) if isinstance(part, Node) else copied_token(part) for part in node.parts], node.word)


def copied_token(token: Token) -> Token:
    return Token(token.kind, token.text, token.line, token.before)


def rewritten(node: Node, change: Callable[[Node], Node]) -> Node:
    """The tree with each node changed, from the leaves up. What is put in its place keeps what stands before it."""
    node.parts = [rewritten(part, change) if isinstance(part, Node) else part for part in node.parts]
    other = change(node)
    if other is not node:
        take_place(node, other)
    return other


def take_place(old: Node, new: Node) -> None:
    """Moves the white space and comments before the old node before the new one."""
    lead, line = old.first(), old.line
    before, lead.before = lead.before, "" if lead is not new.first() else lead.before
    first = new.first()
    first.before, first.line = before, line


def name_of(node: Node) -> str:
    """The name of a path that is a name alone; empty for every other expression."""
    if node.kind == "paren":
        return name_of(node.parts[1])
    return node.parts[0].text if node.kind == "path" and len(node.parts) == 1 else ""


def shape(node: Node):
    """The tree without parentheses, white space and comments."""
    if node.kind == "paren":
        return shape(node.parts[1])
    return (node.kind, *(shape(part) if isinstance(part, Node) else part.text for part in node.parts))


def tightness(node: Node) -> int:
    if node.kind == "binary":
        return TIGHTNESS.get(node.word, 0)
    return PREFIX_TIGHTNESS if node.kind == "prefix" else 11


def in_parentheses(node: Node) -> Node:
    first = node.first()
    before, first.before = first.before, ""
    return Node("paren", [Token("sign", "(", first.line, before), node, Token("sign", ")", first.line)])


def grouped(node: Node) -> Node:
    """The tree with parentheses wherever the checker's grammar wants them for this grouping."""
    node.parts = [grouped(part) if isinstance(part, Node) else part for part in node.parts]
    if node.kind == "binary" and node.word in TIGHTNESS:
        level = TIGHTNESS[node.word]
        left, _, right = node.parts
        node.parts[0] = left if tightness(left) >= level else in_parentheses(left)
        node.parts[2] = right if tightness(right) > level else in_parentheses(right)
    elif node.kind == "prefix" and node.word in PREFIXES:
        operand = node.parts[-1]
        node.parts[-1] = operand if tightness(operand) >= PREFIX_TIGHTNESS else in_parentheses(operand)
    return node
