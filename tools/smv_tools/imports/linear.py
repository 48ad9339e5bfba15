"""Formulas of linear time that a formula of branching time says too.

A formula f of linear time holds where all paths meet it. Of the forms below a formula of branching time holds at the same
states: `X u`, `G u` with a u of these forms, `F p`, `p U q`, `p V q` of conditions p and q, `u & u`, and `p | u`, `p -> u`."""
from .changes import form
from .tree import Node

DUAL = {"X": "X", "F": "G", "G": "F", "U": "V", "V": "U"}
TEMPORAL = frozenset("XFGUVYZHOST")


class NotBranching(Exception):
    """No form below fits the formula."""


def is_condition(node: Node) -> bool:
    return not any(part.kind == "linear" for part in node.walk())


def branching(node: Node, positive: bool = True) -> Node:
    """The formula of branching time, of the formula or of its negation."""
    if is_condition(node):
        return node if positive else form("!$0", node)
    if node.kind == "paren":
        return form("($0)", branching(node.parts[1], positive))
    if node.kind == "prefix" and node.word == "!":
        return branching(node.parts[1], not positive)
    if node.kind == "binary":
        return joined(node, positive)
    if node.kind == "linear":
        return linear(node, positive)
    raise NotBranching


def joined(node: Node, positive: bool) -> Node:
    left, right = node.nodes()
    word, first = node.word, positive
    if word == "->":
        word, first = "|", not positive
    if word not in ("&", "|"):
        raise NotBranching
    if not positive:
        word = "|" if word == "&" else "&"
    if word == "|" and not is_condition(left) and not is_condition(right):
        raise NotBranching
    if node.word == "->" and positive and is_condition(left):
        return form("$0 -> $1", left, branching(right))
    return form(f"$0 {word} $1", branching(left, first), branching(right, positive))


def linear(node: Node, positive: bool) -> Node:
    word = node.word if positive else DUAL.get(node.word)
    operands = node.nodes()
    if word == "X" or word == "G":
        return form(f"A{word} $0", branching(operands[0], positive))
    if word is None or word not in "FUV" or not all(map(is_condition, operands)):
        raise NotBranching
    sides = operands if positive else [form("!$0", it) for it in operands]
    if word == "F":
        return form("AF $0", *sides)
    return form("A [ $0 U $1 ]" if word == "U" else "!E [ !$0 U !$1 ]", *sides)
