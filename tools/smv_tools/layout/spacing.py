"""Whether a space stands between two tokens of a line."""
from __future__ import annotations

from ..tokens import Kind
from .items import Item

NONE_BEFORE = frozenset([";", ",", ")", "]", "}", ".", ".."])
NONE_BEHIND = frozenset(["(", "[", "{", ".", "..", "!"])
# Words behind which parentheses follow at once.
CALLED = frozenset(["init", "next"])
# Words that are an operand, or that end one.
ENDS = frozenset(["TRUE", "FALSE", "running", "esac"])
UNTIL = frozenset(["E", "A"])


def ends_operand(item: Item) -> bool:
    """Whether the token may be the last one of an operand."""
    if item.kind in (Kind.NAME, Kind.NUMBER):
        return True
    return item.text in (")", "]", "}") if item.kind is Kind.SIGN else item.text in ENDS


class Spacing:
    """Goes over the tokens in order, and knows of each bracket that is open whether it is that of an until."""

    def __init__(self) -> None:
        self.brackets: list[bool] = []
        self.last: Item | None = None
        self.before_last: Item | None = None

    def space_before(self, item: Item) -> bool:
        """Whether a space stands before the next token, where that stands on the line of the last one."""
        last = self.last
        wide = bool(self.brackets) and self.brackets[-1]
        if item.text == "[":
            self.brackets.append(last is not None and last.text in UNTIL)
        elif item.text == "]" and self.brackets:
            self.brackets.pop()
        found = last is not None and self._between(last, item, wide)
        self.before_last, self.last = last, item
        return found

    def _between(self, last: Item, item: Item, wide: bool) -> bool:
        if item.text == "]" or last.text == "[":
            return wide
        if item.text in NONE_BEFORE or last.text in NONE_BEHIND:
            return False
        if item.text == "(":
            return not (last.kind is Kind.NAME or last.text in CALLED)
        if item.text == "[":
            return not ends_operand(last)
        if last.text == "-":
            return self.before_last is not None and ends_operand(self.before_last)
        return True
