"""A text as tokens and comments, each with what the layout keeps of the white space before it."""
from __future__ import annotations

from dataclasses import dataclass

from ..source import Source
from ..tokens import SECTIONS, Kind, kind_of, pieces

# White space of the language. A comment may end with other bytes that `strip` alone would take away.
WHITE = " \t\r\n"
MEMBER_SECTIONS = ("VAR", "ASSIGN", "DEFINE")


@dataclass(slots=True)
class Item:
    """A token, or a comment without the white space at its end. `kind` is nothing for a comment; `breaks` counts the line feeds
    before it, and `indented` tells whether white space stands before it on its line."""

    text: str
    kind: Kind | None
    breaks: int
    indented: bool

    @property
    def is_section(self) -> bool:
        return self.kind is Kind.KEY and (self.text in SECTIONS or self.text == "MODULE")


def items_of(source: Source) -> list[Item]:
    """The tokens and comments in order; LexFault where a byte begins none."""
    found: list[Item] = []
    white = ""
    for piece in pieces(source):
        if piece["none"] is None or piece[0].startswith("--"):
            kind = None if piece["none"] is not None else kind_of(piece)
            found.append(Item(piece[0].rstrip(WHITE), kind, white.count("\n"), white.endswith((" ", "\t"))))
            white = ""
        else:
            white += piece[0]
    return found


def closed_cases(items: list[Item]) -> dict[int, int]:
    """Of each `case` the place of its `esac`."""
    opened: list[int] = []
    found = {}
    for place, item in enumerate(items):
        if item.kind is Kind.KEY and item.text == "case":
            opened.append(place)
        elif item.kind is Kind.KEY and item.text == "esac":
            found[opened.pop()] = place
    return found


def broken_cases(items: list[Item]) -> set[int]:
    """The places of each `case` that goes over several lines, and of its `esac`."""
    breaks, count = [], 0
    for item in items:
        count += item.breaks
        breaks.append(count)
    return {place for pair in closed_cases(items).items() if breaks[pair[0]] < breaks[pair[1]] for place in pair}


def broken_sections(items: list[Item]) -> set[int]:
    """The places of each VAR, ASSIGN and DEFINE that goes over several lines."""
    found, begin = set(), -1
    for place, item in enumerate(items):
        if item.is_section:
            begin = place if item.text in MEMBER_SECTIONS else -1
        elif begin >= 0 and item.breaks and item.kind is not None:
            found.add(begin)
    return found
