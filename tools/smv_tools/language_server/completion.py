"""The names and words that may stand where something is written."""
from __future__ import annotations

from collections.abc import Iterable
from dataclasses import dataclass

from ..tokens import PATH_OPERATORS, SECTIONS, Kind
from .documents import utf8
from .outline import Outline, Role, Symbol

MOST_DETAIL = 120
TYPES = ("boolean", "array", "process")
VALUES = ("TRUE", "FALSE", "running", "case", "next")
OPERATORS = ("mod", "union", "in")
FORMULA_WORDS = (*PATH_OPERATORS, "E", "A")
# Sections in whose expressions path operators stand.
FORMULAS = ("SPEC", "FAIRNESS")


@dataclass(frozen=True)
class Choice:
    """A word to choose, what it is (nothing for a reserved word), and a line on it."""

    text: str
    role: Role | None
    detail: str = ""


def of_symbol(outline: Outline, symbol: Symbol) -> Choice:
    if symbol.node is None:
        return Choice(symbol.name, symbol.role, f"{symbol.role.value} of {symbol.module.name}")
    written = outline.source.text[symbol.node.first:symbol.node.behind].rstrip(";")
    return Choice(symbol.name, symbol.role, " ".join(utf8(written).split())[:MOST_DETAIL])


def words(texts: Iterable[str]) -> list[Choice]:
    return [Choice(text, None) for text in texts]


class Completion:
    """What may stand at a byte of the text."""

    def __init__(self, outline: Outline, offset: int) -> None:
        self.outline = outline
        self.module = outline.module_at(offset)
        place = outline.token_at(offset)
        if place is None or outline.tokens[place].kind not in (Kind.NAME, Kind.KEY):
            place = next((k for k in range(len(outline.tokens) - 1, -1, -1) if outline.tokens[k].behind <= offset), -1)
        else:
            place -= 1
        # The tokens before what is being written.
        self.place = place

    def text(self, distance: int = 0) -> str:
        at = self.place - distance
        return self.outline.tokens[at].text if at >= 0 else ""

    def section(self) -> str:
        """The word of the section."""
        for at in range(self.place, -1, -1):
            text = self.outline.tokens[at].text
            if text in SECTIONS or text == "MODULE":
                return text
        return ""

    def choices(self) -> list[Choice]:
        if self.text() == ".":
            return self.members()
        if self.text() == "MODULE":
            return []
        section = self.section()
        if self.module is None or section == "":
            return words(["MODULE"])
        begins_member = self.text() in ("VAR", "ASSIGN", "DEFINE", ";") and not self.in_case()
        if begins_member and section in ("VAR", "ASSIGN", "DEFINE"):
            return self.members_begin(section)
        if section == "VAR" and self.text() in (":", "process", "of"):
            return self.types()
        if section == "MODULE":
            return words([*SECTIONS, "MODULE"])
        return self.values(section)

    def in_case(self) -> bool:
        """Whether a `case` of this section is open."""
        depth = 0
        for at in range(self.place, -1, -1):
            text = self.outline.tokens[at].text
            if text in SECTIONS or text == "MODULE":
                break
            depth += (text == "case") - (text == "esac")
        return depth > 0

    def members(self) -> list[Choice]:
        """The names behind a dot."""
        if self.place < 1 or self.module is None or self.outline.tokens[self.place - 1].kind is not Kind.NAME:
            return []
        found: dict[str, Choice] = {}
        for symbol in self.outline.denoted(self.outline.chain_to(self.place - 1), self.module):
            for inner in self.outline.modules_of(symbol):
                for it in self.outline.names_of(inner).values():
                    found.setdefault(it.name, of_symbol(self.outline, it))
        return list(found.values())

    def members_begin(self, section: str) -> list[Choice]:
        assert self.module is not None
        names = self.outline.names_of(self.module).values() if section == "ASSIGN" else ()
        assigned = [of_symbol(self.outline, it) for it in names if it.role is not Role.DEFINITION]
        return [*(words(("init", "next")) if section == "ASSIGN" else []), *assigned, *words([*SECTIONS, "MODULE"])]

    def types(self) -> list[Choice]:
        modules = [] if self.text() == "of" else [
            Choice(it.name, Role.MODULE, f"MODULE {it.name}({', '.join(it.formals)})")
            for it in self.outline.by_name.values() if it.name not in ("main", "")
        ]
        return [*modules, *words(TYPES if self.text() == ":" else TYPES[:2] if self.text() == "of" else ())]

    def values(self, section: str) -> list[Choice]:
        """Names, constants and words of an expression."""
        assert self.module is not None
        names = [of_symbol(self.outline, it) for it in self.outline.names_of(self.module).values()]
        own = {choice.text for choice in names}
        constants = [of_symbol(self.outline, found[0]) for name, found in self.outline.constants.items() if name not in own]
        more = FORMULA_WORDS if section in FORMULAS else ()
        return [*names, *constants, *words([*VALUES, *OPERATORS, *more, *(["esac"] if self.in_case() else []), *SECTIONS])]
