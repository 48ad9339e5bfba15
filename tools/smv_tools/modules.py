"""A program's modules as they are written."""
from __future__ import annotations

from dataclasses import dataclass, field
from typing import Union

from .syntax import Expr, Path, Value


@dataclass(frozen=True)
class Piece:
    """A part of the text: first byte, the place behind, and the line that the program tells for it."""

    first: int
    behind: int
    line: int


@dataclass(frozen=True)
class BooleanType:
    pass


@dataclass(frozen=True)
class ListType:
    """An enumeration, its values as they are written."""

    values: tuple[Value, ...]


@dataclass(frozen=True)
class RangeType:
    low: int
    high: int


@dataclass(frozen=True)
class ArrayType:
    low: int
    high: int
    element: PlainType


@dataclass(frozen=True)
class InstanceType:
    """An instance of a module, and whether it is a process."""

    module: str
    actuals: tuple[Expr, ...]
    process: bool


PlainType = Union[BooleanType, ListType, RangeType, ArrayType]
Type = Union[PlainType, InstanceType]


@dataclass(frozen=True)
class Declaration(Piece):
    """A member of VAR, with its semicolon."""

    name: str
    type: Type


@dataclass(frozen=True)
class Assignment(Piece):
    """A member of ASSIGN: part is `init`, `next` or nothing, line that on which the right side begins."""

    part: str
    left: Path
    right: Expr


@dataclass(frozen=True)
class Definition(Piece):
    name: str
    right: Expr


@dataclass(frozen=True)
class Statement(Piece):
    """INIT, INVAR, TRANS, SPEC or FAIRNESS with its expression; the line is that of the word."""

    word: str
    expr: Expr


Member = Union[Declaration, Assignment, Definition, Statement]


@dataclass(frozen=True)
class Section(Piece):
    """A section: its word and its members; of INIT and the like one."""

    word: str
    members: tuple[Member, ...]


@dataclass(frozen=True)
class Module(Piece):
    name: str
    formals: tuple[str, ...]
    sections: tuple[Section, ...]
    # Behind the head: the name, and the formals where there are some.
    head_behind: int = field(default=0)

    @property
    def declarations(self) -> list[Declaration]:
        return [it for section in self.sections for it in section.members if isinstance(it, Declaration)]

    @property
    def assignments(self) -> list[Assignment]:
        return [it for section in self.sections for it in section.members if isinstance(it, Assignment)]

    @property
    def definitions(self) -> list[Definition]:
        return [it for section in self.sections for it in section.members if isinstance(it, Definition)]

    def statements(self, word: str) -> list[Statement]:
        """The sections of this word: INIT, INVAR, TRANS, SPEC or FAIRNESS."""
        return [it for section in self.sections for it in section.members if isinstance(it, Statement) and it.word == word]
