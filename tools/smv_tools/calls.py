"""A command with the words that it was given."""
from __future__ import annotations

from dataclasses import dataclass, field
from functools import cached_property
from typing import Union

from .program import Program
from .words import Command

OptionValue = Union[str, bool, list[str]]


@dataclass
class Call:
    """A command, its operands in order, and its options by their names as `--nodes`."""

    command: Command
    operands: list[str] = field(default_factory=list)
    options: dict[str, OptionValue] = field(default_factory=dict)

    @cached_property
    def program(self) -> Program:
        return Program()

    def operand(self, place: int) -> str | None:
        """The operand at this place, from 0; none where it was left out."""
        return self.operands[place] if place < len(self.operands) else None

    @property
    def model(self) -> str:
        """The first operand."""
        return self.operands[0]

    def has(self, name: str) -> bool:
        return bool(self.options.get(name))

    def option(self, name: str) -> str | None:
        """The value of an option, the last one where it may stand again."""
        value = self.options.get(name)
        if isinstance(value, list):
            return value[-1] if value else None
        return value if isinstance(value, str) else None

    def option_all(self, name: str) -> list[str]:
        """The values of an option that may stand again."""
        value = self.options.get(name)
        return list(value) if isinstance(value, list) else [value] if isinstance(value, str) else []

    def number(self, name: str) -> int | None:
        """The value of an option that is a number."""
        value = self.option(name)
        return None if value is None else int(value)

    @property
    def nodes(self) -> list[str]:
        """The words for the program's node limit."""
        value = self.option("--nodes")
        return ["--nodes", value] if value is not None else []
