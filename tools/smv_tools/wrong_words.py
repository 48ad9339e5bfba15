"""Names what is wrong in words, with what is allowed there. Only the standard library is used here."""
from __future__ import annotations

import difflib
from collections.abc import Iterable, Sequence

from .words import Command, Option, commands


def nearest(word: str, allowed: Iterable[str]) -> str | None:
    found = difflib.get_close_matches(word, list(allowed), 1, 0.5)
    return found[0] if found else None


def instead(word: str, allowed: Sequence[str]) -> str:
    """What to write in place of the word, as the end of a line."""
    near = nearest(word, allowed)
    if near:
        return f"; did you mean {near}?"
    return f"; allowed here: {', '.join(allowed)}" if allowed else ""


def no_command(word: str) -> str:
    return f"no command {word}{instead(word, list(commands()))}"


def no_option(command: Command, word: str) -> str:
    names = [option.name for option in command.options] + ["--help"]
    return f"no option {word}{instead(word, names)}"


def wrong_value(option: Option, value: str) -> str | None:
    """What is wrong with the option's value; none where nothing is."""
    if option.kind == "number" and (not value.isascii() or not value.isdigit() or value[0] == "0" or int(value) >= 1 << 31):
        return f"{option.name} takes a number from 1 to 2147483647, not {value or 'nothing'}"
    if option.choices and value not in option.choices:
        return f"{option.name} takes one of {', '.join(option.choices)}, not {value}"
    return f"{option.name} takes {option.value}, which is missing" if not value else None


def wrong_count(command: Command, count: int) -> str | None:
    """What is wrong with this many operands; none where nothing is."""
    least = sum(not operand.optional for operand in command.operands)
    if count < least:
        return f"{command.name} takes {' '.join(it.usage for it in command.operands)}: {command.operands[count].name} is missing"
    if count > len(command.operands) and not any(operand.many for operand in command.operands):
        wanted = " ".join(it.usage for it in command.operands) or "no operand"
        return f"{command.name} takes {wanted}, and {count} {'word is' if count == 1 else 'words are'} given"
    return None


class Sorted:
    """The words behind a command: operands, options with their values, and what is wrong first."""

    def __init__(self, command: Command, words: Sequence[str]) -> None:
        self.command = command
        self.operands: list[str] = []
        self.options: list[tuple[Option, str]] = []
        self.wrong: str | None = None
        rest = list(words)
        while rest and self.wrong is None:
            word = rest.pop(0)
            if word == "--":
                self.operands += rest
                break
            if len(word) > 1 and word[0] == "-":
                self._take_option(word, rest)
            else:
                self.operands.append(word)
        if self.wrong is None:
            self.wrong = wrong_count(command, len(self.operands))

    def _take_option(self, word: str, rest: list[str]) -> None:
        name, equals, value = word.partition("=")
        option = self.command.option(name)
        if option is None:
            self.wrong = no_option(self.command, name)
        elif not option.value:
            self.wrong = f"{name} takes no value" if equals else None
        elif not equals and not rest:
            self.wrong = f"{name} takes {option.value}, which is missing"
        else:
            value = value if equals else rest.pop(0)
            self.wrong = wrong_value(option, value)
        if option is not None and self.wrong is None:
            if not option.many and any(it is option for it, _ in self.options):
                self.wrong = f"{name} stands twice"
            self.options.append((option, value))


def wrong_of_program(words: Sequence[str]) -> str:
    """What is wrong with words that the program took for no command."""
    if not words:
        return "no command; `smv help` has all of them"
    if words[0] not in commands():
        return no_command(words[0])
    found = Sorted(commands()[words[0]], words[1:])
    return found.wrong or f"these words are no call of {words[0]}; `smv help {words[0]}` has its forms"
