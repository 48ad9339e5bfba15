"""What is told of a refusal: places in the text, sentences, and edits that mend it."""
from __future__ import annotations

from collections.abc import Iterable, Sequence
from dataclasses import dataclass, field

from ..source import Source


@dataclass(frozen=True)
class Mark:
    """A place in the text, with a word on it."""

    first: int
    behind: int
    note: str = ""


@dataclass(frozen=True)
class Edit:
    """What stands between two places is replaced. No edit adds or takes a line feed, so lines keep their numbers."""

    first: int
    behind: int
    text: str


@dataclass
class Finding:
    """What is wrong: places, the most telling first; sentences on this one; edits that mend it, or none. Where there are none,
    `passed` are edits that take away what it stands in, so that the rest can be read."""

    marks: list[Mark] = field(default_factory=list)
    sentences: list[str] = field(default_factory=list)
    edits: list[Edit] = field(default_factory=list)
    passed: list[Edit] = field(default_factory=list)


def edited(text: str, edits: Iterable[Edit]) -> str:
    """The text with the edits, of which no two overlap."""
    parts, at = [], 0
    for edit in sorted(edits, key=lambda it: (it.first, it.behind)):
        parts += [text[at:edit.first], edit.text]
        at = edit.behind
    return "".join([*parts, text[at:]])


def before_edits(place: int, edits: Sequence[Edit]) -> int:
    """Where the place of the edited text stood before: of what an edit wrote, the place of the edit."""
    shift = 0
    for edit in sorted(edits, key=lambda it: (it.first, it.behind)):
        begin = edit.first + shift
        if place < begin:
            break
        if place < begin + len(edit.text):
            return edit.first
        shift += len(edit.text) - (edit.behind - edit.first)
    return place - shift


def blank(text: str) -> str:
    """Spaces in place of all but the line feeds."""
    return "".join(sign if sign == "\n" else " " for sign in text)


def lines_of(source: Source, edits: Iterable[Edit]) -> list[int]:
    """The lines that the edits change."""
    found: set[int] = set()
    for edit in edits:
        found.update(range(source.line_at(edit.first), source.line_at(max(edit.first, edit.behind - 1)) + 1))
    return sorted(found)
