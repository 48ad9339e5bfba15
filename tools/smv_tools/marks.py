"""Names and expectations of specifications, in comments of the text: `-- NAME safe`, `-- EXPECT false`, `-- LABEL`.

They stand on the lines before a `SPEC`, inside it, or behind it on the line on which it ends. One comment may have several, as
`-- NAME safe, EXPECT true`. For the program they are comments like others. `-- EXPECT refused E8`, anywhere, is of the text."""
from __future__ import annotations

import bisect
import re
from collections.abc import Iterator
from dataclasses import dataclass, replace

from .model import Item, Model
from .source import Source, printable
from .statuses import REFUSED, USAGE, Stop
from .tokens import Token, is_name, tokens_of

COMMENT = re.compile(r"--([^\n]*)")
WORDS = ("NAME", "EXPECT", "LABEL")
VERDICTS = ("true", "false", "unknown")
REFUSAL = re.compile(r"E(?:[1-9]|1\d|2[0-3])")


class MarkFault(Stop):
    """A comment that begins as a mark and isn't one, or that stands at no specification."""

    def __init__(self, source: Source, at: int, text: str) -> None:
        super().__init__(f"{source.path}:{source.line_at(at)}: {text}", REFUSED)


@dataclass(frozen=True)
class Marks:
    """What is said of a section SPEC: its name, the verdict that is expected, and whether it only names a set."""

    name: str | None = None
    expected: str | None = None
    label: bool = False


@dataclass(frozen=True)
class Specification:
    """A specification of the model: its number, where it stands, its full name (with that of its instance), its marks."""

    number: int
    item: Item
    name: str | None
    marks: Marks

    @property
    def label(self) -> bool:
        return self.marks.label

    @property
    def expected(self) -> str | None:
        """The verdict that is expected: `true` where nothing is said, and none of a label."""
        return None if self.label else self.marks.expected or "true"

    @property
    def shown(self) -> str:
        """The name, or the number where there is none."""
        return self.name or str(self.number)


def mark_words(comment: str) -> list[str]:
    """The words of a comment that is a mark; none where it is another one."""
    words = re.split(r"[\s,;]+", comment.strip())
    return [word for word in words if word] if words[0] in WORDS else []


def read_words(source: Source, at: int, words: list[str], marks: Marks) -> Marks:
    """The marks with what the words of a comment add."""
    while words:
        word = words.pop(0)
        if word not in WORDS:
            raise MarkFault(source, at, f"{printable(word)} is none of NAME, EXPECT and LABEL")
        if word == "LABEL":
            marks = replace(marks, label=True)
            continue
        value = words.pop(0) if words else ""
        if word == "NAME":
            if not is_name(value):
                raise MarkFault(source, at, f"NAME takes a name of the language, not {printable(value) or 'nothing'}")
            if marks.name:
                raise MarkFault(source, at, f"one specification has the names {marks.name} and {value}")
            marks = replace(marks, name=value)
        else:
            if value not in VERDICTS:
                raise MarkFault(source, at, f"EXPECT takes true, false or unknown, not {printable(value) or 'nothing'}")
            if marks.expected not in (None, value):
                raise MarkFault(source, at, f"{marks.expected} and {value} are expected of one specification")
            marks = replace(marks, expected=value)
    return marks


class Places:
    """Where comments stand: at which section SPEC."""

    def __init__(self, model: Model) -> None:
        self.source = model.source
        self.tokens: list[Token] = tokens_of(model.source)
        self.begins = [token.at for token in self.tokens]
        sections = [it for module in model.modules.values() for it in module.statements("SPEC")]
        self.behind = {it.first: it.behind for it in sections}
        self.firsts = sorted(self.behind)

    def section(self, at: int) -> int | None:
        """The first byte of the section at which the comment stands."""
        place = bisect.bisect_right(self.firsts, at) - 1
        first = self.firsts[place] if place >= 0 else None
        following = self.begins[bisect.bisect_right(self.begins, at):][:1]
        if first is not None:
            behind = self.behind[first]
            last = self.begins[bisect.bisect_right(self.begins, at) - 1]
            beside = last < behind and self.source.line_at(at) == self.source.line_at(behind - 1)
            if at < behind or beside:
                return first
        return following[0] if following and following[0] in self.behind else None


def comments(source: Source) -> Iterator[tuple[int, str]]:
    """The comments: where each begins, and its text. Two signs `-` begin one wherever they stand."""
    for found in COMMENT.finditer(source.text):
        yield found.start(), found[1]


def expected_refusal(source: Source) -> str | None:
    """The code of the refusal that the text is to have, by `-- EXPECT refused E8`."""
    for at, comment in comments(source):
        words = mark_words(comment)
        if words[:2] == ["EXPECT", "refused"]:
            if len(words) != 3 or not REFUSAL.fullmatch(words[2]):
                raise MarkFault(source, at, "EXPECT refused takes a code from E1 to E23")
            return words[2]
    return None


def section_marks(model: Model) -> dict[int, Marks]:
    """The marks of each section SPEC that has some, by its first byte."""
    source, found = model.source, dict[int, Marks]()
    places: Places | None = None
    for at, comment in comments(source):
        words = mark_words(comment)
        if not words or words[:2] == ["EXPECT", "refused"]:
            continue
        places = places or Places(model)
        section = places.section(at)
        if section is None:
            raise MarkFault(source, at, f"{words[0]} stands before no SPEC")
        found[section] = read_words(source, at, words, found.get(section, Marks()))
    return found


def specifications(model: Model) -> list[Specification]:
    """The specifications in order, with their names; MarkFault where a mark is none, or two have one name."""
    marks, found, taken = section_marks(model), list[Specification](), dict[str, int]()
    for place, item in enumerate(model.specs):
        mine = marks.get(item.first, Marks())
        name = item.scope.flat(mine.name) if mine.name else None
        if name is not None and name in taken:
            raise MarkFault(model.source, item.first, f"specification {taken[name]} has the name {name} too")
        if name is not None:
            taken[name] = place + 1
        found.append(Specification(place + 1, item, name, mine))
    return found


def number_of(model: Model, word: str) -> int:
    """The number of the specification that the word names: by its number, its full name, or a name that one alone has."""
    if word.isascii() and word.isdigit():
        return int(word)
    listed = specifications(model)
    full = [it for it in listed if it.name == word]
    short = full or [it for it in listed if it.marks.name == word]
    if len(short) == 1:
        return short[0].number
    path = model.source.path
    if short:
        raise Stop(f"{len(short)} specifications of {path} have the name {word}: {names(short)}", USAGE)
    some = names([it for it in listed if it.name])
    raise Stop(f"no specification of {path} has the name {word}{'; names here: ' + some if some else ''}", USAGE)


def names(listed: list[Specification], most: int = 12) -> str:
    """The names, cut off where there are many."""
    text = ", ".join(it.name for it in listed[:most] if it.name)
    return text + (", .." if len(listed) > most else "")
