"""What is wrong with a model: what the program refuses, and what it finds false or can't decide, at its very place."""
from __future__ import annotations

from collections.abc import Callable, Iterator
from dataclasses import dataclass, field
from enum import IntEnum

from ..model import Item, Model, Unreadable
from ..program import Ended
from ..refusals import Refusal
from ..report import Report, Unread, Verdict
from ..source import Source
from ..statuses import DECIDED, MEMORY
from .path_places import path_places
from .tolerant import tokens_there

# What the program refuses a text for; None where it breaks no rule.
Ask = Callable[[bytes], "Refusal | None"]


class Severity(IntEnum):
    """As the protocol numbers them."""

    ERROR = 1
    WARNING = 2
    NOTE = 3


@dataclass(frozen=True)
class Edit:
    """What stands between two bytes is replaced."""

    first: int
    behind: int
    text: str


@dataclass(frozen=True)
class Rewrite:
    """Edits that mend a problem."""

    title: str
    edits: tuple[Edit, ...]


@dataclass(frozen=True)
class Related:
    """Another place, with a word on it."""

    first: int
    behind: int
    text: str


@dataclass
class Problem:
    """A place in the text, what is wrong there, and a short code of it."""

    first: int
    behind: int
    severity: Severity
    code: str
    text: str
    related: list[Related] = field(default_factory=list)
    rewrites: list[Rewrite] = field(default_factory=list)


def line_span(source: Source, line: int | None) -> tuple[int, int]:
    """The text of the line without the white space around it; of a line that isn't there the end of the text."""
    if line is None:
        return line_span(source, 1)
    if line > len(source.lines):
        return len(source.text), len(source.text)
    begin = source.begin_of(line)
    text = source.line(line).partition("--")[0].rstrip(" \t\r") or source.line(line)
    return begin + len(text) - len(text.lstrip(" \t")), begin + len(text)


def model_of(source: Source) -> Model | None:
    try:
        return Model.of(source)
    except (Unreadable, RecursionError):
        return None


# ---- reports

def of_specification(source: Source, model: Model | None, part: Verdict) -> tuple[int, int, str]:
    """Where the specification stands, and what it is called."""
    specs: list[Item] = model.specs if model else []
    if part.number > len(specs) or specs[part.number - 1].line != part.line:
        return *line_span(source, part.line), f"specification {part.number}"
    spec = specs[part.number - 1]
    of = f" of {spec.instance}" if spec.scope.name else ""
    return spec.first, spec.behind, f"specification {part.number}{of}"


def of_verdict(source: Source, model: Model | None, part: Verdict) -> Problem | None:
    first, behind, called = of_specification(source, model, part)
    if part.verdict == "unknown":
        text = f"{called} is unknown: the node limit {part.limit} is met"
        return Problem(first, behind, Severity.WARNING, "unknown", text)
    if part.verdict != "false" or part.trace is None:
        return None
    related = [Related(*it) for it in path_places(model, part.trace, (first, behind))] if model else []
    if part.trace.loop is None:
        text = f"{called} is false: it fails from an initial state"
    else:
        count = len(part.trace.states)
        text = f"{called} is false: a path of {count} state{'s' * (count != 1)} shows it"
    return Problem(first, behind, Severity.ERROR, "false", text, related)


def of_report(source: Source, report: Report) -> Iterator[Problem]:
    model = model_of(source)
    for part in report.parts:
        found = of_verdict(source, model, part)
        if found:
            yield found


# ---- other endings

def first_specification(source: Source) -> tuple[int, int]:
    found = next((token for token in tokens_there(source) if token.text == "SPEC"), None)
    return (found.at, found.behind) if found else line_span(source, 1)


def of_ending(source: Source, ended: Ended, seconds: float) -> Problem:
    """An ending without a report and without a refusal."""
    if ended.status is None:
        return Problem(*first_specification(source), Severity.WARNING, "time",
                       f"not decided within {seconds:g} seconds, and so stopped")
    if ended.status == MEMORY:
        text = "not decided: no memory is left"
    elif ended.status < 0:
        text = f"not decided: signal {-ended.status} ended the program"
    else:
        text = f"not decided: the program ended with status {ended.status}"
    return Problem(*line_span(source, 1), Severity.WARNING, "ended", text)


def problems_of(source: Source, ended: Ended, seconds: float, ask: Ask) -> list[Problem]:
    """All problems of a text, by what the program put for it."""
    from .refused import of_refusal

    if ended.refusal is not None:
        return [of_refusal(source, ended.refusal, ask)]
    if ended.status in DECIDED:
        try:
            return list(of_report(source, ended.report))
        except Unread:
            pass
    return [of_ending(source, ended, seconds)]
