"""How mistakes are shown: lines of the file with marks below, sentences, and the lines to write."""
from __future__ import annotations

from collections.abc import Iterator

from ..source import Source, printable
from .marks import Finding, Mark
from .rounds import Mistake, Mistakes
from .rules import RULES

AROUND = 2
WIDTH = 160
# Of a wide line so much stands before the mark.
BEFORE = 60
MOST_LINES = 12


def row(number: int | str, text: str, sign: str = " ") -> str:
    return f"{sign} {number:>5} | {text}".rstrip()


def shown_line(source: Source, line: int) -> str:
    text = printable(source.line(line))
    return text if len(text) <= WIDTH else text[:WIDTH] + " .."


def marked(source: Source, mark: Mark) -> tuple[str, str]:
    """The line of the mark, cut where it is wide, and the marks below it."""
    line = source.line_at(mark.first)
    before, whole = printable(source.before(mark.first)), printable(source.line(line))
    end = source.text.find("\n", mark.first)
    behind = min(mark.behind, end if end >= 0 else len(source.text))
    length = max(1, len(printable(source.text[mark.first:behind])))
    # What a tab spreads depends on where it stands, so the length is that of the line up to there.
    length = max(1, min(length, len(whole) - len(before)))
    begin = max(0, len(before) - BEFORE) if len(whole) > WIDTH else 0
    text = (".. " if begin else "") + whole[begin:begin + WIDTH] + (" .." if len(whole) > begin + WIDTH else "")
    spaces = len(before) - begin + (3 if begin else 0)
    return text, " " * spaces + "^" * min(length, WIDTH - len(before) + begin) + (f" {mark.note}" if mark.note else "")


def place_rows(source: Source, line: int | None, finding: Finding, around: int) -> Iterator[str]:
    """The lines around the first mark, or around the line that is told, with the marks below theirs."""
    lines = {source.line_at(mark.first): mark for mark in reversed(finding.marks)}
    count = len(source.lines)
    told = source.line_at(finding.marks[0].first) if finding.marks and (line or 0) <= count else line
    if told is None:
        return
    wanted = set(range(max(1, told - around), min(told, count) + 1)) | set(sorted(lines)[:MOST_LINES])
    last = 0
    for at in sorted(wanted | {told}):
        if last and at > last + 1:
            yield row("..", "")
        last = at
        sign = ">" if at == told else " "
        if at > count:
            yield row(at, "the file ends before this line", sign)
        elif at in lines:
            text, below = marked(source, lines[at])
            yield row(at, text, sign)
            yield row("", below)
        else:
            yield row(at, shown_line(source, at), sign)


def heading(source: Source, mistake: Mistake) -> str:
    line = mistake.refusal.line
    marks = mistake.finding.marks
    if marks:
        return f"{source.path}, line {source.line_at(marks[0].first)}, column {source.column_at(marks[0].first)}:"
    return f"{source.path}, line {line}:" if line else f"{source.path}:"


def written_rows(source: Source, mistake: Mistake, first: bool) -> Iterator[str]:
    if not mistake.written:
        return
    if first:
        yield ""
    yield "Write:"
    for line, text in mistake.written[:MOST_LINES]:
        empty = not text.strip() and source.line(line).strip()
        yield row(line, "(left out)" if empty else printable(text))
    if len(mistake.written) > MOST_LINES:
        yield row("..", f"and {len(mistake.written) - MOST_LINES} further lines")


def mistake_rows(source: Source, mistake: Mistake, first: bool) -> Iterator[str]:
    """What is told of one mistake: of the first one the rule and what to write in general, too."""
    rule, sentences = RULES[mistake.refusal.code], [it for it in mistake.finding.sentences if it]
    yield ""
    yield heading(source, mistake)
    yield from place_rows(source, mistake.refusal.line, mistake.finding, AROUND if first else 0)
    if first:
        yield from ("", f"{mistake.refusal.code}, {rule.title}.", *sentences, rule.broken)
    else:
        yield f"{mistake.refusal.code}: {' '.join(sentences or [rule.broken])}"
    yield from written_rows(source, mistake, first)
    if first and not mistake.written:
        yield from ("", rule.instead)


def end_row(mistakes: Mistakes) -> str:
    count, last = len(mistakes.found), mistakes.found[-1]
    changes = "this change" if count == 1 else f"these {count} changes"
    if mistakes.passed:
        return "Of the rest only the grammar was looked at."
    if mistakes.clear:
        return f"With {changes} the model is taken."
    if mistakes.clear is None:
        return f"With {changes} the model breaks no rule up to E22; the rest isn't looked at." if last.written else ""
    return "What stands behind it isn't looked at before it is mended." if last.refusal.code in ("E1", "E2", "E4", "E5") else ""


def text_of(source: Source, mistakes: Mistakes) -> str:
    """All that is told."""
    rows: list[str] = []
    for k, mistake in enumerate(mistakes.found):
        rows += mistake_rows(source, mistake, k == 0)
    end = end_row(mistakes)
    return "\n".join([*rows, "", *([end] if end else []), "docs/REFUSALS.md has an example of each refusal."]) + "\n"
