"""Comments in the forms of other languages, as comments of this one."""
from __future__ import annotations

import re

from ..source import Source
from .marks import Edit, Finding, Mark, blank

BEGINS = re.compile(r"//|/\*|/--|\#")
ENDS = {"/*": "*/", "/--": "--/"}


def of_lines(source: Source, first: int, behind: int, sign: str) -> list[Edit]:
    """A comment of several lines as one of each line; white space where text of the model follows on its last line."""
    end = source.text.find("\n", behind)
    rest = source.text[behind:end if end >= 0 else None]
    if rest.strip():
        return [Edit(first, behind, blank(source.text[first:behind]))]
    edits = [Edit(first, first + len(sign), "--")]
    at = source.text.find("\n", first, behind)
    last = behind - len(ENDS[sign])
    while 0 <= at < last:
        edits.append(Edit(at + 1, at + 1, "-- "))
        at = source.text.find("\n", at + 1, behind)
    text = source.text[:last]
    return [*edits, Edit(len(text.rstrip(" \t")), behind, "")]


def comment_around(source: Source, offset: int) -> tuple[int, int, str] | None:
    """A foreign comment that holds the byte, or begins right before it: its first byte, the place behind, its sign."""
    line_begin = offset - len(source.before(offset))
    line_end = source.text.find("\n", offset)
    line_end = len(source.text) if line_end < 0 else line_end
    for sign, close in ENDS.items():
        begin = source.text.rfind(sign, 0, offset + len(sign))
        end = source.text.find(close, begin + len(sign)) if begin >= 0 else -1
        if end >= offset - 1 and end >= 0 or begin >= line_begin and end >= 0:
            return begin, end + len(close), sign
    found = BEGINS.search(source.text, line_begin, line_end)
    if found and found.start() <= offset and found[0] in ("//", "#") and "--" not in source.text[line_begin:found.start()]:
        return found.start(), line_end, found[0]
    return None


def comment_form(source: Source, offset: int) -> Finding | None:
    """What is told where the byte stands in a comment of another form."""
    around = comment_around(source, offset)
    if around is None:
        return None
    first, behind, sign = around
    edits = of_lines(source, first, behind, sign) if sign in ENDS else [Edit(first, first + len(sign), "--")]
    return Finding([Mark(first, first + len(sign))], [f"`{sign}` begins no comment: `--` does, up to the end of its line."], edits)
