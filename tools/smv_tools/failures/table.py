"""A path as a table: a column for each state, rows for variables, definitions and leaves."""
from __future__ import annotations

from collections.abc import Sequence
from dataclasses import dataclass

from ..report import Trace
from .rows import DEFINE, LEAF, VARIABLE, Row

WIDTH = 100
BETWEEN = "  "


@dataclass
class Line:
    """A line of the table: its first column, and one cell for each state."""

    head: str
    cells: list[str]


@dataclass
class Table:
    """`end` is the last state that matters, behind which columns are greyed."""

    trace: Trace
    rows: Sequence[Row]
    marks: Sequence[int] = ()
    mark_name: str = "fails"
    decisive: frozenset[str] = frozenset()
    end: int | None = None
    shown: int = 0

    def __post_init__(self) -> None:
        self.shown = self.shown or len(self.trace.states)

    def lines(self) -> list[Line]:
        """The rows, a blank line (no head) between their groups."""
        count = range(self.shown)
        found = [Line("  state", [f" {k}" for k in count])]
        if self.marks:
            found.append(Line(f"! {self.mark_name}", [" !" if k in self.marks else "" for k in count]))
        for kind in (VARIABLE, DEFINE, LEAF):
            some = [row for row in self.rows if row.kind == kind]
            if some and kind != VARIABLE:
                found.append(Line("", []))
            for row in some:
                sign = "! " if kind == LEAF and row.name in self.decisive else "  "
                found.append(Line(sign + row.name, [f"{'*' if row.changed(k) else ' '}{row.cells[k]}" for k in count]))
        return found

    def loop_line(self, widths: Sequence[int], first: int, last: int) -> str:
        """Where the path goes back to, below the columns from first to last."""
        back, end = self.trace.loop, len(self.trace.states) - 1
        assert back is not None
        signs = []
        for k in range(first, last + 1):
            if k < back:
                sign = " " * widths[k]
            elif k == back == end:
                sign = " @".ljust(widths[k])
            elif k == back:
                sign = " ^".ljust(widths[k], "-")
            elif k == end:
                sign = "--'".ljust(widths[k])
            else:
                sign = "-" * widths[k]
            signs.append(("--" if k > back else "  ") + sign)
        return "".join(signs)

    def parts(self, width: int = WIDTH) -> list[list[tuple[str, str]]]:
        """The table's lines in parts that go side by side within the width. A line is its text, and what follows behind the
        last state that matters."""
        lines = self.lines()
        head = max(len(it.head) for it in lines)
        head = min(head, max(width // 2, 12))
        widths = [max(len(it.cells[k]) for it in lines if it.cells) for k in range(self.shown)]
        looped = self.trace.loop is not None and self.shown == len(self.trace.states)
        parts = []
        for first, last in spans(widths, width - head):
            part = [self._text(cut(it.head, head), it.cells, widths, first, last) for it in lines]
            if looped and self.trace.loop is not None and self.trace.loop <= last:
                part.append((("  loop".ljust(head) + self.loop_line(widths, first, last)).rstrip(), ""))
            parts.append(part)
        return parts

    def _text(self, head: str, cells: list[str], widths: Sequence[int], first: int, last: int) -> tuple[str, str]:
        if not cells:
            return head.rstrip(), ""
        texts = {k: BETWEEN + cells[k].ljust(widths[k]) for k in range(first, last + 1)}
        near = "".join(text for k, text in texts.items() if self.end is None or k <= self.end)
        far = "".join(text for k, text in texts.items() if self.end is not None and k > self.end)
        return (head + near, far.rstrip()) if far.strip() else ((head + near).rstrip(), "")


def cut(text: str, width: int) -> str:
    """The text in this width: the end of a longer one is left out."""
    return text.ljust(width) if len(text) <= width else text[:width - 2] + ".."


def spans(widths: Sequence[int], room: int) -> list[tuple[int, int]]:
    """The columns that go side by side, at least one."""
    found, first = [], 0
    while first < len(widths):
        last, left = first, room - widths[first] - len(BETWEEN)
        while last + 1 < len(widths) and left >= widths[last + 1] + len(BETWEEN):
            last += 1
            left -= widths[last] + len(BETWEEN)
        found.append((first, last))
        first = last + 1
    return found
