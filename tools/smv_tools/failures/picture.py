"""A path as a timing diagram (SVG): a lane for each row, a column for each state, as wide as its own values ask for."""
from __future__ import annotations

import html
from collections.abc import Iterator, Sequence
from dataclasses import dataclass

from ..report import Trace
from .rows import Row

LANE, GAP, HIGH, LEFT = 30, 8, 16, 8
SIGN, LEAST = 7.2, 34.0
STYLE = (
    "text{font:12px monospace;fill:#222}.line,.loop{fill:none;stroke:#1b5e9b;stroke-width:1.5}"
    ".box{fill:#eef4fa;stroke:#1b5e9b}.grid{stroke:#ccc;stroke-dasharray:2 3}.loop{stroke:#a33}.tip{fill:#a33}"
    ".here{fill:#fbe3e0}.kind{fill:#777}.veil{fill:#fff;opacity:.6}"
)


@dataclass(frozen=True)
class Run:
    """States in which a row keeps its value: from the first on, to the one before `behind`."""

    first: int
    behind: int
    value: str


def runs_of(cells: Sequence[str]) -> list[Run]:
    found: list[Run] = []
    for k, value in enumerate(cells):
        if found and found[-1].value == value:
            found[-1] = Run(found[-1].first, k + 1, value)
        else:
            found.append(Run(k, k + 1, value))
    return found


def text_at(x: float, y: float, text: str, more: str = "") -> str:
    return f'<text x="{x:g}" y="{y:g}"{more}>{html.escape(text)}</text>'


class Picture:
    def __init__(self, trace: Trace, rows: Sequence[Row], marks: Sequence[int] = (), end: int | None = None,
                 title: str = "") -> None:
        self.trace, self.rows, self.marks, self.end, self.title = trace, rows, marks, end, title
        self.count = len(trace.states)
        self.begin = LEFT + SIGN * max(len(it) for it in ["state", *(row.name for row in rows)]) + 14
        self.at = self._edges()
        self.low = LANE * (len(rows) + 1) + 4

    def _edges(self) -> list[float]:
        """The left edge of each column, and the right edge of the last. A run of one state widens its own column alone."""
        widths = [LEAST] * self.count
        runs = [run for row in self.rows if not row.is_bit for run in runs_of(row.cells)]
        for run in sorted(runs, key=lambda it: it.behind - it.first):
            lacks = SIGN * len(run.value) + 16 - sum(widths[run.first:run.behind])
            if lacks > 0:
                for k in range(run.first, run.behind):
                    widths[k] += lacks / (run.behind - run.first)
        edges = [self.begin]
        for width in widths:
            edges.append(edges[-1] + width)
        return edges

    def middle(self, k: int) -> float:
        return (self.at[k] + self.at[k + 1]) / 2

    def _states(self) -> Iterator[str]:
        yield text_at(LEFT, 22, "state")
        for k in range(self.count):
            if k in self.marks:
                yield (f'<rect class="here" x="{self.at[k]:g}" y="6" width="{self.at[k + 1] - self.at[k]:g}" '
                       f'height="{self.low - 6:g}"/>')
            yield text_at(self.middle(k), 22, f"{k}!" if k in self.marks else str(k), ' text-anchor="middle"')
            yield f'<line class="grid" x1="{self.at[k]:g}" y1="28" x2="{self.at[k]:g}" y2="{self.low}"/>'

    def _bits(self, row: Row, top: int) -> Iterator[str]:
        level = {"0": top + HIGH, "1": top}
        points = [f"{self.at[k]:g},{level[run.value]}" for run in runs_of(row.cells) for k in (run.first, run.behind)]
        yield f'<polyline class="line" points="{" ".join(points)}"/>'

    def _words(self, row: Row, top: int) -> Iterator[str]:
        for run in runs_of(row.cells):
            a, b, middle = self.at[run.first], self.at[run.behind], top + HIGH / 2
            points = [(a, middle), (a + 5, top), (b - 5, top), (b, middle), (b - 5, top + HIGH), (a + 5, top + HIGH)]
            yield f'<polygon class="box" points="{" ".join(f"{x:g},{y:g}" for x, y in points)}"/>'
            yield text_at((a + b) / 2, top + HIGH - 4, run.value, ' text-anchor="middle"')

    def _loop(self) -> Iterator[str]:
        if self.trace.loop is None:
            return
        y = self.low + 8
        a, b = self.middle(self.trace.loop), self.middle(self.count - 1)
        if a == b:
            a, b = a - LEAST / 4, b + LEAST / 4
        yield f'<polyline class="loop" points="{b:g},{y} {b:g},{y + 12} {a:g},{y + 12} {a:g},{y + 2}"/>'
        yield f'<polygon class="tip" points="{a:g},{y - 3} {a - 4:g},{y + 4} {a + 4:g},{y + 4}"/>'

    def _veil(self) -> Iterator[str]:
        if self.end is not None and self.end + 1 < self.count:
            first = self.at[self.end + 1]
            yield f'<rect class="veil" x="{first:g}" y="4" width="{self.at[-1] - first:g}" height="{self.low - 4:g}"/>'

    def drawn(self) -> str:
        parts = list(self._states())
        for place, row in enumerate(self.rows):
            top = LANE * (place + 1) + GAP
            parts.append(text_at(LEFT, top + HIGH - 3, row.name, "" if row.kind == "variable" else ' class="kind"'))
            parts += self._bits(row, top) if row.is_bit else self._words(row, top)
        parts += [*self._veil(), *self._loop()]
        width, height = self.at[-1] + 12, self.low + 36
        return (
            f'<svg xmlns="http://www.w3.org/2000/svg" role="img" width="{width:g}" height="{height}" '
            f'viewBox="0 0 {width:g} {height}">\n<title>{html.escape(self.title)}</title>\n<style>{STYLE}</style>\n'
            '<rect width="100%" height="100%" fill="white"/>\n' + "\n".join(parts) + "\n</svg>\n"
        )
