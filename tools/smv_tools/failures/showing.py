"""What is shown of each specification: a path that shows its verdict where there is one, what it shows, or why there is none."""
from __future__ import annotations

from dataclasses import dataclass, field

from ..model import Item
from ..report import State, Trace, Verdict
from ..statuses import Stop
from ..syntax import written
from ..trace_files import TraceFile
from .asking import Asking, Unanswered
from .facts import Fact, Facts, Lasso
from .finding import Finder, NoPath
from .formulas import Formula, Leaf, all_of, conjuncts, formula_of, in_order, leaves_of, shows_something
from .writing import shown

# Where a path comes from.
OF_REPORT, OF_COPY = "report", "copy"


@dataclass
class Shown:
    """A specification with its verdict. `formula` is what its path shows; `why` says why there is none."""

    number: int
    item: Item
    verdict: str
    formula: Formula
    trace: Trace | None = None
    origin: str = OF_REPORT
    facts: Facts = field(default_factory=list)
    why: str = ""

    @property
    def text(self) -> str:
        """The specification as it is written."""
        return written(self.item.expr)

    @property
    def place(self) -> str:
        scope = "" if self.item.instance == "main" else f", instance {self.item.instance}"
        return f"line {self.item.line}{scope}"

    @property
    def has_path(self) -> bool:
        return self.trace is not None and self.trace.loop is not None

    @property
    def leaves(self) -> list[Leaf]:
        return leaves_of(self.formula)

    @property
    def marks(self) -> list[int]:
        """The states where it shows, in order."""
        return sorted({it.first for it in self.facts})

    @property
    def end(self) -> int | None:
        """The last state that matters; None where the loop does."""
        lasts = [it.last for it in self.facts]
        known = [it for it in lasts if it is not None]
        return max(known) if known and len(known) == len(lasts) else None

    @property
    def claim(self) -> str:
        """One line on what the path shows."""
        if not self.has_path:
            return self.why
        parts = "; ".join(map(str, merged(self.facts)))
        what = "why it is false" if self.verdict == "false" else "how it can be so"
        return f"The path shows {what}: {shown(self.formula)}{f'. {sentence(parts)}' if parts else ''}."

    @property
    def judged(self) -> str:
        """What judged the path."""
        if not self.has_path:
            return ""
        over = "" if self.origin == OF_REPORT else " over a copy of the model with the specification written for it"
        return f"`replay` accepts the path{over}."


def sentence(text: str) -> str:
    return text[:1].upper() + text[1:]


def merged(facts: Facts) -> list[Fact]:
    """Facts of one place and kind as one."""
    found: dict[tuple[int, int | None, str], Fact] = {}
    for it in facts:
        key = it.first, it.last, it.how
        other = found.get(key)
        found[key] = Fact(it.first, it.last, all_of([*conjuncts(other.formula), *conjuncts(it.formula)]), it.how) if other else it
    return list(found.values())


class Showing:
    """What is shown of the specifications of a model."""

    def __init__(self, asking: Asking) -> None:
        self.asking, self.model = asking, asking.model
        self.finder = Finder(asking)
        self._first: Trace | None = None

    def of(self, verdict: Verdict) -> Shown:
        """What is shown of the specification whose verdict this is."""
        if verdict.number > len(self.model.specs):
            raise Stop("the report is of another model")
        item = self.model.specs[verdict.number - 1]
        formula = in_order(formula_of(self.model, item.expr, item.scope, verdict.verdict == "true"))
        found = Shown(verdict.number, item, verdict.verdict, formula)
        if item.line != verdict.line:
            raise Stop("the report is of another text: its lines aren't those of the model")
        if verdict.verdict == "unknown":
            found.why = f"The node limit {verdict.limit} was met, so there is no verdict and no path."
            return found
        try:
            self._fill(found, verdict.trace)
        except NoPath as why:
            found.why = self._why(found, str(why))
        except Unanswered as why:
            found.why = f"No path is shown: {why}."
        return found

    def _fill(self, found: Shown, trace: Trace | None) -> None:
        if found.verdict == "true" and not shows_something(found.formula):
            raise NoPath("no one path shows it")
        if trace is None:
            trace = self.first()
            if trace is None:
                raise NoPath("there is no initial state")
            trace = Trace(trace.states[:1])
        self._wanted(trace.states[0])
        found.trace = trace
        if trace.loop is not None:
            self._judge(found.number, trace)
        else:
            path = self.finder.from_initial(found.formula, trace.states[0])
            found.trace, found.origin = path.trace, OF_COPY
        found.facts = Lasso(found.trace, self.asking).facts(found.formula)

    def _judge(self, number: int, trace: Trace) -> None:
        """Stop where `replay` doesn't accept the path of a report."""
        answer = self.asking.judged(self.model.source.data, TraceFile(number, trace))
        if answer != f"trace {number} accepted":
            raise Stop(f"the report has a path that isn't one of this model: {answer}")

    def first(self) -> Trace | None:
        """The least initial state."""
        if self._first is None:
            self._first = self.asking.first()
        return self._first

    def _wanted(self, state: State) -> None:
        if list(state) != [it.name for it in self.model.variables]:
            raise Stop("the report is of another model: its variables aren't those of the model")

    def _why(self, found: Shown, why: str) -> str:
        if why != "no one path shows it":
            return f"No path is shown: {why}."
        if found.verdict == "true":
            return f"It is so on every path, so no one path shows it: {shown(found.formula)}."
        return f"No one path shows it. State 0 is the least initial state at which it is false, for there {shown(found.formula)}."

