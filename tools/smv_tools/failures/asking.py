"""What the program says of copies of a model."""
from __future__ import annotations

from collections.abc import Sequence

from ..model import Model
from ..program import Program
from ..report import Report, State, Trace
from ..statuses import DECIDED, UNDECIDED, Stop
from ..trace_files import TraceFile
from .copies import Copy
from .formulas import Formula
from .writing import ctl, pinned

MOST_SPECS = 256


class Unanswered(Stop):
    """The program gave no verdict over a copy: the node limit was met, or it found no memory."""


class Asking:
    """Runs of the program over copies of a model, with these options. `runs` counts them."""

    def __init__(self, model: Model, program: Program, options: Sequence[str] = ()) -> None:
        self.model, self.program, self.options = model, program, list(options)
        self.runs = 0
        self._answers: dict[Formula, dict[tuple[object, ...], bool]] = {}

    def report(self, copy: Copy) -> Report:
        """The report over a copy, all of it decided."""
        self.runs += 1
        ended = self.program.on_text(copy.text(), options=self.options)
        if ended.status not in DECIDED:
            raise Unanswered(f"the program gave no report over a copy: {ended.put.decode(errors='replace').strip()}", UNDECIDED)
        report = ended.report
        if report.count("unknown"):
            raise Unanswered("the node limit was met over a copy of the model", UNDECIDED)
        return report

    def path(self, copy: Copy) -> Trace | None:
        """What the report has below the first specification of the copy, where that is false: without the copy's own
        variables."""
        found = self.report(copy).parts[0].trace
        return Trace([self.without(it) for it in found.states], found.loop) if found else None

    def without(self, state: State) -> State:
        return {name: value for name, value in state.items() if name in self.model.variable}

    def first(self) -> Trace | None:
        """The least initial state, and a fair path from it; None where there is no initial state."""
        return self.path(Copy(self.model, ["0"]))

    def fair_path(self, state: State) -> Trace:
        """A fair path from the state; without a loop where there is none."""
        found = self.path(Copy(self.model, ["0"], start=state))
        return found or Trace([state])

    def all_hold(self, states: Sequence[State], formula: Formula) -> list[bool]:
        """Whether the formula holds at each of the states, by verdicts over a copy where each state is initial."""
        known = self._answers.setdefault(formula, {})
        keys = [tuple(it.values()) for it in states]
        fresh = {key: state for key, state in zip(keys, states) if key not in known}
        text = ctl(self.model, formula)
        items = list(fresh.items())
        for at in range(0, len(items), MOST_SPECS):
            some = items[at:at + MOST_SPECS]
            specs = [f"{pinned(self.model, state)} -> {text}" for _, state in some]
            parts = self.report(Copy(self.model, specs, anywhere=True)).parts
            known.update({key: part.verdict == "true" for (key, _), part in zip(some, parts)})
        return [known[key] for key in keys]

    def holds(self, state: State, formula: Formula) -> bool:
        return self.all_hold([state], formula)[0]

    def refused(self, specs: Sequence[str], trace: Trace) -> str:
        """What `replay` says first against the path as one that falsifies these specifications of a copy; nothing where it
        accepts it for each."""
        text = Copy(self.model, list(specs)).text()
        answers = (self.judged(text, TraceFile(number, trace)) for number in range(1, len(specs) + 1))
        return next((it for it in answers if not it.endswith(" accepted")), "")

    def judged(self, text: bytes, path: TraceFile) -> str:
        """The line that `replay` puts for a path over a text."""
        self.runs += 1
        ended = self.program.on_text(text, "replay", ["path"], self.options, {"path": path.put()})
        return ended.put.decode(errors="replace").strip()
