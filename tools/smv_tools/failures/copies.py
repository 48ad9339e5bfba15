"""Copies of a model with other specifications: the same states, the same steps, and the lines where they were."""
from __future__ import annotations

from collections.abc import Iterable
from dataclasses import dataclass, field

from ..model import Model
from ..modules import Module
from ..report import State
from .writing import pinned, runs_name


@dataclass
class Copy:
    """A copy without the model's own specifications: what main gets behind the rest. `start` is a state that is the only
    initial one there; with `anywhere` each state is initial."""

    model: Model
    specs: list[str] = field(default_factory=list)
    more: list[str] = field(default_factory=list)
    start: State | None = None
    anywhere: bool = False

    def added(self) -> str:
        """What stands behind the rest of main."""
        begin = [f"INIT {pinned(self.model, self.start)}"] if self.start is not None else []
        return " ".join([*self.more, *begin, *(f"SPEC {it}" for it in self.specs)])

    def text(self) -> bytes:
        """The copy. What is left out of the model is blank there."""
        model = self.model
        gone = [(it.first, it.behind) for it in model.specs]
        if self.start is not None or self.anywhere:
            gone += [(it.first, it.behind) for it in model.statements("INIT")]
            gone += [(it.first, it.behind) for it in model.assignments if it.part == "init"]
        put = {module.behind: f" DEFINE {runs_name(model)} := running;" for module in process_modules(model)}
        main = model.modules["main"].behind
        put[main] = f"{put.get(main, '')} {self.added()} "
        return edited(model.source.text, gone, put).encode("latin-1")


def process_modules(model: Model) -> list[Module]:
    """The modules of which a process is declared."""
    names = {it.module.name for it in model.scopes if it.name and it.process == it.name}
    return [model.modules[name] for name in sorted(names)]


def edited(text: str, gone: Iterable[tuple[int, int]], put: dict[int, str]) -> str:
    """The text with spaces in these places, but for line feeds, and with what is put behind others."""
    for first, behind in set(gone):
        blank = "".join(sign if sign == "\n" else " " for sign in text[first:behind])
        text = text[:first] + blank + text[behind:]
    parts, at = [], 0
    for place in sorted(put):
        parts += [text[at:place], put[place]]
        at = place
    return "".join([*parts, text[at:]])
