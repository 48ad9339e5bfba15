"""What is told of the word under the pointer."""
from __future__ import annotations

from ..modules import Declaration, InstanceType
from ..report import Report, Trace, Verdict
from ..syntax import written
from ..tokens import KEYWORDS
from .documents import utf8
from .keywords import MEANINGS, NO_MEANING
from .outline import Outline, Role, Symbol

# So many flat names, states and values are told.
MOST_NAMES = 6
MOST_STATES = 12
MOST_SIGNS = 2000


def fenced(text: str) -> str:
    """A piece of a model."""
    return f"```smv\n{text if len(text) <= MOST_SIGNS else text[:MOST_SIGNS] + ' ..'}\n```"


def listed(names: list[str]) -> str:
    shown = ", ".join(f"`{name}`" for name in names[:MOST_NAMES])
    return shown + (f" and {len(names) - MOST_NAMES} more" if len(names) > MOST_NAMES else "")


class Hover:
    def __init__(self, outline: Outline, report: Report | None = None) -> None:
        self.outline, self.report = outline, report

    def at(self, place: int) -> str | None:
        """What is told of the token, in Markdown."""
        token = self.outline.tokens[place]
        if token.text in KEYWORDS:
            verdicts = self.verdicts(token.line) if token.text == "SPEC" else []
            return "\n\n".join([*verdicts, MEANINGS.get(token.text, NO_MEANING)])
        told = [self.symbol(it) for it in self.outline.symbols_at(place)[:MOST_NAMES]]
        return "\n\n---\n\n".join(told) or None

    # ---- names

    def symbol(self, symbol: Symbol) -> str:
        if symbol.role is Role.MODULE:
            return self.module(symbol)
        if symbol.role is Role.PARAMETER:
            return self.parameter(symbol)
        assert symbol.node is not None
        code = fenced(utf8(self.outline.source.text[symbol.node.first:symbol.node.behind].rstrip(";")))
        if symbol.role is Role.CONSTANT:
            return f"A value of `{symbol.node.name}` of module `{symbol.module.name}`.\n\n{code}"
        called = {Role.VARIABLE: "Variable", Role.DEFINITION: "Definition", Role.INSTANCE: "Instance", Role.PROCESS: "Process"}
        told = f"{called[symbol.role]} of module `{symbol.module.name}`{self.flat(symbol)}."
        return "\n\n".join([code, told, *self.handed(symbol)])

    def flat(self, symbol: Symbol) -> str:
        """The flat names, where they tell more than the name."""
        names = self.outline.flat_names(symbol.module, symbol.name)
        if not names:
            return ", of which there is no instance"
        return "" if names == [symbol.name] else f": {listed(names)}"

    def handed(self, symbol: Symbol) -> list[str]:
        """What the parameters of an instance stand for."""
        kind = symbol.node.type if isinstance(symbol.node, Declaration) else None
        module = self.outline.by_name.get(kind.module) if isinstance(kind, InstanceType) else None
        if module is None or not module.formals or not isinstance(kind, InstanceType):
            return []
        return ["\n".join(f"- `{formal}` is `{utf8(written(actual))}`" for formal, actual in zip(module.formals, kind.actuals))]

    def module(self, symbol: Symbol) -> str:
        module = symbol.module
        formals = f"({', '.join(module.formals)})" if module.formals else ""
        names = self.outline.instances.get(module.name, [])
        if module.name == "main":
            told = "The program."
        else:
            told = f"{len(names)} instance{'s' * (len(names) != 1)}{': ' + listed(names) if names else ''}."
        return f"{fenced(f'MODULE {module.name}{formals}')}\n\n{told}"

    def parameter(self, symbol: Symbol) -> str:
        uses = self.outline.actuals_of(symbol)
        lines = [f"- in `{it.name}` of module `{caller.name}` it is `{utf8(written(actual))}`"
                 for caller, it, actual in uses[:MOST_NAMES]]
        if len(uses) > MOST_NAMES:
            lines.append(f"- and {len(uses) - MOST_NAMES} more")
        return "\n".join([f"Parameter `{symbol.name}` of module `{symbol.module.name}`.", "", *lines]).rstrip()

    # ---- specifications

    def verdicts(self, line: int) -> list[str]:
        """The verdicts of the last check on the specifications of this line, with a path of each false one."""
        parts = [part for part in self.report.parts if part.line == line] if self.report else []
        return [self.verdict(part) for part in parts[:MOST_NAMES]]

    def verdict(self, part: Verdict) -> str:
        more = f": the node limit {part.limit} is met" if part.limit is not None else ""
        told = f"Specification {part.number}: **{part.verdict}**{more}"
        return f"{told}\n\n{path_table(part.trace)}" if part.trace else told


def path_table(trace: Trace) -> str:
    """The path, one line for each state: of state 0 all values, of the others what changes."""
    lines = []
    for k, state in enumerate(trace.states[:MOST_STATES]):
        values = [f"{name} = {value}" for name, value in state.items() if k == 0 or trace.changed(k, name)]
        lines.append(f"{k}: {', '.join(values) or 'nothing changes'}")
    if len(trace.states) > MOST_STATES:
        lines.append(f".. up to state {len(trace.states) - 1}")
    if trace.loop is not None:
        lines.append(f"state {trace.loop} again, for ever")
    return "```\n" + "\n".join(lines) + "\n```"
