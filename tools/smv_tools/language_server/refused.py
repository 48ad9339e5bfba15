"""The very place of a refusal, with what to write instead: by the package `explaining`, or else by the tools' own reading."""
from __future__ import annotations

import importlib
import importlib.util

from ..reading import SyntaxFault, program_of
from ..refusals import Refusal
from ..source import Source
from ..tokens import LexFault, tokens_of
from .documents import utf8
from .problems import Ask, Edit, Problem, Related, Rewrite, Severity, line_span

EXPLAINING = "smv_tools.explaining"


def read_place(source: Source, refusal: Refusal) -> tuple[int, int, str]:
    """Where reading ends, where the program's reading ends on that line; else the line."""
    try:
        if refusal.code in ("E1", "E2"):
            tokens_of(source)
        elif refusal.code == "E4":
            program_of(source)
    except LexFault as fault:
        if fault.line == refusal.line:
            return fault.at, fault.behind, ""
    except SyntaxFault as found:
        if found.token is None and refusal.line == source.text.count("\n") + 1:
            return len(source.text), len(source.text), str(found)
        if found.token is not None and found.token.line == refusal.line:
            return found.token.at, found.token.behind, str(found)
    except RecursionError:
        pass
    return *line_span(source, refusal.line), ""


def explained(source: Source, refusal: Refusal, ask: Ask) -> Problem | None:
    """The refusal as `explain` has it; None where that package isn't there, or finds no place."""
    if importlib.util.find_spec(EXPLAINING) is None:
        return None
    finding = importlib.import_module(f"{EXPLAINING}.finding").finding_of(source, refusal, ask)
    rule = importlib.import_module(f"{EXPLAINING}.rules").RULES[refusal.code]
    sentences = " ".join(finding.sentences) or f"{rule.broken} {rule.instead}"
    marks = [(mark.first, mark.behind, mark.note) for mark in finding.marks] or [read_place(source, refusal)]
    edits = tuple(Edit(it.first, it.behind, it.text) for it in finding.edits)
    return Problem(
        marks[0][0], marks[0][1], Severity.ERROR, refusal.code, f"{rule.title}: {sentences}",
        [Related(first, behind, note or rule.title) for first, behind, note in marks[1:]],
        [Rewrite(title_of(source, edits), edits)] if edits else [],
    )


def title_of(source: Source, edits: tuple[Edit, ...]) -> str:
    """What a rewrite does, in one line."""
    if len(edits) != 1:
        return f"Write it in the checker's language ({len(edits)} places)"
    new, old = utf8(edits[0].text).strip(), utf8(source.text[edits[0].first:edits[0].behind]).strip()
    if not old:
        return f"Write `{new}`"
    return f"Write `{new}` in place of `{old}`" if new else f"Leave out `{old}`"


def by_import(source: Source) -> list[Rewrite]:
    """The text as `import` rewrites it, where the text has another tool's forms."""
    from ..imports.importer import imported
    from ..imports.tokens import Unread

    try:
        made = imported(source.text)
    except (Unread, RecursionError):
        return []
    if made.text == source.text or not made.changes:
        return []
    title = f"Rewrite the file from NuSMV's language ({len(made.changes)} changes)"
    return [Rewrite(title, (Edit(0, len(source.text), made.text),))]


def of_refusal(source: Source, refusal: Refusal, ask: Ask) -> Problem:
    found = explained(source, refusal, ask)
    if found is None:
        first, behind, told = read_place(source, refusal)
        words = " ".join(refusal.words)
        found = Problem(first, behind, Severity.ERROR, refusal.code, told or f"refused {refusal.code} {words}".strip())
    if refusal.code in ("E1", "E4"):
        found.rewrites += by_import(source)
    return found
