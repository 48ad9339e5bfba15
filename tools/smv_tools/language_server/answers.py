"""What the server answers to each request on a text, from the text alone and the last check of it."""
from __future__ import annotations

from collections.abc import Callable

from ..layout.layout import laid_out
from ..reading import SyntaxFault
from ..source import MOST_BYTES
from ..tokens import LexFault
from .checks import Result
from .completion import Choice, Completion
from .documents import Document, utf8
from .hover import Hover
from .outline import Role
from .problems import Problem, Rewrite
from .protocol import Json
from .symbols import symbols_of

# The kinds of the protocol for what can be chosen: of names, and of a reserved word.
CHOICE_KINDS = {Role.MODULE: 9, Role.PARAMETER: 6, Role.VARIABLE: 6, Role.INSTANCE: 6, Role.PROCESS: 6,
                Role.DEFINITION: 21, Role.CONSTANT: 20}
WORD_KIND = 14
SOURCE = "smv"


def diagnostic(document: Document, problem: Problem) -> Json:
    found = {"range": document.range(problem.first, problem.behind), "severity": int(problem.severity), "code": problem.code,
             "source": SOURCE, "message": problem.text}
    if problem.related:
        found["relatedInformation"] = [{"location": document.location(it.first, it.behind), "message": it.text}
                                       for it in problem.related]
    return found


def diagnostics(result: Result) -> list[Json]:
    return [diagnostic(result.document, problem) for problem in result.problems]


def hover(document: Document, params: Json, result: Result | None) -> Json:
    outline = document.outline
    place = outline.token_at(document.offset(params["position"]))
    if place is None:
        return None
    report = result.report if result and result.document.text == document.text else None
    told = Hover(outline, report).at(place)
    if told is None:
        return None
    token = outline.tokens[place]
    return {"contents": {"kind": "markdown", "value": told}, "range": document.range(token.at, token.behind)}


def definition(document: Document, params: Json, _: Result | None) -> Json:
    outline = document.outline
    place = outline.token_at(document.offset(params["position"]))
    found = outline.symbols_at(place) if place is not None else []
    return [document.location(symbol.first, symbol.behind) for symbol in found]


def completion(document: Document, params: Json, _: Result | None) -> Json:
    choices = Completion(document.outline, document.offset(params["position"])).choices()
    return {"isIncomplete": False, "items": [choice_json(choice) for choice in choices]}


def choice_json(choice: Choice) -> Json:
    found: Json = {"label": choice.text, "kind": CHOICE_KINDS[choice.role] if choice.role else WORD_KIND}
    if choice.detail:
        found["detail"] = choice.detail
    return found


def document_symbols(document: Document, _: Json, __: Result | None) -> Json:
    return symbols_of(document)


def formatting(document: Document, _: Json, __: Result | None) -> Json:
    """One edit, of the lines that change; none where the text is no program or changes nothing."""
    old = document.source.text
    if len(old) > MOST_BYTES:
        return []
    try:
        new = laid_out(document.source)
    except (LexFault, SyntaxFault):
        return []
    if new == old:
        return []
    first, behind, text = changed_part(old, new)
    return [{"range": document.range(first, behind), "newText": utf8(text)}]


def changed_part(old: str, new: str) -> tuple[int, int, str]:
    """What has to be replaced, from a place to another, and by what: without the lines that both begin and end with."""
    before, after = old.split("\n"), new.split("\n")
    most = min(len(before), len(after)) - 1
    head = next((k for k in range(most) if before[k] != after[k]), most)
    tail = next((k for k in range(most - head) if before[-1 - k] != after[-1 - k]), most - head)
    first = sum(len(line) + 1 for line in before[:head])
    middle = "\n".join(before[head:len(before) - tail])
    return first, first + len(middle), "\n".join(after[head:len(after) - tail])


def edits_of(document: Document, rewrite: Rewrite) -> list[Json]:
    return [{"range": document.range(it.first, it.behind), "newText": utf8(it.text)} for it in rewrite.edits]


def touches(document: Document, problem: Problem, params: Json) -> bool:
    """Whether the lines of the range that is asked for and those of the problem meet."""
    found, asked = document.range(problem.first, problem.behind), params["range"]
    return bool(found["start"]["line"] <= asked["end"]["line"] and asked["start"]["line"] <= found["end"]["line"])


def code_actions(document: Document, params: Json, result: Result | None) -> Json:
    """The rewrites of problems there, where the text is still the one that was checked."""
    only = params.get("context", {}).get("only")
    wanted = only is None or any("quickfix" == it or it == "" for it in only)
    if result is None or result.document.text != document.text or not wanted:
        return []
    found = []
    for problem in result.problems:
        if touches(document, problem, params):
            for rewrite in problem.rewrites:
                found.append({"title": rewrite.title, "kind": "quickfix", "diagnostics": [diagnostic(document, problem)],
                              "edit": {"changes": {document.uri: edits_of(document, rewrite)}}})
    return found


Answer = Callable[[Document, Json, "Result | None"], Json]
ANSWERS: dict[str, Answer] = {
    "textDocument/hover": hover,
    "textDocument/definition": definition,
    "textDocument/completion": completion,
    "textDocument/documentSymbol": document_symbols,
    "textDocument/formatting": formatting,
    "textDocument/codeAction": code_actions,
}
