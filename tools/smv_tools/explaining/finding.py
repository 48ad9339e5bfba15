"""What is wrong where the program refuses a text: the very place, and what to write."""
from __future__ import annotations

from collections.abc import Callable

from ..model import Model, Unreadable
from ..refusals import Refusal
from ..source import MOST_BYTES, Source
from ..tokens import LexFault, Token, tokens_of
from . import characters, comments, evaluated, named, operators, sections, shapes, static
from .marks import Edit, Finding, Mark, blank
from .places import HEADS, Ask, Place, cut_place

# Other tools' forms are tried first: one can look as if a sign were missing.
SYNTAX_FORMS = (*sections.FORMS, *operators.FORMS, sections.by_import, *shapes.FORMS)


def byte_fault(source: Source, _: Refusal, __: Ask) -> Finding:
    try:
        tokens_of(source)
    except LexFault as fault:
        if fault.code == "E2":
            return Finding([Mark(fault.at, fault.behind)])
        found = comments.comment_form(source, fault.at) or characters.byte_form(Place.of(source, fault.at), fault.at)
        return found or Finding([Mark(fault.at, fault.behind)])
    return Finding()


def syntax_fault(source: Source, refusal: Refusal, ask: Ask) -> Finding:
    token = cut_place(ask, source, refusal)
    found = syntax_form(source, token)
    if token is not None and not found.edits:
        found.passed = around(Place.of(source, token.at))
    return found


def around(place: Place) -> list[Edit]:
    """Takes away the statement, the assignment or the definition at the token; of a declaration the type is another."""
    tokens = place.tokens
    begin = place.at - 1
    while begin > place.section and tokens[begin].text != ";":
        begin -= 1
    end = place.at
    while end < len(tokens) and tokens[end].text != ";" and tokens[end].text not in HEADS:
        end += 1
    stated = tokens[place.section].text not in ("VAR", "ASSIGN", "DEFINE", "MODULE")
    first = tokens[begin].at if stated and begin == place.section else tokens[begin].behind
    behind = tokens[min(end, len(tokens) - 1)].at if end < len(tokens) and tokens[end].text in HEADS else tokens[end - 1].behind
    if end < len(tokens) and tokens[end].text == ";":
        behind = tokens[end].behind
    text = place.source.text[first:behind]
    if tokens[place.section].text == "VAR" and begin + 2 < len(tokens) and tokens[begin + 2].text == ":":
        first = tokens[begin + 2].behind
        return [Edit(first, behind, " boolean;" + blank(place.source.text[first:behind]))]
    return [Edit(first, behind, blank(text))] if text.strip() else []


def syntax_form(source: Source, token: Token | None) -> Finding:
    """The form that the token belongs to; the token alone where there is none."""
    place = Place.of(source, token.at if token else len(source.text))
    if place.text(-1) in HEADS and place.is_name(-1):
        # Behind declarations the word is read as a name.
        place = Place(source, place.tokens, place.at - 1)
    if token is not None:
        comment = comments.comment_form(source, token.at)
        if comment is not None:
            return comment
    for form in SYNTAX_FORMS:
        found = form(place) if not place.ends or form in AT_END else None
        if found is not None:
            return found
    if token is None:
        lacks = f", where {place.wanted} is wanted" if place.wanted else ""
        return Finding([], [f"The file ends inside a section{lacks}."])
    wanted = [f"Here {place.wanted} could stand, and not `{token.text}`."] if place.wanted else []
    return Finding([Mark(token.at, token.behind)], wanted)


# The forms that speak of the end of a file.
AT_END = (shapes.missing_esac, shapes.missing_bracket, shapes.missing_semicolon)


def depth_fault(source: Source, refusal: Refusal, ask: Ask) -> Finding:
    token = cut_place(ask, source, refusal)
    if token is None:
        return Finding()
    return Finding([Mark(token.at, token.behind)], ["Up to here the expression is 257 deep."])


# Of each code what tells the place, from the text.
OF_TEXT: dict[str, Callable[[Source, Refusal, Ask], Finding]] = {
    "E1": byte_fault, "E2": byte_fault, "E4": syntax_fault, "E5": depth_fault,
}
# From the modules as they are written, where the model need not be one.
OF_MODULES = {"E6": named.no_main, "E7": named.twice, "E8": named.unknown_module, "E9": named.recursive, "E10": named.arguments,
              "E14": named.reversed_range, "E16": static.limit}
# From the model.
OF_MODEL = {"E8": named.unknown, "E11": named.circular, "E12": named.constant, "E13": named.index, "E15": named.left_side,
            "E17": static.twice, "E18": static.beside, "E19": static.circle, "E20": static.next_stands, "E21": static.operates,
            "E22": static.bits, "E23": evaluated.fault}


def finding_of(source: Source, refusal: Refusal, ask: Ask) -> Finding:
    """What is told of the refusal; a finding without a place where it can't be found."""
    if len(source.data) > MOST_BYTES:
        return Finding()
    if refusal.code in OF_TEXT:
        return OF_TEXT[refusal.code](source, refusal, ask)
    try:
        if refusal.code in OF_MODULES:
            found = OF_MODULES[refusal.code](source, refusal)
            if found is not None:
                return found
        if refusal.code in OF_MODEL:
            return OF_MODEL[refusal.code](Model.of(source), refusal) or Finding()
    except (Unreadable, RecursionError):
        pass
    return Finding()
