"""Sections and types of other tools where a token can't follow (E4), as those of the language."""
from __future__ import annotations

import re

from ..imports.changes import KEPT, LEFT_OUT
from ..imports.grammar import NUSMV, Unread
from ..imports.importer import imported
from ..tokens import SECTIONS, Kind
from .marks import Edit, Finding
from .places import HEADS, Place

WORDS = {"CTLSPEC": "SPEC", "JUSTICE": "FAIRNESS", "IVAR": "VAR", "SPECIFICATION": "SPEC", "VARIABLES": "VAR"}
IVAR = "A variable without assignments is free at each step; it is part of the state here."
# Sections that another command asks in place of, and what to do.
ASKED = {
    "COMPUTE": "`COMPUTE` is no section here. Write a specification for each of the two, and ask `smv delay MODEL I J`.",
    "COMPASSION": "Strong fairness is no section here. Write a specification for each of the two, and ask `smv strong MODEL I:J`.",
    "CONSTANTS": "A constant is a value of some type here: `VAR colour : {red, green};`.",
    "PSLSPEC": "Specifications are formulas of CTL, in `SPEC`.",
    "INPUT": "Inputs are parameters of the module: `MODULE cell(x)`.",
    "OUTPUT": "An output is a variable or a definition: others name it as `p.x`.",
    "self": "There is no `self`: hand over the variables that the module needs.",
    "ISA": "There is no `ISA`: write what the other module has, or an instance of it.",
}
WORD_TYPE = re.compile(r"(?:unsigned\s+)?word\s*\[\s*(\d+)\s*\]")
MOST_BITS = 10
MOST_INSTANCES = 16


def section_end(place: Place, begin: int) -> int:
    """The place behind the section that begins at this token."""
    end = begin + 1
    while end < len(place.tokens) and place.tokens[end].text not in HEADS and place.tokens[end - 1].text != ";":
        end += 1
    return place.tokens[end - 1].behind


def other_word(place: Place) -> Finding | None:
    new = WORDS.get(place.text())
    if new is None:
        return None
    sentence = f"`{place.text()}` is no section here: `{new}` is."
    return place.found(f"{sentence} {IVAR}" if place.text() == "IVAR" else sentence, place.replace(0, new))


def lower_case(place: Place) -> Finding | None:
    """A section's word in small letters is a name."""
    for distance in (0, -1):
        new = place.text(distance).upper()
        wanted = place.wanted.startswith(("a section", "`MODULE`"))
        if place.is_name(distance) and new in (*SECTIONS, "MODULE") and (distance == 0) == wanted:
            return place.found(f"`{new}` is written in capitals: `{place.text(distance)}` is a name.",
                               place.replace(distance, new), first=distance, last=distance)
    return None


def invariant(place: Place) -> Finding | None:
    if place.text() != "INVARSPEC":
        return None
    sentence = "An invariant is a specification with `AG`, which speaks of states on fair paths."
    end = place.right(1)
    if end is None:
        return place.found(sentence, place.replace(0, "SPEC AG"))
    first = place.token(1)
    return place.found(sentence, place.replace(0, "SPEC AG"), Edit(first.at, first.at, "("), Edit(end, end, ")"))


def named(place: Place) -> Finding | None:
    """`SPEC NAME rises := AG x`."""
    at = next((k for k in (-2, -1, 0) if place.text(k) == "NAME" and place.text(k + 2) == ":="), None)
    if at is None:
        return None
    return place.found("A specification has no name: reports name it by its number and line.",
                       Edit(place.token(at).at, place.token(at + 3).at, ""), first=at, last=at + 2)


def frozen(place: Place) -> Finding | None:
    if place.text() not in ("FROZENVAR", "FROZEN"):
        return None
    sentence = "A variable that keeps its value says so: `next(x) := x`."
    edits, at = [place.replace(0, "VAR")], place.at + 1
    names, last = [], place.token().behind
    while at + 2 < len(place.tokens) and place.tokens[at].kind is Kind.NAME and place.tokens[at + 1].text == ":":
        names.append(place.tokens[at].text)
        while at < len(place.tokens) and place.tokens[at].text != ";":
            at += 1
        last = place.tokens[min(at, len(place.tokens) - 1)].behind
        at += 1
    assigned = " ".join(f"next({name}) := {name};" for name in names)
    return place.found(sentence, *edits, Edit(last, last, f" ASSIGN {assigned}"))


def asked(place: Place) -> Finding | None:
    text = ASKED.get(place.text())
    if place.text() == "[" and place.wanted == "an expression":
        text = "There are no values of arrays: each element is assigned, as `init(a[0]) := 0;`."
    return None if text is None else place.found(text)


def by_import(place: Place) -> Finding | None:
    """The whole section as `import` writes it: LTL that is CTL, bounded operators, functions."""
    begin = place.at if place.text() in HEADS else place.section
    first, behind = place.tokens[begin].at, section_end(place, begin)
    old = place.source.text[first:behind]
    if place.tokens[begin].text in ("VAR", "MODULE", "ASSIGN", "DEFINE"):
        return None
    try:
        made = imported("MODULE main\n" + old, NUSMV)
    except (Unread, RecursionError):
        return None
    told = [str(change) for change in made.changes if change.kind in (KEPT, LEFT_OUT)]
    if told:
        return place.found(told[0].partition(": ")[2] + ".")
    new = made.text.removeprefix("MODULE main\n")
    if new == old or new.count("\n") != old.count("\n"):
        return None
    sentence = "LTL is no part of the language; this formula is one of CTL." if place.text() == "LTLSPEC" else \
        "This form is another tool's; the language has no like of it but the one below."
    return place.found(sentence, Edit(first, behind, new))


# ---- declarations

def listed_names(place: Place) -> Finding | None:
    """`x, y : boolean;`."""
    if place.text() != "," or place.wanted != "`:`":
        return None
    names, at = [place.text(-1)], place.at
    while at + 1 < len(place.tokens) and place.tokens[at].text == ",":
        names.append(place.tokens[at + 1].text)
        at += 2
    end = next((k for k in range(at, len(place.tokens)) if place.tokens[k].text == ";"), None)
    if end is None or place.tokens[at].text != ":":
        return None
    kind = place.source.text[place.tokens[at + 1].at:place.tokens[end - 1].behind]
    new = " ".join(f"{name} : {kind};" for name in names)
    if "\n" in place.source.text[place.token(-1).at:place.tokens[end].behind]:
        return None
    return place.found("Each variable has a declaration of its own.",
                       Edit(place.token(-1).at, place.tokens[end].behind, new), first=-1, last=at - 1 - place.at)


def word_type(place: Place) -> Finding | None:
    first = place.token(-1).at if place.text(-1) in ("unsigned", "word") else None
    found = WORD_TYPE.match(place.source.text, first) if first is not None else None
    if found is None or first is None:
        return None
    sentence = "There are no words of bits: a range has their values, without the wrap of sums."
    bits = int(found[1])
    edits = [Edit(first, found.end(), f"0..{(1 << bits) - 1}")] if bits <= MOST_BITS else []
    return place.found(sentence, *edits, first=-1, last=-1)


def end_of_range(place: Place) -> Finding | None:
    """The name of a definition, or arithmetic, where a range ends."""
    tokens, at = place.tokens, place.at
    if place.is_name() and place.wanted == "a number" or place.is_name() and place.text(1) == "..":
        found = re.search(rf"\b{re.escape(place.text())}\s*:=\s*(\d+)\s*;", place.source.text)
        sentence = "The ends of a range are numbers."
        return place.found(sentence, place.replace(0, found[1])) if found else place.found(sentence)
    if place.text() not in ("+", "-", "*") or place.text(-2) not in ("..", "-"):
        return None
    begin = at - 1
    behind = at
    while behind + 1 < len(tokens) and tokens[behind].text in ("+", "-", "*") and tokens[behind + 1].kind is Kind.NUMBER:
        behind += 2
    text = place.source.text[tokens[begin].at:tokens[behind - 1].behind]
    if behind == at or not re.fullmatch(r"[0-9+*\s-]+", text) or len(text) > 40 or "*" in text and "+" in text:
        return place.found("The ends of a range are numbers.")
    value = sum_of(text)
    return place.found("The ends of a range are numbers.", Edit(tokens[begin].at, tokens[behind - 1].behind, str(value)),
                       first=-1, last=behind - 1 - at)


def sum_of(text: str) -> int:
    """The value of numbers with + - and * between them."""
    value = 0
    for sign, part in re.findall(r"([+-]?)([^+-]+)", "".join(text.split())):
        product = 1
        for factor in part.split("*"):
            product *= int(factor)
        value += -product if sign == "-" else product
    return value


def sign_in_type(place: Place) -> Finding | None:
    """`{-1, 0, 1}` as a type: its range where the numbers are without gaps."""
    open_at = next((k for k in range(place.at, -1, -1) if place.tokens[k].text in ("{", ";", ":")), 0)
    close = next((k for k in range(place.at, len(place.tokens)) if place.tokens[k].text in ("}", ";")), 0)
    if place.text() != "-" or place.tokens[open_at].text != "{" or place.tokens[open_at - 1].text != ":" or not close:
        return None
    sentence = "The values of a list have no sign; the ends of a range may."
    text = place.source.text[place.tokens[open_at].behind:place.tokens[close].at]
    parts = ["".join(part.split()) for part in text.split(",")]
    if not all(re.fullmatch(r"-?\d+", part) for part in parts) or "\n" in text:
        return place.found(sentence)
    numbers = sorted(set(map(int, parts)))
    if numbers[-1] - numbers[0] + 1 != len(numbers):
        return place.found(f"{sentence} Take {numbers[0]}..{numbers[-1]}, and leave out the others by INVAR.")
    return place.found(sentence, Edit(place.tokens[open_at].at, place.tokens[close].behind, f"{numbers[0]}..{numbers[-1]}"))


def instances(place: Place) -> Finding | None:
    """`p : array 0..1 of cell;` as an instance for each."""
    at = place.at - (1 if place.text(-1) == "process" else 0)
    if at < 7 or place.tokens[at - 1].text != "of" or not (place.is_name() or place.text() == "process"):
        return None
    name, colon, _, low, _, high = (it.text for it in place.tokens[at - 7:at - 1])
    sentence = "There are no arrays of instances: each has a name of its own."
    end = next((k for k in range(place.at, len(place.tokens)) if place.tokens[k].text == ";"), None)
    if colon != ":" or end is None or not (low.isdigit() and high.isdigit()) or int(high) - int(low) >= MOST_INSTANCES:
        return place.found(sentence)
    kind = place.source.text[place.tokens[at].at:place.tokens[end].behind]
    new = " ".join(f"{name}{k} : {kind}" for k in range(int(low), int(high) + 1))
    if "\n" in place.source.text[place.tokens[at - 7].at:place.tokens[end].behind]:
        return place.found(sentence)
    return place.found(sentence, Edit(place.tokens[at - 7].at, place.tokens[end].behind, new))


FORMS = (other_word, lower_case, invariant, named, frozen, asked, listed_names, word_type, end_of_range, sign_in_type, instances)
