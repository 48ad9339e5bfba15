"""Punctuation that is missing or too much where a token can't follow (E4), and reserved words as names."""
from __future__ import annotations

from ..tokens import KEYWORDS, SECTIONS
from .marks import Edit, Finding, Mark
from .places import HEADS, Place

CLOSING = {"(": ")", "[": "]", "{": "}"}


def open_brackets(place: Place) -> list[int]:
    """The brackets and `case`s of the section that are still open before the token, the outermost first."""
    found: list[int] = []
    for at in range(place.section, place.at):
        text = place.tokens[at].text
        if text in CLOSING or text == "case":
            found.append(at)
        elif found and (text == "esac" or text == CLOSING.get(place.tokens[found[-1]].text)):
            found.pop()
    return found


def begins_statement(place: Place) -> bool:
    """Whether something new begins at the token: a section, a declaration, an assignment, or nothing more."""
    return place.ends or place.text() in (*HEADS, "esac", "next", "init") or place.is_name()


def assigns(place: Place) -> Finding | None:
    """`=` or `:` for `:=`, and `=` for `:`."""
    if place.wanted == "`:=`" and place.text() in ("=", ":", "=="):
        if place.text() == ":" and place.text(1) == "=":
            return place.found("`:=` is one sign.", Edit(place.token().at, place.token(1).behind, ":="), last=1)
        return place.found("An assignment and a definition have `:=`.", place.replace(0, ":="))
    if place.wanted == "`:`" and place.text() in ("=", ":="):
        kind = "A declaration" if place.tokens[place.section].text == "VAR" and not open_brackets(place) else "An arm of a `case`"
        if kind == "A declaration":
            return place.found("A declaration has `:` between name and type.", place.replace(0, ":"))
    return None


def reserved(place: Place) -> Finding | None:
    """A reserved word where a name is wanted."""
    word = place.text()
    declares = place.text(1) in (":", ":=") and place.tokens[place.section].text in ("VAR", "DEFINE", "ASSIGN")
    inside = place.text(-1) in ("(", ",", ".") and place.wanted.startswith(("a name", "`)`"))
    if word not in KEYWORDS or word in ("TRUE", "FALSE") or not (declares or inside or place.wanted.startswith("a name")):
        return None
    new, count = f"{word}1", 1
    while new in place.words:
        count += 1
        new = f"{word}{count}"
    edits = [place.replace(0, new)]
    edits += [Edit(it.at, it.behind, new) for k, it in enumerate(place.tokens) if it.text == word and k != place.at
              and not_its_own(place, k)]
    return place.found(f"`{word}` is a reserved word, and no name: `{new}` is one.", *edits)


def not_its_own(place: Place, at: int) -> bool:
    """Whether a reserved word stands at that token where it isn't meant as one: it is renamed with the name."""
    word = place.tokens[at].text
    follows = place.tokens[at + 1].text if at + 1 < len(place.tokens) else ""
    if word in ("A", "E"):
        return follows != "["
    return word not in ("U", *SECTIONS, "MODULE", "case", "esac", "of", "array", "in", "union", "mod", "next", "init", "boolean",
                        "process", "running")


def missing_esac(place: Place) -> Finding | None:
    """A `case` that is still open where something else begins."""
    brackets = open_brackets(place)
    if not brackets or place.tokens[brackets[-1]].text != "case":
        return None
    ends_here = place.ends or place.text() in HEADS
    if not ends_here and place.text() != ":=":
        return None
    last = place.at - 1
    while last > brackets[-1] and place.tokens[last].text != ";":
        last -= 1
    if last == brackets[-1]:
        return None
    behind = place.tokens[last].behind
    line = place.tokens[brackets[-1]].line
    mark = [Mark(behind - 1, behind)]
    return Finding([*([] if place.ends else [place.mark()]), *mark],
                   [f"The `case` of line {line} has no `esac`."], [Edit(behind, behind, " esac;")])


def missing_bracket(place: Place) -> Finding | None:
    brackets = open_brackets(place)
    if not brackets or place.tokens[brackets[-1]].text == "case" or place.wanted == "an expression":
        return None
    if place.is_name() and place.token().line == place.token(-1).line:
        return None
    if not (begins_statement(place) or place.text() in (";", ")", "]", "}", ":", ":=")):
        return None
    closing = []
    while brackets and place.tokens[brackets[-1]].text in CLOSING:
        sign = CLOSING[place.tokens[brackets.pop()].text]
        if place.text() == sign:
            break
        closing.append(sign)
    if not closing:
        return None
    text, behind = "".join(closing), place.last_behind
    return Finding([*([] if place.ends else [place.mark()]), Mark(behind - 1, behind)],
                   [f"`{text}` is missing before it." if not place.ends else f"`{text}` is missing."],
                   [Edit(behind, behind, text)])


def extra_bracket(place: Place) -> Finding | None:
    if place.text() not in (")", "]", "}") or any(place.tokens[k].text in CLOSING for k in open_brackets(place)):
        return None
    return place.found(f"No bracket is open that `{place.text()}` would close.", place.replace(0, ""))


def extra_semicolon(place: Place) -> Finding | None:
    if place.text() != ";":
        return None
    if place.text(-1) in (";", *HEADS) or place.tokens[place.section].text == "MODULE" or place.wanted.startswith("a section"):
        return place.found("This semicolon ends nothing.", place.replace(0, ""))
    return None


def missing_semicolon(place: Place) -> Finding | None:
    if place.wanted != "`;`" or not begins_statement(place):
        return None
    behind = place.last_behind
    return Finding([*([] if place.ends else [place.mark()]), Mark(behind - 1, behind, "")],
                   ["`;` is missing before it." if not place.ends else "`;` is missing."], [Edit(behind, behind, ";")])


def extra_comma(place: Place) -> Finding | None:
    if place.text(-1) != "," or place.text() not in (")", "}", "]"):
        return None
    return place.found("Nothing follows the comma.", place.replace(-1, ""), first=-1, last=-1)


FORMS = (assigns, missing_esac, missing_bracket, extra_bracket, extra_semicolon, extra_comma, missing_semicolon, reserved)
