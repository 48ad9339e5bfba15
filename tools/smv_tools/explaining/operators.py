"""Operators of other tools where a token can't follow (E4), as operators of the language."""
from __future__ import annotations

from ..syntax import LEVELS
from ..tokens import PATH_OPERATORS, Kind
from .lexing import end_of_operand
from .marks import Edit, Finding
from .places import Place

# Signs and words that have another sign here.
OTHER = {"==": "=", "&&": "&", "||": "|", "=>": "->", "<=>": "<->", "and": "&", "or": "|", "implies": "->", "iff": "<->",
         "xnor": "<->", "AND": "&", "OR": "|", "IN": "in", "MOD": "mod", "UNION": "union"}
# Of those that are a negation around another operator: that, and how tight the left and the right operand are.
NEGATED = {"!=": ("=", 5, 6), "<>": ("=", 5, 6), "xor": ("<->", 2, 3), "XOR": ("<->", 2, 3)}
NOT = ("not", "NOT")
# What speaks of one path, and what it is for all of them.
LINEAR = {"G": "AG", "F": "AF", "X": "AX"}
MOST_ELEMENTS = 64


def other_operator(place: Place) -> Finding | None:
    new = OTHER.get(place.text())
    if new is None:
        return None
    return place.found(f"`{place.text()}` is no operator here: `{new}` is.", place.replace(0, new))


def negated(place: Place) -> Finding | None:
    """`a != b` as `!(a = b)`, and `a xor b` as `!(a <-> b)`."""
    if place.text() not in NEGATED:
        return None
    new, left, right = NEGATED[place.text()]
    sentence = f"`{place.text()}` is no operator here: `a {place.text()} b` is `!(a {new} b)`."
    begin, end = place.left(left), place.right(right)
    if begin is None or end is None:
        return place.found(sentence)
    return place.found(sentence, Edit(begin, begin, "!("), place.replace(0, new), Edit(end, end, ")"))


def word_not(place: Place) -> Finding | None:
    """`not x` is read as two names."""
    if place.text(-1) not in NOT:
        return None
    end = place.right(4, 0)
    word = place.token(-1)
    gap = Edit(word.at, place.token().at, "!(") if place.token().line == word.line else None
    if end is None or gap is None:
        return place.found("`not` is no word here: `!` is.", first=-1, last=-1)
    return place.found("`not` is no word here: `!` is.", gap, Edit(end, end, ")"), first=-1, last=-1)


def if_then(place: Place) -> Finding | None:
    """`if c then a else b` as a `case`."""
    if place.text(-1) != "if":
        return None
    sentence = "There is no `if`: a `case` has the value of the first arm whose condition is 1."
    words = [place.token(-1)]
    for word in ("then", "else"):
        found = next((it for it in place.tokens[place.at:] if it.text in (word, ";")), None)
        if found is None or found.text != word:
            return place.found(sentence, first=-1, last=-1)
        words.append(found)
    end = end_of_operand(place.tokens, place.tokens.index(words[2]) + 1, 1)
    if end is None:
        return place.found(sentence, first=-1, last=-1)
    behind, last = place.tokens[end - 1].behind, words[2]
    gap = len(place.source.text[:last.at].rstrip(" \t"))
    return place.found(sentence, place.replace(-1, "case"), Edit(words[1].at, words[1].behind, ":"),
                       Edit(gap, last.behind, "; 1 :"), Edit(behind, behind, "; esac"), first=-1, last=-1)


def linear(place: Place) -> Finding | None:
    """`G x` is read as two names."""
    new = LINEAR.get(place.text(-1))
    if new is None or not (place.is_name() or place.text() in ("!", "(", "G", "F", "X", *PATH_OPERATORS)):
        return None
    sentence = f"`{place.text(-1)}` is a name here: a specification says by `A` or `E` of which paths it speaks, as `{new}`."
    return place.found(sentence, place.replace(-1, new), first=-1, last=-1)


def until_in_parentheses(place: Place) -> Finding | None:
    if place.text() != "(" or place.text(-1) not in ("A", "E"):
        return None
    sentence = f"`{place.text(-1)}` takes square brackets: `{place.text(-1)} [x U y]`."
    depth = 0
    for token in place.tokens[place.at:]:
        depth += {"(": 1, ")": -1}.get(token.text, 0)
        if depth == 0:
            return place.found(sentence, place.replace(0, "["), Edit(token.at, token.behind, "]"))
    return place.found(sentence)


def sign_of_number(place: Place) -> Finding | None:
    """`-1` as `(0 - 1)`, without parentheses where nothing before it binds as tightly."""
    if place.text() != "-" or not place.wanted.startswith("an expression"):
        return None
    end = place.right(10)
    sentence = "A number in an expression has no sign: it is a difference from 0."
    if end is None:
        return place.found(sentence)
    loose = LEVELS.get(place.text(-1), 0) < LEVELS["-"] and not place.text(1) == "("
    before = "" if loose else "("
    first = place.token()
    return place.found(sentence, Edit(first.at, first.behind, f"{before}0 - "), Edit(end, end, ")" if before else ""))


def range_as_set(place: Place) -> Finding | None:
    """`0..3` where values are meant."""
    if place.text() != ".." or place.at < 1 or place.text(-2) == ":" and place.tokens[place.section].text == "VAR":
        return None
    if place.token(-1).kind is not Kind.NUMBER or place.text(1) == "" or place.token(1).kind is not Kind.NUMBER:
        return None
    low, high = int(place.text(-1)), int(place.text(1))
    sentence = "A range is a type: as values of an expression they are listed in braces."
    if not low <= high < low + MOST_ELEMENTS:
        return place.found(sentence, first=-1, last=1)
    listed = ", ".join(map(str, range(low, high + 1)))
    bare = place.text(-2) in ("{", ",") and place.text(2) in ("}", ",")
    return place.found(sentence, Edit(place.token(-1).at, place.token(1).behind, listed if bare else f"{{{listed}}}"),
                       first=-1, last=1)


def next_without_parentheses(place: Place) -> Finding | None:
    if place.text(-1) not in ("next", "init") or place.wanted != "`(`":
        return None
    end = end_of_operand(place.tokens, place.at, 11)
    word = place.text(-1)
    if end is None:
        return None
    behind = place.tokens[end - 1].behind
    first = Edit(place.last_behind, place.token().at, "(") if place.token().line == place.token(-1).line else \
        Edit(place.token().at, place.token().at, "(")
    return place.found(f"`{word}` takes parentheses.", first, Edit(behind, behind, ")"), first=-1)


def equals_in_formula(place: Place) -> Finding | None:
    """`:=` where two values are compared."""
    if place.text() != ":=" or place.tokens[place.section].text in ("ASSIGN", "DEFINE", "VAR", "MODULE"):
        return None
    return place.found("`:=` assigns: equality is `=`.", place.replace(0, "="))


FORMS = (other_operator, negated, word_not, if_then, linear, until_in_parentheses, sign_of_number, range_as_set,
         next_without_parentheses, equals_in_formula)
