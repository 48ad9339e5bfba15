"""Bytes that begin no token (E1): signs of other tools and of typesetting, and names with other letters."""
from __future__ import annotations

import re

from ..tokens import KEYWORDS
from .marks import Edit, Finding, Mark
from .places import Place, uncommented

SIGNS = {
    "≠": "!=", "≤": "<=", "≥": ">=", "∧": "&", "∨": "|", "¬": "!", "→": "->", "⇒": "->", "↔": "<->", "⇔": "<->", "∈": "in",
    "∪": "union", "×": "*", "−": "-", "–": "-", "…": "..", "\u00a0": " ", "\ufeff": "", "～": "!", "~": "!", "%": "mod",
    "≡": "<->", "：": ":", "；": ";", "，": ",", "（": "(", "）": ")",
}
CALLED = {"\u00a0": "a space that doesn't break a line", "\ufeff": "a mark of the byte order"}
WORD = r"[A-Za-z0-9_$#@\\-]"


def sign_at(text: str, at: int) -> str:
    """The sign of UTF-8 that begins there, or else the byte."""
    for length in (1, 2, 3, 4):
        try:
            return text[at:at + length].encode("latin-1").decode()
        except UnicodeDecodeError:
            continue
    return text[at]


def other_sign(place: Place, offset: int) -> Finding | None:
    sign = sign_at(place.source.text, offset)
    if sign not in SIGNS:
        return None
    behind = offset + len(sign.encode())
    new, text = SIGNS[sign], place.source.text
    if new.isalpha():
        new = f"{'' if text[offset - 1:offset].isspace() else ' '}{new}{'' if text[behind:behind + 1].isspace() else ' '}"
    called = CALLED.get(sign, f"`{sign}`")
    written = f"`{SIGNS[sign]}` is written." if new.strip() else "It can be left out."
    if sign == "≠":
        begin, end = place.left(6), None
        end = place.right(6, 1 + len(sign.encode()) - 1)
        if begin is None or end is None:
            return None
        edits = [Edit(begin, begin, "!("), Edit(offset, behind, "="), Edit(end, end, ")")]
        return Finding([Mark(offset, behind)], ["`≠` is no sign here: unequal is written `!(a = b)`."], edits)
    return Finding([Mark(offset, behind)], [f"{called} is no sign here. {written}"], [Edit(offset, behind, new)])


def ternary(place: Place, offset: int) -> Finding | None:
    if place.text() != "?":
        return None
    begin, colon = place.left(1), None
    middle = place.right(1)
    if begin is not None and middle is not None:
        colon = next((it for it in place.tokens[place.at:] if it.at >= middle), None)
    if begin is None or colon is None or colon.text != ":":
        return place.found("`x ? y : z` is `case x : y; 1 : z; esac`.")
    end = place.right(1, place.tokens.index(colon) - place.at + 1)
    if end is None:
        return place.found("`x ? y : z` is `case x : y; 1 : z; esac`.")
    return place.found("There is no conditional with `?`: it is a `case`.", Edit(begin, begin, "case "),
                       place.replace(0, ":"), Edit(colon.at, colon.behind, "; 1 :") if before_space(place, colon.at) is None
                       else Edit(before_space(place, colon.at) or 0, colon.behind, "; 1 :"), Edit(end, end, "; esac"))


def before_space(place: Place, at: int) -> int | None:
    """Where the white space before the byte begins, on its line; none where there is none."""
    before = place.source.text[:at]
    bare = before.rstrip(" \t")
    return len(bare) if len(bare) < len(before) else None


def prime(place: Place, offset: int) -> Finding | None:
    """`x'` for the value after the step."""
    if place.text() != "'" or not place.is_name(-1) or place.last_behind != offset:
        return None
    first = place.token(-1).at
    return place.found("The value after a step is `next(x)`.", Edit(first, first, "next("), place.replace(0, ")"))


def other_name(place: Place, offset: int) -> Finding | None:
    """A name with a letter that none has: renamed wherever it stands."""
    text = place.source.text
    if text[offset] not in "_$#@\\":
        return None
    first = offset
    while first and re.match(WORD, text[first - 1]):
        first -= 1
    found = re.compile(rf"{WORD}+").match(text, first)
    if found is None or not re.search("[A-Za-z]", found[0]):
        return None
    old = found[0]
    new = re.sub(r"[$#@\\]+", "_", old).strip("-")
    new = new.lstrip("_") + "_" * (len(new) - len(new.lstrip("_")))
    while new in KEYWORDS or not new[0].isalpha() or new in place.words - {new.strip("_")}:
        new = new + "_" if new[0].isalpha() else "n" + new
    places = re.finditer(rf"(?<!{WORD}){re.escape(old)}(?!{WORD})", uncommented(text))
    edits = [Edit(it.start(), it.end(), new) for it in places]
    sentence = f"A name begins with a letter and has letters, digits, `_` and `-`: `{old}` can be `{new}`."
    return Finding([Mark(offset, offset + 1)], [sentence], edits)


FORMS = (other_sign, ternary, prime, other_name)


def byte_form(place: Place, offset: int) -> Finding | None:
    for form in FORMS:
        found = form(place, offset)
        if found is not None:
            return found
    return None
