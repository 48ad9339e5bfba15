"""Places of editors, in UTF-16 units and with more ends of lines, beside places of bytes."""
from __future__ import annotations

from hypothesis import given
from hypothesis import strategies as st

from smv_tools.language_server.documents import Document
from smv_tools.language_server.outline import Outline
from smv_tools.language_server.positions import Position, Positions
from smv_tools.source import Source

SIGNS = st.sampled_from(["a", " ", "-", "\u00e9", "\u2260", "\U0001d51e", "\n", "\r", "\r\n", "\x85", "\u2028", "\x0c"])
TEXTS = st.lists(SIGNS, max_size=30).map("".join)


def places_one_by_one(text: str) -> list[tuple[Position, int]]:
    """Of each sign that begins none within a pair of ends its position and its byte, counted sign by sign."""
    found, line, character, at = [], 0, 0, 0
    for k, sign in enumerate(text):
        inside = sign == "\n" and text[k - 1:k] == "\r"
        if not inside:
            found.append((Position(line, character), at))
        at += len(sign.encode())
        if sign == "\n" or sign == "\r" and text[k + 1:k + 2] != "\n":
            line, character = line + 1, 0
        elif sign != "\r":
            character += len(sign.encode("utf-16-le")) // 2
    return [*found, (Position(line, character), at)]


@given(TEXTS)
def test_places(text: str) -> None:
    positions = Positions(text)
    for position, at in places_one_by_one(text):
        assert positions.position_of(at) == position
        assert positions.offset_of(position) == at
    last = Position(text.count("\n") + text.count("\r") + 5, 3)
    assert positions.offset_of(last) == len(text.encode())
    assert positions.offset_of(Position(0, 10_000)) == len(text.split("\n")[0].split("\r")[0].encode())


def test_halves_of_signs() -> None:
    """A place within a sign is that of the sign; half a pair of units keeps the others' places."""
    positions = Positions("a\U0001d51eb")
    assert positions.offset_of(Position(0, 2)) == 1 and positions.offset_of(Position(0, 3)) == 5
    assert [positions.position_of(at).character for at in range(7)] == [0, 1, 1, 1, 1, 3, 4]
    assert Document("file:///m.smv", 1, "\ud835x").source.data.endswith(b"x")


@given(TEXTS, st.lists(st.tuples(st.integers(0, 30), st.integers(0, 30), TEXTS), max_size=4))
def test_changes_one_after_the_other(text: str, edits: list[tuple[int, int, str]]) -> None:
    """Changes of ranges give the text that changes of strings do."""
    document, wanted, changes = Document("file:///m.smv", 1, text), text, []
    for first, behind, new in edits:
        places = places_one_by_one(wanted)
        (start, one), (end, two) = sorted((places[first % len(places)], places[behind % len(places)]), key=lambda it: it[1])
        changes.append({"range": {"start": vars(start), "end": vars(end)}, "text": new})
        data = wanted.encode()
        wanted = (data[:one] + new.encode() + data[two:]).decode()
    assert document.changed(2, changes).text == wanted


PARTS = st.lists(st.sampled_from(["MODULE ", "main", "m", "(", ")", "x", "y", ".", ":", ":=", ";", "VAR ", "ASSIGN ", "DEFINE ",
                                  "SPEC ", "case ", "esac ", "next", "init", "process ", "{", "}", "[", "]", "a", ",", "boolean ",
                                  "1", "99999999999", "@", "\u00e9", "-- c\n", "\n", " ", "U ", "E ", "AG "]), max_size=40)


@given(PARTS, st.integers(0, 200))
def test_a_text_that_is_being_written(parts: list[str], at: int) -> None:
    """Whatever stands there, it is read as far as it goes, and each name that is found stands at its place."""
    from smv_tools.language_server.completion import Completion
    from smv_tools.language_server.hover import Hover

    source = Source("".join(parts).encode())
    outline = Outline(source)
    Completion(outline, at % (len(source.text) + 1)).choices()
    for place in range(len(outline.tokens)):
        Hover(outline).at(place)
        for symbol in outline.symbols_at(place):
            assert source.text[symbol.first:symbol.behind] == symbol.name
