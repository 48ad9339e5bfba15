"""The layout of a text: its tokens and comments on the lines that they have, with the white space that the examples have."""
from __future__ import annotations

from ..reading import ProgramReader
from ..source import Source
from ..tokens import Kind, tokens_of
from .items import MEMBER_SECTIONS, WHITE, Item, broken_cases, broken_sections, items_of
from .spacing import Spacing

STEP = 2
# Between a line's tokens and the comment behind them.
COMMENT_GAP = 2


class Line:
    """A line: its indentation and tokens, the comment behind them, whether an empty line stands before it."""

    def __init__(self, indent: int, empty_before: bool) -> None:
        self.indent, self.empty_before = indent, empty_before
        self.code: list[str] = []
        self.comment = ""

    @property
    def text(self) -> str:
        return " " * self.indent + "".join(self.code)


class Layout:
    """Puts tokens and comments on lines."""

    def __init__(self, items: list[Item]) -> None:
        self.items = items
        self.cases, self.sections = broken_cases(items), broken_sections(items)
        self.lines: list[Line] = []
        # The indentation of what is at work: of the section, its member, and an arm of each `case` of several lines.
        self.within: list[int] = []
        # Whether the next token begins what is at work, and whether members follow.
        self.begins, self.members = True, False
        # Of each `case` that is open the indentation of its line; nothing where it stands on one line.
        self.opened: list[int | None] = []
        self.spacing = Spacing()

    def all_lines(self) -> list[Line]:
        for place, item in enumerate(self.items):
            if item.kind is None:
                self._comment(place, item)
            else:
                self._token(place, item)
        return self.lines

    # ---- comments

    def _comment(self, place: int, item: Item) -> None:
        if not item.breaks and self.lines and not self.lines[-1].comment:
            self.lines[-1].comment = item.text
        else:
            self._begin_line(item, self._comment_indent(place, item))
            self.lines[-1].comment = item.text

    def _comment_indent(self, place: int, item: Item) -> int:
        """That of the token that follows; at the end of a section with members the comment says by its own where it belongs."""
        behind = next((at for at in range(place + 1, len(self.items)) if self.items[at].kind is not None), None)
        if behind is None or self.items[behind].is_section:
            return STEP if self.members and item.indented else 0
        if self.items[behind].text == "esac" and behind in self.cases:
            return self.within[-1]
        return self._indent(behind)

    # ---- tokens

    def _token(self, place: int, item: Item) -> None:
        alone = bool(self.lines) and bool(self.lines[-1].comment)
        if item.is_section:
            self.within, self.begins, self.members = [0], True, False
        space = self.spacing.space_before(item)
        if not self.lines or item.breaks or alone or self._must_break(place):
            self._begin_line(item, self._indent(place))
        elif space:
            self.lines[-1].code.append(" ")
        self.lines[-1].code.append(item.text)
        self._behind(place, item)

    def _must_break(self, place: int) -> bool:
        item = self.items[place]
        if item.is_section or place in self.cases and item.text == "esac":
            return True
        if not self.begins:
            return False
        if self.opened:
            return self.opened[-1] is not None
        return self.within[-1] == STEP and self._first_member(place)

    def _first_member(self, place: int) -> bool:
        return place > 0 and place - 1 in self.sections

    def _indent(self, place: int) -> int:
        item = self.items[place]
        if item.is_section or not self.within:
            return 0
        if item.kind is Kind.KEY and item.text == "esac" and self.opened and self.opened[-1] is not None:
            return self.opened[-1]
        return self.within[-1] + (0 if self.begins else STEP)

    def _begin_line(self, item: Item, indent: int) -> None:
        self.lines.append(Line(indent, bool(self.lines) and item.breaks > 1))

    def _behind(self, place: int, item: Item) -> None:
        """What holds for the token that comes next."""
        self.begins = False
        if item.is_section and item.text in MEMBER_SECTIONS:
            self.within, self.begins, self.members = [STEP], True, True
        elif item.kind is Kind.SIGN and item.text == ";":
            self.begins = True
        elif item.kind is Kind.KEY and item.text == "case":
            broken = place in self.cases
            indent = self.lines[-1].indent
            self.opened.append(indent if broken else None)
            self.within.append(indent + STEP if broken else self.within[-1])
            self.begins = True
        elif item.kind is Kind.KEY and item.text == "esac":
            self.opened.pop()
            self.within.pop()


def with_comments(lines: list[Line]) -> list[str]:
    """The lines. Comments behind tokens stand below one another on lines that follow one another with one indentation."""
    texts: list[str] = []
    block: list[Line] = []

    def put_block() -> None:
        width = max((len(line.text) for line in block), default=0) + COMMENT_GAP
        texts.extend(f"{line.text.ljust(width)}{line.comment}" for line in block)
        block.clear()

    for line in lines:
        beside = bool(line.code and line.comment)
        if block and (not beside or line.empty_before or line.indent != block[0].indent):
            put_block()
        texts.extend([""] * line.empty_before)
        if beside:
            block.append(line)
        else:
            texts.append(line.text + line.comment)
    put_block()
    return texts


def same_words(one: str, other: str) -> bool:
    """Whether two texts have the same tokens and comments in the same order."""
    left, right = (items_of(Source(text.encode("latin-1"))) for text in (one, other))
    return [(it.kind, it.text) for it in left] == [(it.kind, it.text) for it in right]


def laid_out(source: Source) -> str:
    """The text in its layout; LexFault or SyntaxFault where it is no program."""
    ProgramReader(tokens_of(source)).program()
    lines = with_comments(Layout(items_of(source)).all_lines())
    end = "\r\n" if source.text.partition("\n")[0].endswith("\r") else "\n"
    found = "".join(f"{line.rstrip(WHITE)}{end}" for line in lines)
    assert same_words(source.text, found), "the layout changes a token"
    return found
