"""A text that is being written, read as far as it can be: what is no member of a section is left out."""
from __future__ import annotations

from collections.abc import Callable, Iterator

from ..modules import Member, Module, Section
from ..reading import ProgramReader, SyntaxFault
from ..source import Source
from ..tokens import PIECE, SECTIONS, Token, kind_of

MEMBER_SECTIONS = ("VAR", "ASSIGN", "DEFINE")


def tokens_there(source: Source) -> Iterator[Token]:
    """The tokens; bytes that begin none are left out."""
    at = 0
    while at < len(source.text):
        piece = PIECE.match(source.text, at)
        if piece is None:
            at += 1
            continue
        if piece["none"] is None:
            yield Token(kind_of(piece), piece[0], at, piece.end(), source.line_at(at), source.column_at(at))
        at = piece.end()


class TolerantReader(ProgramReader):
    """Reads modules; where no program goes on, it goes on behind the next semicolon or at the next section."""

    @property
    def section_follows(self) -> bool:
        return self.token is None or self.text == "MODULE" or self.text in SECTIONS

    def program(self) -> list[Module]:
        found = []
        while self.token is not None:
            if self.text == "MODULE":
                found.append(self.module())
            else:
                self.skip()
        return found

    def module(self) -> Module:
        begin = self.at
        name = ""
        formals: tuple[str, ...] = ()
        try:
            self.skip()
            name = self.name().text
            if self.text == "(":
                self.skip()
                formals = self.closed(lambda: self.name().text)
        except SyntaxFault:
            self.resume()
        head, sections = self.tokens[self.at - 1].behind, []
        while self.token is not None and self.text != "MODULE":
            if self.text in SECTIONS:
                sections.append(self.section())
            else:
                self.skip()
        return Module(*self.piece(begin), name, formals, tuple(sections), head)

    def section(self) -> Section:
        begin, word = self.at, self.skip().text
        readers: dict[str, Callable[[], Member]] = {
            "VAR": self.declaration, "ASSIGN": self.assignment, "DEFINE": self.definition,
        }
        if word not in readers:
            return self.tried_statement(begin, word)
        members: list[Member] = []
        while not self.section_follows:
            try:
                members.append(readers[word]())
            except SyntaxFault:
                self.resume()
        return Section(*self.piece(begin), word, tuple(members))

    def tried_statement(self, begin: int, word: str) -> Section:
        try:
            return self.statement(begin, word)
        except SyntaxFault:
            self.nested = 0
            while not self.section_follows:
                self.skip()
            return Section(*self.piece(begin), word, ())

    def resume(self) -> None:
        """Skips what can't be read, up to a semicolon or a section."""
        self.nested = 0
        while not self.section_follows:
            if self.skip().text == ";":
                return
