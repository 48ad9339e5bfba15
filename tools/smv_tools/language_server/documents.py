"""The texts that the editor has open. Each version is a text of its own, which never changes, so that threads can read it."""
from __future__ import annotations

from dataclasses import dataclass
from functools import cached_property
from pathlib import Path
from typing import TYPE_CHECKING
from urllib.parse import unquote, urlsplit

from ..source import Source
from .positions import Position, Positions, bytes_of
from .protocol import Json

if TYPE_CHECKING:
    from .outline import Outline


def path_of(uri: str) -> str:
    """The file of a URI; the URI itself where it is of no file."""
    parts = urlsplit(uri)
    return unquote(parts.path) if parts.scheme == "file" else uri


def uri_of(path: str) -> str:
    return Path(path).resolve().as_uri()


def utf8(text: str) -> str:
    """A part of a source's text, whose signs are bytes, as it was written. What has other signs is no such part, and stays."""
    try:
        return text.encode("latin-1").decode("utf-8", "surrogatepass")
    except UnicodeError:
        return text


def position_in(json: Json) -> Position:
    return Position(int(json["line"]), int(json["character"]))


@dataclass(frozen=True)
class Document:
    """A version of a text: its bytes are those of the file once it is saved, in UTF-8."""

    uri: str
    version: int
    text: str

    @cached_property
    def positions(self) -> Positions:
        return Positions(self.text)

    @cached_property
    def source(self) -> Source:
        return Source(bytes_of(self.text), path_of(self.uri))

    @cached_property
    def outline(self) -> Outline:
        from .outline import Outline
        return Outline(self.source)

    def changed(self, version: int, changes: list[Json]) -> Document:
        """The text after the changes, one after the other."""
        text, positions = self.text, self.positions
        for change in changes:
            if change.get("range") is None:
                text = change["text"]
            else:
                first = positions.sign_of(position_in(change["range"]["start"]))
                behind = max(first, positions.sign_of(position_in(change["range"]["end"])))
                text = text[:first] + change["text"] + text[behind:]
            positions = Positions(text)
        return Document(self.uri, version, text)

    # ---- places

    def offset(self, position: Json) -> int:
        return self.positions.offset_of(position_in(position))

    def range(self, first: int, behind: int) -> Json:
        """The range of the protocol from one byte to another."""
        start, end = self.positions.position_of(first), self.positions.position_of(behind)
        return {"start": {"line": start.line, "character": start.character},
                "end": {"line": end.line, "character": end.character}}

    def location(self, first: int, behind: int) -> Json:
        return {"uri": self.uri, "range": self.range(first, behind)}
