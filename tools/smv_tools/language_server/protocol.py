"""Messages of the Language Server Protocol: JSON behind a header with its length, over a stream of bytes."""
from __future__ import annotations

import json
import threading
from collections.abc import Mapping
from typing import Any, BinaryIO

Json = Any
Message = dict[str, Json]

PARSE_ERROR = -32700
INVALID_REQUEST = -32600
METHOD_NOT_FOUND = -32601
INVALID_PARAMS = -32602
INTERNAL_ERROR = -32603
NOT_INITIALIZED = -32002
CANCELLED = -32800

MOST_HEADER = 1 << 16
MOST_CONTENT = 1 << 28


class Garbled(Exception):
    """The content is no JSON object. The message behind it can be read."""


class Lost(Exception):
    """The header can't be read, so it isn't known where the next message begins."""


class Wrong(Exception):
    """A request that can't be answered: the error's code and its text."""

    def __init__(self, code: int, text: str) -> None:
        super().__init__(text)
        self.code = code


def _length(stream: BinaryIO) -> int | None:
    """The length that the header tells; None at the end of the stream."""
    length = None
    while True:
        line = stream.readline(MOST_HEADER)
        if not line:
            return None
        if line in (b"\r\n", b"\n"):
            break
        name, colon, value = line.partition(b":")
        if not colon:
            raise Lost(f"no header is {line[:80]!r}")
        if name.strip().lower() == b"content-length":
            if not value.strip().isdigit():
                raise Lost(f"no length is {value[:80]!r}")
            length = int(value)
    if length is None or length > MOST_CONTENT:
        raise Lost("a header without a length" if length is None else f"a message of {length} bytes")
    return length


def read_message(stream: BinaryIO) -> Message | None:
    """The next message; None at the end of the stream, which may come in the middle of one."""
    length = _length(stream)
    if length is None:
        return None
    content = stream.read(length)
    if len(content) < length:
        return None
    try:
        found = json.loads(content)
    except (ValueError, RecursionError):
        raise Garbled("the content is no JSON") from None
    if not isinstance(found, dict):
        raise Garbled("the content is no object")
    return found


def framed(message: Mapping[str, Json]) -> bytes:
    content = json.dumps(message, separators=(",", ":")).encode()
    return b"Content-Length: %d\r\n\r\n%s" % (len(content), content)


class Writer:
    """Puts messages, each as a whole, whichever threads do. Once nobody reads them nothing more is put."""

    def __init__(self, stream: BinaryIO) -> None:
        self.stream, self.lock, self.open = stream, threading.Lock(), True

    def send(self, message: Mapping[str, Json]) -> None:
        data = framed({"jsonrpc": "2.0", **message})
        with self.lock:
            try:
                if self.open:
                    self.stream.write(data)
                    self.stream.flush()
            except (OSError, ValueError):
                self.open = False
