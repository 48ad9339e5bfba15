"""The language server: takes messages in order, and answers requests on texts and checks them in other threads."""
from __future__ import annotations

import queue
import sys
import threading
import traceback
from collections.abc import Callable
from typing import BinaryIO

from ..program import Program
from .answers import ANSWERS, diagnostics
from .checks import Checks, Result
from .documents import Document
from .protocol import (CANCELLED, INTERNAL_ERROR, INVALID_PARAMS, INVALID_REQUEST, METHOD_NOT_FOUND, NOT_INITIALIZED, PARSE_ERROR,
                       Garbled, Json, Lost, Message, Writer, Wrong, read_message)

INCREMENTAL = 2
ERROR_MESSAGE = 1
# Deep expressions are read by calls within calls.
STACK = 256 << 20
CALLS = 20_000

CAPABILITIES: Json = {
    "positionEncoding": "utf-16",
    "textDocumentSync": {"openClose": True, "change": INCREMENTAL, "save": {"includeText": False}},
    "hoverProvider": True,
    "definitionProvider": True,
    "completionProvider": {"triggerCharacters": ["."]},
    "documentSymbolProvider": True,
    "documentFormattingProvider": True,
    "codeActionProvider": {"codeActionKinds": ["quickfix"]},
}


class Server:
    """`serve` takes messages up to the end; its result is the exit status."""

    def __init__(self, stream: BinaryIO, out: BinaryIO, program: Callable[[], Program], options: list[str], seconds: float,
                 version: str) -> None:
        self.stream, self.writer, self.version = stream, Writer(out), version
        self.documents: dict[str, Document] = {}
        self.results: dict[str, Result] = {}
        self.checks = Checks(program, self.checked, self.failed)
        self.checks.options, self.checks.seconds = options, seconds
        self.state, self.status = "new", 1
        self.told: set[str] = set()
        self.waiting: queue.Queue[tuple[Json, str, Json, Document, Result | None]] = queue.Queue()
        self.cancelled: set[Json] = set()
        self.notifications: dict[str, Callable[[Json], None]] = {
            "initialized": lambda _: None, "$/cancelRequest": self.cancel, "$/setTrace": lambda _: None,
            "textDocument/didOpen": self.opened, "textDocument/didChange": self.changed,
            "textDocument/didSave": self.saved, "textDocument/didClose": self.closed,
        }

    # ---- messages

    def serve(self) -> int:
        sys.setrecursionlimit(CALLS)
        threading.stack_size(STACK)
        threading.Thread(target=self.answer_waiting, daemon=True).start()
        try:
            while self.state != "left":
                try:
                    message = read_message(self.stream)
                except Garbled as why:
                    self.respond_error(None, PARSE_ERROR, str(why))
                    continue
                if message is None:
                    return 1
                self.take(message)
        except Lost as why:
            self.respond_error(None, PARSE_ERROR, str(why))
            return 1
        finally:
            self.checks.stop_all()
        return self.status

    def take(self, message: Message) -> None:
        method, number = message.get("method"), message.get("id")
        if not isinstance(method, str):
            # An answer to a request, of which this server makes none.
            if "result" not in message and "error" not in message:
                self.respond_error(number, INVALID_REQUEST, "a message without a method")
            return
        try:
            if "id" in message:
                self.request(number, method, message.get("params") or {})
            else:
                self.notification(method, message.get("params") or {})
        except Wrong as wrong:
            self.respond_error(number, wrong.code, str(wrong))
        except (KeyError, TypeError, ValueError, AttributeError) as fault:
            if "id" in message:
                self.respond_error(number, INVALID_PARAMS, f"{method}: {fault!r}")
            else:
                self.log(f"{method}: {fault!r}")

    def notification(self, method: str, params: Json) -> None:
        if method == "exit":
            self.status = 0 if self.state == "shut" else 1
            self.state = "left"
        elif self.state == "running" and method in self.notifications:
            self.notifications[method](params)

    def request(self, number: Json, method: str, params: Json) -> None:
        if method == "initialize" and self.state == "new":
            self.state = "running"
            self.respond(number, {"capabilities": CAPABILITIES, "serverInfo": {"name": "smv lsp", "version": self.version}})
        elif self.state == "new":
            raise Wrong(NOT_INITIALIZED, "initialize comes first")
        elif self.state != "running" or method == "initialize":
            raise Wrong(INVALID_REQUEST, f"{method} comes too late")
        elif method == "shutdown":
            self.state = "shut"
            self.checks.stop_all()
            self.respond(number, None)
        elif method in ANSWERS:
            document = self.document(params)
            self.waiting.put((number, method, params, document, self.results.get(document.uri)))
        else:
            raise Wrong(METHOD_NOT_FOUND, f"{method} isn't known")

    def respond(self, number: Json, result: Json) -> None:
        self.writer.send({"id": number, "result": result})

    def respond_error(self, number: Json, code: int, text: str) -> None:
        self.writer.send({"id": number, "error": {"code": code, "message": text}})

    def notify(self, method: str, params: Json) -> None:
        self.writer.send({"method": method, "params": params})

    @staticmethod
    def log(text: str) -> None:
        """A line on standard error, which editors keep."""
        print(f"smv lsp: {text}", file=sys.stderr, flush=True)

    # ---- requests on texts

    def document(self, params: Json) -> Document:
        uri = params["textDocument"]["uri"]
        if uri not in self.documents:
            raise Wrong(INVALID_PARAMS, f"{uri} isn't open")
        return self.documents[uri]

    def cancel(self, params: Json) -> None:
        self.cancelled.add(params["id"])

    def answer_waiting(self) -> None:
        """Answers requests in their order, but for those that were cancelled before their turn."""
        while True:
            number, method, params, document, result = self.waiting.get()
            if number in self.cancelled:
                self.cancelled.discard(number)
                self.respond_error(number, CANCELLED, f"{method} was cancelled")
                continue
            try:
                self.respond(number, ANSWERS[method](document, params, result))
            except (KeyError, TypeError, ValueError) as fault:
                self.respond_error(number, INVALID_PARAMS, f"{method}: {fault!r}")
            except Exception as fault:  # The server goes on, whatever a text holds.
                self.log(traceback.format_exc())
                self.respond_error(number, INTERNAL_ERROR, f"{method}: {fault!r}")

    # ---- texts

    def opened(self, params: Json) -> None:
        item = params["textDocument"]
        document = Document(item["uri"], int(item["version"]), item["text"])
        self.documents[document.uri] = document
        self.checks.start(document)

    def changed(self, params: Json) -> None:
        document = self.document(params)
        self.documents[document.uri] = document.changed(int(params["textDocument"]["version"]), params["contentChanges"])

    def saved(self, params: Json) -> None:
        self.checks.start(self.document(params))

    def closed(self, params: Json) -> None:
        uri = self.document(params).uri
        self.checks.stop(uri)
        del self.documents[uri]
        self.results.pop(uri, None)
        self.notify("textDocument/publishDiagnostics", {"uri": uri, "diagnostics": []})

    # ---- checks

    def checked(self, result: Result) -> None:
        document = result.document
        self.results[document.uri] = result
        self.notify("textDocument/publishDiagnostics",
                    {"uri": document.uri, "version": document.version, "diagnostics": diagnostics(result)})

    def failed(self, text: str) -> None:
        """Tells once what keeps checks from being made."""
        self.log(text)
        if text not in self.told:
            self.told.add(text)
            self.notify("window/showMessage", {"type": ERROR_MESSAGE, "message": f"smv: {text}"})
