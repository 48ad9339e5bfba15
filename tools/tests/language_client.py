"""A client of the language server, which replays sessions: it sends messages as an editor does, and waits for the answers."""
from __future__ import annotations

import os
import queue
import subprocess
import sys
import threading
import time
from pathlib import Path
from typing import Any

from smv_tools.language_server.protocol import framed, read_message

TOP = Path(__file__).resolve().parents[2]
Json = Any
SECONDS = 60.0


class NoAnswer(AssertionError):
    pass


class Client:
    """A session. `program` stands in place of the checker's build."""

    def __init__(self, *words: str, program: str | None = None) -> None:
        environment = {**os.environ, "PYTHONPATH": str(TOP / "tools"), **({"SMV_PROGRAM": program} if program else {})}
        self.running = subprocess.Popen([sys.executable, "-P", "-m", "smv_tools", "lsp", *words], cwd="/", env=environment,
                                        stdin=subprocess.PIPE, stdout=subprocess.PIPE, stderr=subprocess.PIPE)
        self.count = 0
        self.answers: dict[int, Json] = {}
        self.said: list[Json] = []
        self.news: queue.Queue[Json] = queue.Queue()
        threading.Thread(target=self._listen, daemon=True).start()

    def _listen(self) -> None:
        assert self.running.stdout is not None
        while (message := read_message(self.running.stdout)) is not None:
            self.news.put(message)

    # ---- sending

    def put(self, data: bytes) -> None:
        assert self.running.stdin is not None
        self.running.stdin.write(data)
        self.running.stdin.flush()

    def send(self, message: Json) -> None:
        self.put(framed({"jsonrpc": "2.0", **message}))

    def notify(self, method: str, params: Json) -> None:
        self.send({"method": method, "params": params})

    def ask(self, method: str, params: Json) -> int:
        """Sends a request, whose answer `answer` waits for."""
        self.count += 1
        self.send({"id": self.count, "method": method, "params": params})
        return self.count

    def request(self, method: str, params: Json) -> Json:
        answer = self.answer(self.ask(method, params))
        assert "error" not in answer, answer
        return answer["result"]

    # ---- waiting

    def _take(self, until: float) -> None:
        try:
            message = self.news.get(timeout=max(until - time.monotonic(), 0.01))
        except queue.Empty:
            raise NoAnswer(f"nothing more is said; so far: {str(self.said)[-2000:]}") from None
        if "id" in message and "method" not in message:
            self.answers[message["id"]] = message
        else:
            self.said.append(message)

    def answer(self, number: int | None, seconds: float = SECONDS) -> Json:
        until = time.monotonic() + seconds
        while number not in self.answers:
            self._take(until)
        return self.answers.pop(number)  # type: ignore[arg-type]

    def notice(self, method: str, seconds: float = SECONDS, **wanted: Json) -> Json:
        """The first notification of this method, with these parameters, that wasn't taken before."""
        until = time.monotonic() + seconds
        while True:
            for message in self.said:
                if message["method"] == method and all(message["params"].get(it) == value for it, value in wanted.items()):
                    self.said.remove(message)
                    return message["params"]
            self._take(until)

    # ---- a session

    def begin(self) -> Json:
        found = self.request("initialize", {"processId": os.getpid(), "rootUri": None, "capabilities": {}})
        self.notify("initialized", {})
        return found

    def open(self, uri: str, text: str, version: int = 1) -> None:
        self.notify("textDocument/didOpen",
                    {"textDocument": {"uri": uri, "languageId": "smv", "version": version, "text": text}})

    def diagnostics(self, uri: str, **more: Json) -> list[Json]:
        return self.notice("textDocument/publishDiagnostics", uri=uri, **more)["diagnostics"]

    def end(self) -> int:
        self.request("shutdown", None)
        self.notify("exit", None)
        return self.running.wait(SECONDS)

    def __enter__(self) -> Client:
        return self

    def __exit__(self, *_: object) -> None:
        if self.running.poll() is None:
            self.running.kill()
        self.running.wait()
