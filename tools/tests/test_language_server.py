"""Whole sessions with the language server, as editors have them."""
from __future__ import annotations

import os
import stat
import time
from collections.abc import Iterator
from pathlib import Path
from typing import Any

import pytest
from conftest import EXAMPLES, TOP
from language_client import Client

from smv_tools.program import Program

PETERSON = TOP / "examples/peterson.smv"
URI = "file:///models/model.smv"


@pytest.fixture
def client(program: Program) -> Iterator[Client]:
    with Client(program=program.path) as found:
        found.begin()
        yield found


def place(text: str, words: str, behind: int = 0, nth: int = 0) -> dict[str, int]:
    """The position of the words in the text, and so many signs behind their beginning."""
    at = -1
    for _ in range(nth + 1):
        at = text.index(words, at + 1)
    before = text[:at + behind]
    line = before.rpartition("\n")[2]
    return {"line": before.count("\n"), "character": len(line.encode("utf-16-le")) // 2}


def at(text: str, words: str, behind: int = 0, nth: int = 0) -> dict[str, Any]:
    return {"textDocument": {"uri": URI}, "position": place(text, words, behind, nth)}


def taken(text: str, span: dict[str, Any]) -> str:
    """The text of a range of one line."""
    assert span["start"]["line"] == span["end"]["line"], span
    line = text.split("\n")[span["start"]["line"]].encode("utf-16-le")
    return line[span["start"]["character"] * 2:span["end"]["character"] * 2].decode("utf-16-le")


# ---- a session

def test_begins_and_ends(program: Program) -> None:
    with Client(program=program.path) as client:
        early = client.answer(client.ask("textDocument/hover", {}))
        assert early["error"]["code"] == -32002
        found = client.begin()
        assert found["capabilities"]["positionEncoding"] == "utf-16" and found["serverInfo"]["name"] == "smv lsp"
        assert client.answer(client.ask("initialize", {}))["error"]["code"] == -32600
        assert client.answer(client.ask("workspace/symbol", {}))["error"]["code"] == -32601
        client.notify("$/unknown", {})
        assert client.request("shutdown", None) is None
        assert client.answer(client.ask("textDocument/hover", {}))["error"]["code"] == -32600
        client.notify("exit", None)
        assert client.running.wait(30) == 0


def test_an_editor_that_goes_away(client: Client) -> None:
    client.open(URI, PETERSON.read_text())
    assert client.running.stdin is not None
    client.running.stdin.close()
    assert client.running.wait(30) == 1


def test_exit_without_shutdown(client: Client) -> None:
    client.notify("exit", None)
    assert client.running.wait(30) == 1


def test_garbled_messages(client: Client) -> None:
    client.put(b"Content-Length: 3\r\nContent-Type: application/vscode-jsonrpc; charset=utf-8\r\n\r\n{]}")
    assert client.answer(None)["error"]["code"] == -32700
    client.put(b"content-length: 2\r\n\r\n[]")
    assert client.answer(None)["error"]["code"] == -32700
    client.send({"id": 900})
    assert client.answer(900)["error"]["code"] == -32600
    for params in ({}, {"textDocument": {"uri": 1}}, {"textDocument": {"uri": "file:///none.smv"}}, 5, [1]):
        assert client.answer(client.ask("textDocument/hover", params))["error"]["code"] == -32602
    client.notify("textDocument/didChange", {"textDocument": {"uri": "file:///none.smv", "version": 2}, "contentChanges": []})
    client.open(URI, "MODULE main")
    assert client.answer(client.ask("textDocument/hover", {"textDocument": {"uri": URI}}))["error"]["code"] == -32602
    assert client.end() == 0


def test_a_header_without_a_length_ends_it(client: Client) -> None:
    client.put(b"Content-Type: text\r\n\r\n{}")
    assert client.answer(None)["error"]["code"] == -32700
    assert client.running.wait(30) == 1


# ---- diagnostics

def test_a_false_specification_with_its_path(client: Client) -> None:
    text = PETERSON.read_text()
    client.open(URI, text)
    found, = client.diagnostics(URI)
    assert (found["severity"], found["code"], found["source"]) == (1, "false", "smv")
    assert found["message"] == "specification 3 is false: a path of 3 states shows it"
    assert taken(text, found["range"]) == "SPEC AG AF left.state = critical"
    told = [it["message"] for it in found["relatedInformation"]]
    assert told[0] == "state 0: running = main, turn = 0, left.state = idle, right.state = idle"
    assert told[1:] == ["state 1: running = left", "state 2: running = right", "state 0 again, for ever: running = main"]
    # Where no variable changes the place is the process that moves; of `main`, which isn't declared, the specification.
    places = [taken(text, it["location"]["range"]) for it in found["relatedInformation"][2:]]
    assert places == ["left : process user(0, right.wants, turn);", "right : process user(1, left.wants, turn);"]


def test_the_arm_that_a_step_takes(client: Client) -> None:
    text = (TOP / "examples/msi_cache.smv").read_text()
    client.open(URI, text)
    found, = client.diagnostics(URI)
    places = [taken(text, it["location"]["range"]) for it in found["relatedInformation"]]
    assert found["message"].startswith("specification 4 is false")
    assert "action = write : next(value)" in places and "fetches : other.value" in places


def test_checked_at_each_save(client: Client) -> None:
    client.open(URI, "MODULE main\nVAR x : boolean;\nSPEC AG x\n")
    assert len(client.diagnostics(URI, version=1)) == 1
    edit = {"range": {"start": {"line": 2, "character": 5}, "end": {"line": 2, "character": 7}}, "text": "AF"}
    client.notify("textDocument/didChange", {"textDocument": {"uri": URI, "version": 2}, "contentChanges": [edit]})
    client.notify("textDocument/didSave", {"textDocument": {"uri": URI}})
    assert client.diagnostics(URI, version=2)[0]["message"].startswith("specification 1 is false")
    whole = {"text": "MODULE main\nVAR x : boolean;\nSPEC AG (x | !x)\n"}
    client.notify("textDocument/didChange", {"textDocument": {"uri": URI, "version": 3}, "contentChanges": [whole]})
    client.notify("textDocument/didSave", {"textDocument": {"uri": URI}})
    assert client.diagnostics(URI, version=3) == []
    client.notify("textDocument/didClose", {"textDocument": {"uri": URI}})
    assert client.diagnostics(URI) == []
    assert client.answer(client.ask("textDocument/hover", at("MODULE", "MODULE")))["error"]["code"] == -32602


@pytest.mark.parametrize("path", sorted((TOP / "examples/refused").glob("*.smv")), ids=lambda it: it.stem)
def test_refusals(path: Path, program: Program, client: Client) -> None:
    """The code is the program's, and the place is on the line that the program tells; where something is missing, before it."""
    text = path.read_text()
    uri = path.as_uri()
    client.open(uri, text)
    refusal = program.check(str(path)).refusal
    assert refusal is not None
    found, = client.diagnostics(uri)
    assert (found["code"], found["severity"]) == (refusal.code, 1)
    first = found["range"]["start"]
    if refusal.code in ("E1", "E2"):
        assert first["line"] + 1 == refusal.line
    elif refusal.code == "E4":
        assert refusal.line is not None and refusal.line - 1 <= first["line"] + 1 <= refusal.line


def test_the_column_of_a_refusal(client: Client) -> None:
    text = "-- \U0001d51e\u00e9\nMODULE main\nVAR x : boolean;\nSPEC AG (x ? 1 : 0)\n"
    client.open(URI, text)
    found, = client.diagnostics(URI)
    assert found["code"] == "E1" and found["range"]["start"] == place(text, "?")
    assert taken(text, found["range"]).startswith("?")


def test_node_limit_and_time(program: Program) -> None:
    text = (TOP / "examples/philosophers.smv").read_text()
    with Client("--nodes", "1", program=program.path) as client:
        client.begin()
        client.open(URI, text)
        found = client.diagnostics(URI)
        assert found and all(it["severity"] == 2 and it["code"] == "unknown" for it in found)
        assert found[0]["message"] == "specification 1 is unknown: the node limit 1 is met"


# ---- names

NAMES = """-- \U0001d51e
MODULE main
VAR
  turn : 0..1;
  left : process user(right, turn);
  right : process user(left, turn);
DEFINE -- \u00e9
  both := left.state = busy & right.state = busy;
SPEC AG !both
MODULE user(other, turn)
VAR
  state : {idle, busy};
ASSIGN
  next(state) := case other.state = idle : busy; 1 : idle; esac;
"""


def test_what_names_are(client: Client) -> None:
    client.open(URI, NAMES)
    client.diagnostics(URI)

    def told(words: str, behind: int = 0, nth: int = 0) -> str:
        found = client.request("textDocument/hover", at(NAMES, words, behind, nth))
        return "" if found is None else str(found["contents"]["value"])

    assert told("left.state", 6) == "```smv\nstate : {idle, busy}\n```\n\nVariable of module `user`: `left.state`, `right.state`."
    assert told("both := ").startswith("```smv\nboth := left.state = busy & right.state = busy\n```")
    assert told("left : ") == ("```smv\nleft : process user(right, turn)\n```\n\nProcess of module `main`.\n\n"
                               "- `other` is `right`\n- `turn` is `turn`")
    assert told("other.state").startswith("Parameter `other` of module `user`.\n\n- in `left` of module `main` it is `right`")
    assert told("busy;").startswith("A value of `state` of module `user`.") and told("process user", 9).startswith("```smv\nMODULE user")
    assert told("AG") == "`AG p`: on each fair path p is true in every state."
    assert told("SPEC").startswith("Specification 1: **false**\n\n```\n0: running = ") and told("-- ") == ""


def test_where_names_stand(client: Client) -> None:
    client.open(URI, NAMES)

    def places(words: str, behind: int = 0, nth: int = 0) -> list[dict[str, int]]:
        return [it["range"]["start"] for it in client.request("textDocument/definition", at(NAMES, words, behind, nth))]

    assert places("other.state", 8) == [place(NAMES, "state : {")] == places("left.state", 5)
    assert places("both\nMODULE") == [place(NAMES, "both :=")] and places("process user", 8) == [place(NAMES, "user(other")]
    assert places("busy & right") == [place(NAMES, "busy};")] and places("turn);") == [place(NAMES, "turn : 0")]
    assert places("AG") == [] and places("other.state") == [place(NAMES, "other, turn")]


def test_completion_while_it_is_written(client: Client) -> None:
    text = NAMES.replace("SPEC AG !both\n", "SPEC AG left.\n").replace("case other.state = idle", "case other.s")
    client.open(URI, text)

    def choices(words: str, behind: int) -> set[str]:
        return {it["label"] for it in client.request("textDocument/completion", at(text, words, behind))["items"]}

    assert choices("AG left.", 8) == {"other", "turn", "state"} == choices("case other.s", 12)
    assert {"left", "both", "busy", "AG", "TRUE"} <= choices("AG left", 3)
    assert "user" in choices(": process user", 10) and "main" not in choices(": process user", 10)
    assert {"init", "next", "state"} <= choices("next(state)", 0)


def test_outline_and_layout(client: Client) -> None:
    client.open(URI, NAMES)
    main, user = client.request("textDocument/documentSymbol", {"textDocument": {"uri": URI}})
    assert [it["name"] for it in main["children"]] == ["turn", "left", "right", "both", "SPEC AG !both"]
    assert (user["name"], [it["name"] for it in user["children"]]) == ("user", ["state"])
    edit, = client.request("textDocument/formatting", {"textDocument": {"uri": URI}, "options": {}})
    assert edit["newText"] == "DEFINE  -- \u00e9" and edit["range"]["start"] == place(NAMES, "DEFINE")


def test_a_quick_fix(client: Client) -> None:
    text = "-- \U0001d51e\nMODULE main\nVAR x : boolean;\nSPEC AG (x != 0)\n"
    client.open(URI, text)
    found, = client.diagnostics(URI)
    asked = {"textDocument": {"uri": URI}, "range": found["range"], "context": {"diagnostics": [found]}}
    actions = client.request("textDocument/codeAction", asked)
    assert actions and all(it["kind"] == "quickfix" and it["diagnostics"] == [found] for it in actions)
    edits = actions[-1]["edit"]["changes"][URI]
    client.notify("textDocument/didChange", {"textDocument": {"uri": URI, "version": 2}, "contentChanges": [
        {"range": it["range"], "text": it["newText"]} for it in edits]})
    client.notify("textDocument/didSave", {"textDocument": {"uri": URI}})
    assert [it["code"] for it in client.diagnostics(URI, version=2)] == ["false"]


# ---- where it stays responsive

@pytest.fixture
def slow_program(tmp_path: Path) -> str:
    """A program that takes a minute for texts with the word `slow`, and notes what it is asked."""
    path = tmp_path / "program"
    path.write_text('#!/bin/sh\nfor last; do :; done\ncat "$last" >>' + f'"{tmp_path}/asked"\n'
                    'grep -q slow "$last" && exec sleep 60\necho "total 0 true 0 false 0 unknown 0"\n')
    path.chmod(path.stat().st_mode | stat.S_IXUSR)
    return str(path)


def test_a_save_stops_the_check_before(slow_program: str) -> None:
    with Client(program=slow_program) as client:
        client.begin()
        client.open(URI, "MODULE main -- slow")
        assert "main" in client.request("textDocument/hover", at("MODULE main", "main"))["contents"]["value"]
        client.notify("textDocument/didChange",
                      {"textDocument": {"uri": URI, "version": 2}, "contentChanges": [{"text": "MODULE main"}]})
        begun = time.monotonic()
        client.notify("textDocument/didSave", {"textDocument": {"uri": URI}})
        assert client.diagnostics(URI, version=2) == [] and time.monotonic() - begun < 30
        assert client.end() == 0


def test_a_check_takes_a_time_at_most(slow_program: str) -> None:
    with Client("--seconds", "1", program=slow_program) as client:
        client.begin()
        client.open(URI, "MODULE main -- slow\nSPEC 1")
        found, = client.diagnostics(URI)
        assert (found["code"], found["message"]) == ("time", "not decided within 1 seconds, and so stopped")


def test_checks_wait_for_one_another_and_end_with_the_session(slow_program: str) -> None:
    with Client(program=slow_program) as client:
        client.begin()
        for k in range(5):
            client.open(f"file:///m{k}.smv", "MODULE main -- slow")
        begun = time.monotonic()
        assert client.end() == 0 and time.monotonic() - begun < 30


def test_a_program_that_is_not_there() -> None:
    with Client(program="/no/such/program") as client:
        client.begin()
        for _ in range(2):
            client.open(URI, "MODULE main")
        assert "No such file" in client.notice("window/showMessage")["message"]
        assert client.request("textDocument/hover", at("MODULE main", "main"))
        assert client.end() == 0


def test_a_large_text(client: Client) -> None:
    """Requests are answered while a text of a hundred kilobytes is checked, and those that are cancelled aren't."""
    text = "MODULE main\nVAR x : boolean;\n" + "".join(f"DEFINE d{k} := x & !x | x;\n" for k in range(4_000)) + "SPEC AG x\n"
    client.open(URI, text)
    client.open("file:///small.smv", "MODULE main\nVAR x : boolean;\nSPEC x\n")
    first = client.ask("textDocument/hover", at(text, "x : "))
    later = client.ask("textDocument/documentSymbol", {"textDocument": {"uri": URI}})
    client.notify("$/cancelRequest", {"id": later})
    assert "boolean" in client.answer(first)["result"]["contents"]["value"]
    assert client.answer(later)["error"]["code"] == -32800
    assert client.diagnostics("file:///small.smv")


# ---- other editors' lines

def test_lines_for_editors(smv: Any, tmp_path: Path) -> None:
    ended = smv("diagnose", "examples/peterson.smv", "examples/swap.smv", "examples/refused/e4_no_program.smv")
    first, second = ended.stdout.splitlines()
    assert first == "examples/peterson.smv:17:1: error: specification 3 is false: a path of 3 states shows it [false]"
    assert second.startswith("examples/refused/e4_no_program.smv:") and second.endswith("[E4]") and ended.returncode == 3
    ended = smv("diagnose", "none.smv", "examples/swap.smv")
    assert (ended.returncode, ended.stdout) == (4, "") and "No such file" in ended.stderr
    bad = tmp_path / "bytes.smv"
    bad.write_bytes(b"MODULE main\nVAR \xff : boolean;\n")
    assert smv("diagnose", str(bad)).stdout.startswith(f"{bad}:2:5: error: ")
    assert smv("diagnose", "--nodes", "0", "x").returncode == 5


def test_a_model_of_bytes(program: Program) -> None:
    """Nothing else comes on standard output, whatever the environment says."""
    with Client(program=program.path) as client:
        client.begin()
        for path in EXAMPLES[:3]:
            client.open(path.as_uri(), path.read_text())
            client.diagnostics(path.as_uri())
        assert os.path.exists(f"/proc/{client.running.pid}") and client.end() == 0
