"""The forms of `smv report`: each is tested by what reads such files, or by its schema."""
from __future__ import annotations

import json
import re
import xml.etree.ElementTree as xml
from pathlib import Path
from typing import Any

import pytest

from conftest import EXAMPLES, TOP, Smv
from smv_tools.reports.rules import REFUSALS

jsonschema = pytest.importorskip("jsonschema")
SARIF = json.loads((TOP / "tools/tests/schemas/sarif-2.1.0.json").read_text())
SCHEMA = json.loads((TOP / "docs/report.schema.json").read_text())
REFUSED = sorted(str(it.relative_to(TOP)) for it in (TOP / "examples/refused").glob("*.smv"))
MODELS = [str(it.relative_to(TOP)) for it in EXAMPLES]
MIXED = """-- é: one sign of two bytes
MODULE main
VAR x : boolean;
ASSIGN init(x) := 0; next(x) := !x;
SPEC AG !x -- NAME never, EXPECT false
SPEC AG x -- NAME always
-- LABEL
SPEC x
SPEC EF x -- EXPECT false
"""


@pytest.fixture
def mixed(tmp_path: Path) -> str:
    path = tmp_path / "mixed.smv"
    path.write_text(MIXED)
    return str(path)


def value_of(smv: Smv, *words: str, status: int | None = None) -> Any:
    ended = smv("report", *words)
    assert ended.stderr == ""
    assert status is None or ended.returncode == status
    return json.loads(ended.stdout)


@pytest.fixture(scope="session")
def whole(smv: Smv) -> Any:
    """The record of all examples, also those that are refused."""
    return value_of(smv, "--json", *MODELS, *REFUSED, "no_such.smv", status=4)


def test_schema(whole: Any) -> None:
    jsonschema.Draft202012Validator.check_schema(SCHEMA)
    jsonschema.validate(whole, SCHEMA, jsonschema.Draft202012Validator)
    with pytest.raises(jsonschema.ValidationError):
        jsonschema.validate({**whole, "more": 1}, SCHEMA, jsonschema.Draft202012Validator)


def test_record_has_the_report(whole: Any) -> None:
    """What stands in the record is what `check` put, and everything of it."""
    for model in whole["models"][:len(MODELS)]:
        report = (TOP / "examples/reports" / f"{Path(model['model']).stem}.txt").read_text()
        lines = []
        for it in model["specifications"]:
            lines.append(f"spec {it['number']} line {it['line']} {it['verdict']}")
            path = it["path"] or {"states": [], "loop": None}
            for k, state in enumerate(path["states"]):
                lines += [f"state {k}", *(f"  {name} = {value}" for name, value in state.items())]
            lines += [f"loop {path['loop']}"] * (path["loop"] is not None)
            assert it["recheck"]["answer"] == "accepted"
            assert (it["replay"] or {}).get("answer") == ("accepted" if path["loop"] is not None else None)
        assert [it for it in report.splitlines() if not it.startswith("total ")] == [*lines, f"status {model['status']}"]


def test_refusals(whole: Any) -> None:
    wanted = dict(line.split(": ", 1) for line in (TOP / "examples/refused/lines.txt").read_text().splitlines() if ": " in line)
    for model in whole["models"][len(MODELS):-1]:
        it = model["refusal"]
        assert model["status"] == 3 and not model["specifications"]
        assert Path(model["model"]).stem.startswith(f"{it['code'].lower()}_"), wanted
        if it["place"]:
            assert it["place"]["line"] == it["line"]
    assert whole["models"][-1]["ending"] == "No such file or directory: no_such.smv"


def test_rules_are_those_of_the_page() -> None:
    page = (TOP / "docs/FORMATS.md").read_text()
    for code, text in re.findall(r"^\| `refused (E\d+)\b[^`]*` \| ([^|:]*)", page, re.M):
        if code not in ("E22", "E23", "E24"):
            assert REFUSALS[code] == text.strip()


def test_sarif(smv: Smv, mixed: str) -> None:
    ended = smv("report", "--sarif", mixed, *REFUSED, "no_such.smv")
    value = json.loads(ended.stdout)
    jsonschema.validate(value, SARIF, jsonschema.Draft7Validator)
    run = value["runs"][0]
    rules = [it["id"] for it in run["tool"]["driver"]["rules"]]
    assert all(rules[it["ruleIndex"]] == it["ruleId"] for it in run["results"])
    mine = [it for it in run["results"] if it["locations"][0]["physicalLocation"]["artifactLocation"]["index"] == 0]
    assert [(it["ruleId"], it["kind"], it["level"]) for it in mine] == [
        ("false", "informational", "none"), ("false", "fail", "error"), ("unexpected", "fail", "error")]
    region = mine[0]["locations"][0]["physicalLocation"]["region"]
    assert region == {"startLine": 5, "startColumn": 1, "endLine": 5, "endColumn": 11}
    flow = mine[0]["codeFlows"][0]["threadFlows"][0]["locations"]
    assert [it["location"]["message"]["text"] for it in flow][:2] == ["state 0: x = 0", "state 1: x = 1"]
    assert {it["ruleId"] for it in run["results"][3:]} == {it for it in rules if it in REFUSALS} - {"E3"}
    assert run["invocations"][0]["toolExecutionNotifications"][0]["message"]["text"].startswith("No such file")
    assert run["invocations"][0]["exitCode"] == ended.returncode == 4


def test_sarif_columns_count_signs(smv: Smv, tmp_path: Path) -> None:
    path = tmp_path / "signs.smv"
    path.write_text("MODULE main VAR x : boolean; -- é\nSPEC x & -- é é\n é\n")
    value = json.loads(smv("report", "--sarif", str(path)).stdout)
    region = value["runs"][0]["results"][0]["locations"][0]["physicalLocation"]["region"]
    assert region == {"startLine": 3, "startColumn": 2, "endLine": 3, "endColumn": 3}


def test_junit(smv: Smv, mixed: str, tmp_path: Path) -> None:
    junitparser = pytest.importorskip("junitparser")
    out = tmp_path / "out.xml"
    assert smv("report", mixed, "examples/refused/e8_unknown_name.smv", "-o", str(out)).returncode == 3
    suites = list(junitparser.JUnitXml.fromfile(str(out)))
    assert [(it.tests, it.failures, it.errors, it.skipped) for it in suites] == [(4, 2, 0, 1), (1, 0, 1, 0)]
    cases = {case.get("name"): case for case in xml.parse(out).getroot().iter("testcase")}
    assert list(cases) == ["never", "always", "spec 3", "spec 4", "model"]
    assert cases["always"].get("file") == mixed and cases["always"].get("line") == "6"
    failure = cases["always"].find("failure")
    assert failure is not None and (failure.text or "").startswith("state 0\n  x = 0\n")


def test_text_and_words(smv: Smv, mixed: str, tmp_path: Path) -> None:
    ended = smv("report", mixed, "--only", "never", "--only", "4", "--no-proof")
    assert ended.stdout.splitlines()[:2] == [
        f"{mixed}:5: spec 1 never false, a path of 2 states, loop 0", f"{mixed}:9: spec 4 true, expected false"]
    for words, told in ((["--json", "--sarif"], "one form is put at a time"), (["--only", "nothing"], "no specification of"),
                        (["--only", "9"], "has no specification 9")):
        ended = smv("report", mixed, *words)
        assert ended.returncode in (5, 70) and told in ended.stderr and ended.stdout == ""
    assert smv("report", mixed, "-o", str(tmp_path / "no/where.json")).returncode == 4


def test_limits(smv: Smv) -> None:
    value = value_of(smv, "--json", "examples/philosophers.smv", "--nodes", "20", status=2)
    assert {it["limit"] for it in value["models"][0]["specifications"]} == {20}
    value = value_of(smv, "--json", "--no-proof", "--memory", "1", "examples/swap.smv")
    assert value["models"][0]["ending"] and not value["models"][0]["specifications"]
