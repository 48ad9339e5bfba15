"""Answers that are no refusal of the model: of proof and trace files, the outside, memory, and what is unknown."""
from __future__ import annotations

import re
from collections.abc import Iterator, Sequence

from ..model import Model, Unreadable
from ..program import Ended
from ..refusals import Refusal
from ..source import Source, printable
from ..statuses import MEMORY as NO_MEMORY
from ..statuses import Stop
from .marks import Finding, Mark
from .rounds import Asked
from .rules import FAULTS, FILE_RULES, MEMORY, REJECTED, RULES, UNKNOWN, UNKNOWN_MODEL
from .shown import AROUND, place_rows, row

FAULT = re.compile(r"fault (load missing|load failed|save failed)\n")
REPLAYED = re.compile(r"trace (\d+) rejected (\w+)(?: (\d+))?\n")
TESTED = re.compile(r"^spec (\d+) (?:true|false) rejected line (\d+)$", re.M)
LIMIT = re.compile(r"node limit (\d+)")
MOST_LIMIT = (1 << 31) - 1
MOST_SPECS = 8


def file_place(data: bytes, path: str, line: int | None) -> list[str]:
    """The line of a proof or trace file, with those before it."""
    source = Source(data, path)
    where = f"{path}, line {line}:" if line else f"{path}:"
    return ["", where, *place_rows(source, line, Finding(), AROUND), ""]


def load(path: str) -> bytes:
    """The file's bytes, or none where it can't be read: a pipe is read already."""
    try:
        with open(path, "rb") as file:
            return file.read(67_108_865)
    except OSError:
        return b""


def of_file(refusal: Refusal, model: str, path: str) -> list[str]:
    """What is told of a refused proof or trace file."""
    rule, data = FILE_RULES[refusal.code], load(path)
    rows = file_place(data, path, refusal.line)
    rows += [f"{refusal.code}, {rule.title}.", rule.broken]
    if refusal.code == "P3":
        rows += other_variables(model, data)
    elif refusal.code == "Q1" and refusal.line:
        rows += wanted_line(model, data, refusal.line)
    return [*rows, "", rule.instead]


def variables_of(model: str) -> list[str]:
    try:
        return [it.name for it in Model.of(Source.load(model)).variables]
    except (Unreadable, Stop):
        return []


def other_variables(model: str, data: bytes) -> Iterator[str]:
    """The names that line 2 of a proof file lacks, and those that it has beside the model's."""
    lines = data.decode("latin-1").split("\n")
    named = lines[1].split()[1:] if len(lines) > 1 else []
    wanted = variables_of(model)
    for words, names in (("It lacks", set(wanted) - set(named)), ("The model has no", set(named) - set(wanted))):
        if names and wanted:
            listed = ", ".join(f"`{printable(name)}`" for name in sorted(names)[:MOST_SPECS])
            yield f"{words} {listed}{' and others' if len(names) > MOST_SPECS else ''}."


def wanted_line(model: str, data: bytes, line: int) -> Iterator[str]:
    """What stands on that line of a trace file."""
    names = variables_of(model)
    if line == 1:
        yield "The first line is `trace J`, with the number of the specification."
    elif names:
        state, place = divmod(line - 2, len(names) + 1)
        if place:
            values = ", ".join(map(str, Model.of(Source.load(model)).variable[names[place - 1]].values[:MOST_SPECS]))
            yield f"Here stands `  {names[place - 1]} = VALUE`, with a value of its type: {values}."
        else:
            yield f"Here stands `state {state}`{', or `loop I` with the number of a state before' if state else ''}."


def of_specification(refusal: Refusal, path: str) -> list[str]:
    """What is told of E24: the specification that the words name."""
    number = int(refusal.words[1]) if len(refusal.words) > 1 and refusal.words[1].isdigit() else 0
    rule, rows = RULES["E24"], []
    try:
        source = Source.load(path)
        specs = Model.of(source).specs
    except (Unreadable, Stop):
        return ["", f"E24, {rule.title}.", rule.broken, "", rule.instead]
    if 1 <= number <= len(specs):
        item = specs[number - 1]
        place = Finding([operator_place(source, item.first, item.behind)])
        rows = ["", f"{path}, line {item.line}:", *place_rows(source, item.line, place, 0), ""]
        told = f"Specification {number} holds a path operator."
    else:
        told = f"There is no specification {number}: the model has {len(specs)}."
    return [*rows, *([] if rows else [""]), f"E24, {rule.title}.", told, rule.broken, "", rule.instead]


def operator_place(source: Source, first: int, behind: int) -> Mark:
    found = re.compile(r"\b(?:[AE][XFG]|[AE](?=\s*\[))(?![A-Za-z0-9_-])").search(source.text, first, behind)
    return Mark(found.start(), found.end()) if found else Mark(first, behind)


def of_unknown(ended: Ended, path: str, asked: Asked, nodes: Sequence[str]) -> list[str]:
    """What is told where the node limit was met."""
    limit = LIMIT.search(ended.put.decode("latin-1"))
    number = int(limit[1]) if limit else int(nodes[1]) if nodes else 1_000_000
    rows = ["", f"unknown: the node limit {number} was met.", UNKNOWN]
    try:
        source = Source.load(path)
        answer = asked.program.on_text(source.data, "recheck", ["proof"], nodes, {"proof": b""}, seconds=60)
        if answer.put.startswith(b"model unanswered"):
            rows.append(UNKNOWN_MODEL)
        rows += unknown_lines(ended, source)
    except Stop:
        pass
    more = min(number * 10, MOST_LIMIT)
    return [*rows, "", f"Ask for more: --nodes {more}. What no specification depends on can be left out of the model, and "
                       "variables that belong together can stand together in VAR: their order is that of the diagrams."]


def unknown_lines(ended: Ended, source: Source) -> Iterator[str]:
    """The lines of the specifications that are unknown."""
    try:
        found = [it for it in ended.report.parts if it.verdict not in ("true", "false")]
    except (Stop, ValueError):
        return
    for it in found[:MOST_SPECS]:
        yield row(it.line, printable(source.line(it.line)), ">")
    if len(found) > MOST_SPECS:
        yield row("..", f"and {len(found) - MOST_SPECS} further ones")


def of_rejected(put: str, operands: Sequence[str]) -> list[str]:
    """What is told of a trace or of blocks that are rejected."""
    found = REPLAYED.fullmatch(put)
    if found:
        which = f" {found[3]}" if found[3] else ""
        return ["", f"Rejected, {found[2]}{which}. {REJECTED.get(found[2], '')}"]
    rows: list[str] = []
    for block in list(TESTED.finditer(put))[:MOST_SPECS]:
        rows += file_place(load(operands[1]), operands[1], int(block[2])) if len(operands) > 1 else []
        rows.append(f"This line is the first of the block of specification {block[1]} that doesn't show what it has to. The claim "
                    "may be so all the same.")
    return [*rows, "", "docs/PROOF_FORMAT.md says what each line has to show."] if rows else []


def of_outside(put: str) -> list[str]:
    found = FAULT.fullmatch(put)
    return ["", FAULTS[found[1]]] if found else []


def of_memory(status: int | None) -> list[str]:
    return ["", MEMORY] if status == NO_MEMORY else []

