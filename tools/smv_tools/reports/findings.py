"""The record of a run over a model: what was found of each specification, and what the program said of the proofs and paths.

The JSON report is this record (docs/REPORTS.md); the other forms of a report are made from it. What decides is the program:
nothing is added here but names, places and times."""
from __future__ import annotations

import hashlib
import tempfile
import time
from collections.abc import Iterable, Sequence
from dataclasses import dataclass, field
from pathlib import Path

from ..marks import MarkFault, Specification, number_of, specifications
from ..model import Model, Unreadable
from ..program import Ended, Program
from ..proof_files import ProofFile
from ..refusals import Refusal
from ..report import Report, Trace, Unread, Verdict, answers_of
from ..source import Source, printable
from ..statuses import DECIDED, MEMORY, OUTSIDE, UNDECIDED, Stop
from ..trace_files import TraceFile
from .places import Span, refusal_place

USUAL_NODES = 1_000_000


@dataclass(frozen=True)
class Said:
    """What `recheck` said of a proof, or `replay` of a path: `accepted`, `rejected` or `unanswered`, or of a proof that isn't
    there `left out`, since the file would be too long, or `none`; what is behind that word; of a proof its lines and nodes."""

    answer: str
    more: str = ""
    lines: int | None = None
    nodes: int | None = None

    @property
    def accepted(self) -> bool:
        return self.answer == "accepted"


@dataclass
class Finding:
    """A specification with its verdict. The place and the formula are those of the section `SPEC`, and there may be none of
    them where the tools can't read the text."""

    number: int
    line: int
    verdict: str
    name: str | None = None
    label: bool = False
    expected: str | None = None
    instance: str = "main"
    span: Span | None = None
    formula: str = ""
    # The node limit that was met.
    limit: int | None = None
    # State 0, and a path where one was shown.
    trace: Trace | None = None
    proof: Said | None = None
    replay: Said | None = None

    @property
    def shown(self) -> str:
        """The name, or the number where there is none."""
        return self.name or str(self.number)

    @property
    def as_expected(self) -> bool | None:
        """Whether the verdict is the one that the text expects; none where it expects none."""
        return None if self.expected is None else self.expected == self.verdict


@dataclass
class RefusedAt:
    """The refusal, its place, and the line of the text."""

    refusal: Refusal
    span: Span | None
    text: str

    @property
    def line(self) -> str:
        """The program's line without the word `refused`."""
        line = [] if self.refusal.line is None else ["line", str(self.refusal.line)]
        return " ".join([self.refusal.code, *line, *self.refusal.words])


@dataclass
class Findings:
    """A run over a model. `status` is that of `check`: none where its time was over, negative for a signal. `ending` says in
    words why there is no report, where there is none and no refusal."""

    path: str
    nodes: int
    status: int | None = None
    seconds: float = 0.0
    # Of testing proofs and paths.
    test_seconds: float = 0.0
    sha256: str = ""
    findings: list[Finding] = field(default_factory=list)
    refused: RefusedAt | None = None
    ending: str = ""
    # What isn't right in the marks of the text, or that it can't be read for names and places.
    notes: list[str] = field(default_factory=list)

    def count(self, verdict: str) -> int:
        return sum(it.verdict == verdict for it in self.findings)

    def select(self, wanted: Iterable[int]) -> None:
        """Keeps the findings of these specifications alone."""
        numbers = set(wanted)
        self.findings = [it for it in self.findings if it.number in numbers]


# ---- what ended a run

def ending_of(ended: Ended, seconds: float | None) -> str:
    """Why a run put neither report nor refusal, in words."""
    if ended.status is None:
        return f"its time of {seconds:g} s was over" if seconds else "its time was over"
    if ended.status < 0:
        return f"it was ended by signal {-ended.status}"
    if ended.status == MEMORY:
        return "memory ran out"
    if ended.status == OUTSIDE:
        return ended.put.decode(errors="replace").strip() or "the output failed"
    return f"it ended with status {ended.status} and no report"


# ---- names and places

def describe(finding: Finding, source: Source, specification: Specification) -> None:
    """Adds what the text says of the specification."""
    item = specification.item
    finding.name, finding.label = specification.name, specification.label
    finding.expected = specification.expected
    finding.instance = item.instance
    finding.span = Span.of(source, item.first, item.behind)
    finding.formula = " ".join(printable(source.text[item.expr.first:item.expr.behind]).split())


def described(source: Source, verdicts: Sequence[Verdict], notes: list[str]) -> list[Finding]:
    """The verdicts as findings, with names and places where the text is read."""
    found = [Finding(it.number, it.line, it.verdict, limit=it.limit, trace=it.trace) for it in verdicts]
    try:
        listed = specifications(Model.of(source))
    except Unreadable as why:
        notes.append(f"names and places can't be read: {why}")
        return found
    except MarkFault as fault:
        notes.append(str(fault))
        return found
    if [it.item.line for it in listed] != [it.line for it in verdicts]:
        notes.append("names and places can't be read: the specifications are others than the program's")
        return found
    for finding, specification in zip(found, listed):
        describe(finding, source, specification)
    return found


# ---- runs

class Room:
    """A folder with a copy of the text, so that each run is over the same bytes, whatever becomes of the file."""

    def __init__(self, folder: str, program: Program, source: Source, nodes: int | None) -> None:
        self.folder, self.program = Path(folder), program
        self.options = ["--nodes", str(nodes)] if nodes is not None else []
        (self.folder / "model.smv").write_bytes(source.data)

    @property
    def proof(self) -> Path:
        return self.folder / "proof"

    def run(self, command: str, *operands: str, options: Sequence[str] = ()) -> Ended:
        words = [command, *self.options, *options, "--", "model.smv", *operands]
        return self.program.run(words, folder=str(self.folder))

    def check(self, proofs: bool) -> Ended:
        """A check, with proofs where that ends well; where it doesn't, the check alone may."""
        if not proofs:
            return self.run("check")
        ended = self.run("check", options=["--proof", "proof"])
        if ended.status is None or ended.status < 0 or ended.status in (MEMORY, UNDECIDED):
            alone = self.run("check")
            return alone if alone.status in DECIDED else ended
        return ended


def nodes_of(block: Sequence[bytes]) -> int:
    """How many nodes the lines of a block list."""
    return sum(line.startswith(b"n ") for line in block)


def test_proofs(room: Room, findings: list[Finding], verdicts: Sequence[Verdict]) -> None:
    """Has each proof tested by `recheck`."""
    left_out = {it.number for it in verdicts if it.left_out is not None}
    data = room.proof.read_bytes() if room.proof.exists() else b""
    blocks = {it.number: it for it in ProofFile.read(data).blocks}
    lines = data.split(b"\n")
    ended = room.run("recheck", "proof") if blocks else None
    answers = {it.number: it for it in answers_of(ended.put)} if ended and ended.status in DECIDED else {}
    for it in findings:
        block, answer = blocks.get(it.number), answers.get(it.number)
        if block is None:
            it.proof = Said("left out" if it.number in left_out else "none")
        elif answer is None:
            it.proof = Said("unanswered", ending_of(ended, room.program.seconds) if ended else "")
        else:
            more = f"line {answer.line}" if answer.line else f"node limit {answer.limit}" if answer.limit else ""
            wrong = answer.claim != it.verdict
            it.proof = Said("rejected" if wrong else answer.answer, f"it claims {answer.claim}" if wrong else more,
                            block.last - block.first + 1, nodes_of(lines[block.first - 1:block.last]))


def test_paths(room: Room, findings: list[Finding]) -> None:
    """Has each path judged by `replay`."""
    for it in findings:
        if it.trace is None or it.trace.loop is None:
            continue
        (room.folder / "trace").write_bytes(TraceFile(it.number, it.trace).put())
        ended = room.run("replay", "trace")
        words = ended.put.decode(errors="replace").split(maxsplit=3)
        if ended.status in DECIDED and len(words) > 2 and words[0] == "trace":
            it.replay = Said(words[2].rstrip(":"), words[3].strip() if len(words) > 3 else "")
        else:
            it.replay = Said("unanswered", ending_of(ended, room.program.seconds))


def take_run(found: Findings, room: Room, source: Source, proofs: bool) -> None:
    begun = time.monotonic()
    ended = room.check(proofs)
    found.status, found.seconds = ended.status, time.monotonic() - begun
    refusal = ended.refusal
    if refusal:
        text = printable(source.line(refusal.line)) if refusal.line else ""
        found.refused = RefusedAt(refusal, refusal_place(source, refusal), text)
        return
    try:
        verdicts = Report.read(ended.put).parts if ended.status in DECIDED else []
    except Unread as why:
        found.ending = f"its report isn't read: {why}"
        return
    if ended.status not in DECIDED:
        found.ending = ending_of(ended, room.program.seconds)
        return
    found.findings = described(source, verdicts, found.notes)
    if proofs:
        begun = time.monotonic()
        test_proofs(room, found.findings, verdicts)
        test_paths(room, found.findings)
        found.test_seconds = time.monotonic() - begun


def gather(program: Program, path: str, nodes: int | None = None, proofs: bool = True, only: Sequence[str] = ()) -> Findings:
    """The record of a check of the file, with proofs that `recheck` tested and paths that `replay` judged unless `proofs` is
    not asked. `only` are numbers or names of specifications; Stop where there is none of that name."""
    found = Findings(path, nodes or USUAL_NODES)
    try:
        source = Source.load(path)
    except Stop as stop:
        found.status, found.ending = stop.status, str(stop)
        return found
    found.sha256 = hashlib.sha256(source.data).hexdigest()
    with tempfile.TemporaryDirectory(prefix="smv-") as folder:
        take_run(found, Room(folder, program, source, nodes), source, proofs)
    if only and found.findings:
        found.select(numbers_of(source, only, len(found.findings)))
    return found


def numbers_of(source: Source, only: Sequence[str], count: int) -> list[int]:
    """The numbers of these specifications."""
    numbers = []
    for word in only:
        number = int(word) if word.isascii() and word.isdigit() else number_of(Model.of(source), word)
        if not 1 <= number <= count:
            raise Stop(f"{source.path} has no specification {word}: it has {count}")
        numbers.append(number)
    return numbers
