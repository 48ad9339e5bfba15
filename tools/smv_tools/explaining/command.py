"""The command `explain`."""
from __future__ import annotations

from ..calls import Call
from ..program import Ended
from ..screen import put, tell
from ..source import Source
from ..statuses import FAILED, OUTSIDE, UNDECIDED, USAGE, Stop
from ..words import commands
from ..wrong_words import wrong_of_program
from . import others
from .rounds import Asked, mistakes_of
from .rules import FILE_RULES, RULES
from .shown import text_of

# The program's commands whose answers are explained beside those of `check`.
OTHERS = ("check", "recheck", "replay", "delay", "strong")


def words_of(call: Call) -> tuple[str, list[str]]:
    """The program's command, and its operands: a model alone is checked."""
    first, *rest = call.operands
    if first in OTHERS and rest:
        return first, rest
    if rest:
        raise Stop(f"explain takes one MODEL, or {', '.join(OTHERS[1:])} and its words; {rest[0]} is one word more", USAGE)
    return "check", [first]


def explained(call: Call, ended: Ended, command: str, operands: list[str]) -> list[str] | str:
    """What is told of the answer; nothing where it says all."""
    asked, refusal, text = Asked(call.program, call.nodes), ended.refusal, ended.put.decode(errors="replace")
    if refusal is not None and refusal.code == "E24":
        return others.of_specification(refusal, operands[0])
    if refusal is not None and refusal.code in RULES:
        source = Source.load(operands[0])
        return text_of(source, mistakes_of(source, refusal, asked))
    if refusal is not None and refusal.code in FILE_RULES:
        return others.of_file(refusal, operands[0], operands[1])
    if ended.status == UNDECIDED:
        return others.of_unknown(ended, operands[0], asked, call.nodes)
    if ended.status == FAILED and command in ("recheck", "replay"):
        return others.of_rejected(text, operands)
    return others.of_outside(text) or others.of_memory(ended.status)


def run(call: Call) -> int:
    command, operands = words_of(call)
    ended = call.program.run([command, *call.nodes, "--", *operands])
    put(ended.put)
    if ended.status == USAGE:
        tell(wrong_of_program([command, *call.nodes, *operands]) if command in commands() else "no command")
        return USAGE
    told = explained(call, ended, command, operands)
    if told:
        put((told if isinstance(told, str) else "\n".join(told) + "\n").encode(errors="backslashreplace"))
    return status_of(ended)


def status_of(ended: Ended) -> int:
    """The program's status; that of a shell where a signal ended it."""
    if ended.status is None:
        return OUTSIDE
    return ended.status if ended.status >= 0 else 128 - ended.status

