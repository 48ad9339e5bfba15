"""The command `replay` over a saved report: the paths that it has, judged by the program."""
from __future__ import annotations

from pathlib import Path

from ..calls import Call
from ..screen import put
from ..source import Source
from ..statuses import CLEAR, DECIDED, OUTSIDE, USAGE, Stop
from .saved import load


def run(call: Call) -> int:
    model, file, number = call.operands[0], call.operands[1], call.operand(2)
    try:
        begins = Path(file).open("rb").read(6)
    except OSError:
        begins = b"trace "
    if number is None and begins not in (b"spec 1", b"model ", b"total "):
        ended = call.program.run(["replay", *call.nodes, "--", model, file])
        put(ended.put)
        return ended.status if ended.status is not None and ended.status >= 0 else OUTSIDE
    if number is not None and (not number.isdigit() or number[0] == "0"):
        raise Stop(f"J is the number of a specification, from 1 on, not {number}", USAGE)
    saved = load(file, model)
    paths = [saved.path(int(number))] if number is not None else saved.paths
    if not paths:
        raise Stop("the report has no path")
    data, worst = Source.load(model).data, CLEAR
    for path in paths:
        ended = call.program.on_text(data, "replay", ["path"], call.nodes, {"path": path.put()})
        put(ended.put)
        if ended.status not in DECIDED:
            return ended.status if ended.status is not None and ended.status > 0 else OUTSIDE
        worst = max(worst, ended.status)
    return worst
