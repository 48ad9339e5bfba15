"""The command `simulate`: a walk through a model at a terminal, or at random."""
from __future__ import annotations

import itertools
import random
import sys
from collections.abc import Sequence

from ..calls import Call
from ..model import SELECTOR, Model
from ..report import State, Trace
from ..screen import put, tell
from ..source import Source
from ..statuses import CLEAR, DECIDED, FAILED, Stop
from ..trace_files import TraceFile
from .asking import Asking
from .copies import Copy
from .rows import Row, define_rows, variable_rows
from .stepping import Stepping
from .tracing import model_of, write_file

MOST_LISTED, MOST_TAKEN = 20, 20_000
HELP = "a number goes there; r: at random; b: one back; p NAME: let a process move; q: leave"


def accepted(call: Call, model: Model) -> int:
    """0 where the program accepts the model; else its status, behind its answer."""
    ended = call.program.on_text(Copy(model).text(), options=call.nodes)
    if ended.status not in DECIDED:
        put(call.program.check(call.model, call.nodes).put)
    return 0 if ended.status in DECIDED else int(ended.status or FAILED)


def taken(states: "itertools.chain[State] | object") -> list[State]:
    """The states, but for those behind the greatest number, which is told."""
    found = list(itertools.islice(states, MOST_TAKEN + 1))  # type: ignore[call-overload]
    if len(found) > MOST_TAKEN:
        tell(f"there are more than {MOST_TAKEN} states to go to; the first {MOST_TAKEN} are taken")
    return found[:MOST_TAKEN]


def difference(state: State, other: State) -> str:
    """What the step into the other state changes."""
    parts = [f"{name} = {value}" for name, value in other.items() if state[name] != value]
    return ", ".join(parts) or "nothing changes"


def show(model: Model, state: State, before: State | None, k: int) -> None:
    rows: list[Row] = [*variable_rows(model, [state]), *define_rows(model, [state])]
    print(f"state {k}")
    for row in rows:
        star = "*" if before is not None and row.name in before and str(before[row.name]) != row.cells[0] else " "
        print(f" {star}{row.name} = {row.cells[0]}")


def ask(choices: Sequence[State], state: State | None) -> str:
    for k, it in enumerate(choices[:MOST_LISTED], 1):
        text = difference(state, it) if state else ", ".join(f"{name} = {value}" for name, value in it.items())
        print(f"  {k}: {text}")
    if len(choices) > MOST_LISTED:
        print(f"  .. {len(choices)} in all")
    try:
        return input("> ").strip()
    except EOFError:
        return "q"


def picked(word: str, choices: Sequence[State], chance: random.Random) -> list[State]:
    """The states that the word leaves."""
    if word == "r":
        return [chance.choice(choices)]
    if word.isascii() and word.isdigit() and 1 <= int(word) <= len(choices):
        return [choices[int(word) - 1]]
    if word.startswith("p "):
        return [it for it in choices if it.get(SELECTOR) == word[2:].strip()]
    return []


def walk(call: Call, model: Model, stepping: Stepping, chance: random.Random) -> list[State]:
    """The states of a walk that a reader leads."""
    path: list[State] = []
    choices = taken(stepping.initial_states())
    print(HELP)
    while True:
        if not choices:
            print("no initial state" if not path else "a dead end: no step leads out of this state")
        word = ask(choices, path[-1] if path else None)
        if word == "q":
            return path
        if word == "b" and path:
            path.pop()
            choices = taken(stepping.next_states(path[-1]) if path else stepping.initial_states())
            continue
        some = picked(word, choices, chance) if choices else []
        if not some:
            print(HELP)
        elif len(some) > 1:
            choices = some
        else:
            path.append(some[0])
            show(model, path[-1], path[-2] if len(path) > 1 else None, len(path) - 1)
            choices = taken(stepping.next_states(path[-1]))


def at_random(stepping: Stepping, steps: int, chance: random.Random) -> list[State]:
    """A walk of so many steps, or to a dead end."""
    choices = taken(stepping.initial_states())
    if not choices:
        raise Stop("the model has no initial state")
    path = [chance.choice(choices)]
    for _ in range(steps):
        choices = taken(stepping.next_states(path[-1]))
        if not choices:
            tell(f"a dead end after {len(path) - 1} steps: no step leads out of state {len(path) - 1}")
            break
        path.append(chance.choice(choices))
    return path


def closed(asking: Asking, path: list[State]) -> Trace:
    """The walk with a fair loop behind it, which the program finds."""
    rest = asking.fair_path(path[-1])
    loop = None if rest.loop is None else rest.loop + len(path) - 1
    return Trace([*path[:-1], *rest.states], loop)


def run(call: Call) -> int:
    source = Source.load(call.model)
    model = model_of(source)
    status = accepted(call, model)
    if status:
        return status
    chance = random.Random(call.number("--seed"))
    stepping, out = Stepping(model), call.option("--path")
    if not call.has("--random"):
        if not sys.stdin.isatty() and sys.stdin.closed:
            raise Stop("there is nobody to ask; --random goes on alone")
        path = walk(call, model, stepping, chance)
    else:
        path = at_random(stepping, call.number("--steps") or 10, chance)
    if not path:
        return CLEAR
    trace = Trace(path)
    if out:
        trace = closed(Asking(model, call.program, call.nodes), path)
        if trace.loop is None:
            raise Stop("no fair path goes on from the last state, so there is no trace file")
        write_file(out, lambda file: file.write(TraceFile(1, trace).put().decode()))
    elif call.has("--random"):
        put("".join(f"{line}\n" for line in trace.lines()).encode())
    return CLEAR
