#!/usr/bin/env python3
"""What the test of a path costs: the instructions of `replay` for paths of more and more states, formulas of each kind, and what
each takes of the one before.

  bench/replay.py [LEAST MOST]    paths of 2^LEAST to 2^MOST states; 7 to 10 without words

Where the cost is linear in the length of the path, each ratio is near 2; where it is quadratic, near 4. Of the levels of
operators without an AG between, twice as many take four times as much, as each part asks all operators above it. What a replay of the
same path takes for a formula of one leaf is taken off. Runs the build that ./smv would run, under valgrind's callgrind, which
counts the same instructions at each call. Needs valgrind.
"""

import os
import sys
import tempfile

from paths import build, instructions


def levels(count):
    """A formula in which each part stands below the operators of all before it, and no AG between."""
    return "AG " + "(q -> (AX q & " * count + "AX q" + "))" * count


QUESTIONS = {
    "AG p": "AG q",
    "four AG": "AG AG AG AG q",
    "AG AF p": "AG AF !q",
    "AG A[p U q]": "AG A[q U !q]",
    "AG (p -> AX p)": "AG (q -> AX q)",
    "64 AG": "AG (q & " * 64 + "q" + ")" * 64,
    "24 levels": levels(24),
    "48 levels": levels(48),
}


def counter(bits, spec):
    """A counter that goes round, whose q is 1 in each state, with the specification."""
    names = [f"b{i}" for i in range(bits)]
    rows = [f"next({name}) := case {' & '.join(['1', *names[:i]])} : !{name}; 1 : {name}; esac;" for i, name in enumerate(names)]
    return (
        "MODULE main\nVAR " + " ".join(f"{name} : boolean;" for name in names)
        + "\nDEFINE q := b0 | !b0;\nASSIGN\n" + "\n".join(f"init({name}) := 0;" for name in names) + "\n" + "\n".join(rows)
        + f"\nSPEC {spec}\n"
    )


def path(bits):
    lines = ["trace 1"]
    for number in range(2**bits):
        lines += [f"state {number}", *(f"  b{i} = {number >> i & 1}" for i in range(bits))]
    return "\n".join([*lines, "loop 0", ""])


def cost(program, room, bits, spec):
    for name, text in (("model.smv", counter(bits, spec)), ("path", path(bits))):
        with open(f"{room}/{name}", "w", encoding="ascii") as file:
            file.write(text)
    return instructions(program, ["replay", f"{room}/model.smv", f"{room}/path"])


def main(words):
    least, most = (int(words[0]), int(words[1])) if words else (7, 10)
    program, before = build(), {}
    print(f"{os.path.basename(program).split('-')[0]} build; millions of instructions above those of one leaf, and times the row above")
    with tempfile.TemporaryDirectory() as room:
        for bits in range(least, most + 1):
            leaf, row = cost(program, room, bits, "q"), []
            for name, spec in QUESTIONS.items():
                count = cost(program, room, bits, spec) - leaf
                row.append(f"{name} {count / 1e6:,.1f}" + (f" ({count / before[name]:.1f})" if name in before else ""))
                before[name] = count
            print(f"{2 ** bits} states: " + ", ".join(row), flush=True)


if __name__ == "__main__":
    main(sys.argv[1:])
