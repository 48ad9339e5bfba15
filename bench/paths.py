#!/usr/bin/env python3
"""What a long path costs: the instructions of `check`, `strong` and `delay` where the shortest path has as many states as a
counter has numbers, for counters of more and more bits, and what each takes of the one before.

  bench/paths.py [LEAST MOST]    counters of LEAST to MOST bits; 7 to 11 without words

Where the cost is linear in the length of the path, each ratio is near 2; where it is quadratic, near 4. Runs the build that
./smv would run, under valgrind's callgrind, which counts the same instructions at each call. Needs valgrind.
"""

import os
import re
import subprocess
import sys
import tempfile

TOP = os.path.dirname(os.path.dirname(os.path.abspath(__file__)))


def counter(bits):
    """A counter that stops at its greatest number, with what is asked of it."""
    names = [f"b{i}" for i in range(bits)]
    rows = []
    for i, name in enumerate(names):
        carry = " & ".join(["1", *names[:i]])
        rows.append(f"init({name}) := 0; next({name}) := case all : {name}; {carry} : !{name}; 1 : {name}; esac;")
    return (
        "MODULE main\nVAR " + " ".join(f"{name} : boolean;" for name in names)
        + "\nDEFINE all := " + " & ".join(names) + ";\nASSIGN\n" + "\n".join(rows)
        + "\nSPEC AG !all\nSPEC " + " & ".join(f"!{name}" for name in names) + "\nSPEC all\nSPEC 0\n"
    )


def build():
    words = f". {TOP}/tools/builds.sh; standing_build"
    name = subprocess.run(["bash", "-c", words], capture_output=True, text=True, check=True).stdout.strip()
    if not name:
        sys.exit("no build of the program stands: ./smv check examples/swap.smv makes one")
    return f"{TOP}/crates/smv_run/out/{name}"


def instructions(program, words):
    ran = subprocess.run(
        ["valgrind", "--tool=callgrind", "--callgrind-out-file=/dev/null", program, *words],
        stdout=subprocess.DEVNULL, stderr=subprocess.PIPE, text=True, check=False,
    )
    return int(re.search(r"Collected : (\d+)", ran.stderr).group(1))


QUESTIONS = {
    "check": lambda path: ["check", path],
    "strong": lambda path: ["strong", path, "2:4"],
    "delay": lambda path: ["delay", path, "2", "3"],
}


def main(words):
    least, most = (int(words[0]), int(words[1])) if words else (7, 11)
    program, before = build(), {}
    print(f"{os.path.basename(program).split('-')[0]} build; millions of instructions, and times the row above")
    with tempfile.TemporaryDirectory() as room:
        for bits in range(least, most + 1):
            path = f"{room}/counter.smv"
            with open(path, "w", encoding="ascii") as file:
                file.write(counter(bits))
            row = []
            for name, of in QUESTIONS.items():
                count = instructions(program, of(path))
                ratio = f" ({count / before[name]:.1f})" if name in before else ""
                row.append(f"{name} {count / 1e6:,.0f}{ratio}")
                before[name] = count
            print(f"{bits} bits: " + ", ".join(row), flush=True)


if __name__ == "__main__":
    main(sys.argv[1:])
