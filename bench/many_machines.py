#!/usr/bin/env python3
"""Measures `./smv test --engine parallel`: 200 tasks over 1, 2 and 4 workers on this machine, through ssh to itself, and over 4
of which one answers falsely. Each worker runs one task at a time. The tasks are the specifications of rings of inverters.

    bench/many_machines.py [WORKERS..]        as in: bench/many_machines.py 1 2 4 liar

Prints a line for each run: seconds of the clock, of the runs on the workers, and of the tests of proofs and paths here."""
import os
import re
import subprocess
import sys
import tempfile
import time
from pathlib import Path

TOP = Path(__file__).resolve().parents[1]
sys.path.insert(0, str(TOP / "tools/tests"))
from workers import missing, workers  # noqa: E402

SIZES, COPIES = range(9, 14), 20


def smv(*words, **environment):
    return subprocess.run([TOP / "smv", *words], env={**os.environ, "SMV_QUIET": "1", **environment}, capture_output=True, text=True)


def write_models(folder):
    """Models whose texts differ, so that each is a task of its own. Both specifications are true for an odd size."""
    for size in SIZES:
        verdict = "true" if size % 2 else "false"
        text = re.sub(r"^(SPEC .*)$", rf"\1 -- EXPECT {verdict}", smv("gen", str(size)).stdout, flags=re.M)
        for copy in range(COPIES):
            (folder / f"ring{size}_{copy}.smv").write_text(f"-- copy {copy}\n{text}")


def measure(what, room, models):
    count = 4 if what == "liar" else int(what)
    names = [f"worker{k + 1}" for k in range(count)]
    with workers(room, names, ["worker3"] if what == "liar" else []) as environment:
        logins = [it for name in names for it in ("--sshlogin", name)]
        begun = time.monotonic()
        ended = smv("test", "-q", str(models), "--engine", "parallel", "--jobs", "1", "--room", str(room / "room"), *logins,
                    **environment)
        seconds = time.monotonic() - begun
    ran = sum(float(it) for it in re.findall(r"^smv: worker\d+: \d+ tasks, ([\d.]+) s", ended.stderr, re.M))
    tests = re.search(r"tests of proofs and paths here: ([\d.]+) s", ended.stderr)
    print(f"{what}: {seconds:.1f} s of the clock, {ran:.1f} s on the workers, {tests[1] if tests else '?'} s of tests here")
    print(ended.stdout + ended.stderr, flush=True)


def main(runs):
    if missing():
        sys.exit(f"this needs {', '.join(missing())}")
    with tempfile.TemporaryDirectory(prefix="smv-") as folder:
        models = Path(folder, "models")
        models.mkdir()
        write_models(models)
        for what in runs:
            room = Path(folder, f"run-{what}")
            room.mkdir()
            measure(what, room, models)


main(sys.argv[1:] or ["1", "2", "4", "liar"])
