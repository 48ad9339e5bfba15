#!/usr/bin/env python3
"""What small texts can make the program do that are made to hurt: the seconds and the memory of `check` for the worst shapes known.

  bench/hostile.py [SHAPE]..    these shapes; without words all of them

Each text is within the limits on files, and is decided, refused or left unknown at the usual node limit. The last shapes, of
definitions in a thousand instances, take minutes and some gigabytes: they run only where they are named.
Runs the build that ./smv would run, and says which kind that is: a build without proofs has run-time checks, and takes more.
Needs GNU time.
"""

import os
import resource
import subprocess
import sys
import tempfile

TOP = os.path.dirname(os.path.dirname(os.path.abspath(__file__)))
MOST_SECONDS = 600
TIME = "/usr/bin/time"


def main(variables, rest):
    return f"MODULE main\nVAR {variables}\n{rest}\n"


def joined(form, count, between=""):
    return between.join(form.format(i=i, j=i - 1) for i in range(count))


def chain(first, form, count):
    return f"DEFINE d0:={first};" + "".join(f"d{i}:={form.format(j=i - 1)};" for i in range(1, count))


def instances(definitions):
    return "MODULE m\nDEFINE\n" + definitions + main(joined("a{i}:m;", 1022) + "b:boolean;", "SPEC b")


SHAPES = {
    "8,000 members of a set": lambda: main("x:0..1023;", "SPEC x in {" + joined("{i}", 8000, ",") + "}"),
    "100,000 members of a set": lambda: main("x:0..1023;", "SPEC x in {" + joined("{i}", 100000, ",") + "}"),
    "150,000 members of a next value": lambda: main(
        "x:0..1023;", "ASSIGN next(x):={" + ",".join(str(i % 1024) for i in range(150000)) + "};\nSPEC x=0"
    ),
    "a variable a thousand times in a set": lambda: main("x:0..1023;y:0..1023;", "SPEC y in {" + joined("x", 1000, ",") + "}"),
    "a case of 1,024 arms": lambda: main(
        "x:{" + joined("s{i}", 1024, ",") + "};",
        "ASSIGN next(x):=case " + "".join(f"x=s{i}:s{i * 7 % 1024};" for i in range(1024)) + " esac;\nSPEC EF x=s3",
    ),
    "a case of products": lambda: main(
        "x:0..255;y:0..255;", "SPEC case x=y:x*y;" + joined("x={i}:x*{i};", 100) + "1:0;esac=3"
    ),
    "a product of 1,024 values each": lambda: main("x:0..1023;y:0..1023;", "SPEC x*y=7"),
    "a sum of eight variables": lambda: main(joined("x{i}:0..255;", 8), "SPEC " + joined("x{i}", 8, "+") + "=3"),
    "definitions that double": lambda: main("b:boolean;", chain("b", "d{j}&d{j}", 17) + "SPEC d16"),
    "a chain of 50,000 definitions": lambda: main("b:boolean;", chain("b", "d{j}", 50000) + "SPEC d49999"),
    "100,000 lines TRANS": lambda: main("b:boolean;", "TRANS b\n" * 100000 + "SPEC EF b"),
    "60,000 modules": lambda: joined("MODULE m{i}\n", 60000) + main("b:boolean;", "SPEC b"),
    "a parameter through a thousand instances": lambda: "MODULE m(p)\nDEFINE q:=p;\n"
    + main("b:boolean;" + "a0:m(b);" + "".join(f"a{i}:m(a{i - 1}.q);" for i in range(1, 1022)), "SPEC a1021.q"),
}

# Named alone.
LARGE = {
    "a chain of 40,000 definitions in 1,022 instances": lambda: instances(
        "d0:=0;\n" + "".join(f"d{i}:=d{i - 1};\n" for i in range(1, 40000))
    ),
    "80,000 constants in 1,022 instances": lambda: instances(joined("d{i}:=0;\n", 80000)),
}


def build():
    """Returns the program that ./smv runs, after it has built it."""
    subprocess.run([f"{TOP}/smv", "check", f"{TOP}/examples/swap.smv"], capture_output=True, check=False)
    said = subprocess.run(
        ["bash", "-c", f'. "{TOP}/tools/builds.sh"; echo "$out/$(standing_build)"'], capture_output=True, text=True, check=True
    )
    return said.stdout.strip()


def measured(program, text):
    """Returns the seconds of processor time, the megabytes and the last line of a check of the text."""
    with tempfile.TemporaryDirectory() as room:
        model, used = f"{room}/model.smv", f"{room}/used"
        with open(model, "w", encoding="utf-8") as it:
            it.write(text)
        # (a process counts the memory of the one that started it, so a small one has to)
        said = subprocess.run([TIME, "-q", "-o", used, "-f", "%U %S %M", program, "check", model], capture_output=True, text=True, check=False)
        with open(used, encoding="utf-8") as it:
            user, system, kilobytes = it.read().split()[-3:]
    lines = said.stdout.splitlines() or [""]
    return float(user) + float(system), int(kilobytes) / 1024, lines[-1]


def run(names):
    shapes = {**SHAPES, **LARGE}
    unknown = [it for it in names if it not in shapes]
    if unknown:
        print(f"no such shape: {unknown[0]}; there are: {', '.join(shapes)}", file=sys.stderr)
        return 2
    program = build()
    if not os.path.isfile(program):
        print("no build of the program stands", file=sys.stderr)
        return 1
    if not os.path.isfile(TIME):
        print(f"{TIME} is lacking", file=sys.stderr)
        return 1
    resource.setrlimit(resource.RLIMIT_CPU, (MOST_SECONDS, MOST_SECONDS))
    print(f"build: {os.path.basename(program).split('-')[0]}")
    print(f"{'shape':<50} {'bytes':>9} {'seconds':>8} {'MB':>6}  last line")
    for name in names or SHAPES:
        text = shapes[name]()
        seconds, megabytes, last = measured(program, text)
        print(f"{name:<50} {len(text):>9,} {seconds:>8.2f} {megabytes:>6.0f}  {last}", flush=True)
    return 0


if __name__ == "__main__":
    sys.exit(run(sys.argv[1:]))
