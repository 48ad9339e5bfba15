"""The table of commands: help, `--help`, wrong words, the page of the manual and completion are all made from it.

Only the standard library is used here. A package of PACKAGES that is there adds the commands of its module `words`."""
from __future__ import annotations

import importlib
import importlib.util
from dataclasses import dataclass, field
from functools import cache

PACKAGES = ("explaining", "failures", "imports", "probes", "order", "reports", "machines", "layout", "language_server")


@dataclass(frozen=True)
class Option:
    """An option: its name as `--nodes`, what its value is called (nothing for a flag), one line on it, the kind of the value
    for completion (`file`, `number` or `word`), the words that are allowed where they are few. `many`: it may stand again."""

    name: str
    value: str
    summary: str
    kind: str = "word"
    choices: tuple[str, ...] = ()
    many: bool = False
    short: str = ""


@dataclass(frozen=True)
class Operand:
    """An operand: its name, whether it may be left out, whether there may be several; kind `model`, `file`, `number`, `word`."""

    name: str
    kind: str = "word"
    optional: bool = False
    many: bool = False

    @property
    def usage(self) -> str:
        text = f"{self.name}.." if self.many else self.name
        return f"[{text}]" if self.optional else text


@dataclass(frozen=True)
class Command:
    """A command: its name, one line on it, operands, options, some lines more, an example. `module` is the one whose `run`
    takes its words; nothing where the program takes them itself."""

    name: str
    summary: str
    operands: tuple[Operand, ...]
    options: tuple[Option, ...]
    about: str
    example: str
    module: str = ""
    # Whether a build of the program has to stand.
    needs_build: bool = True
    needs: tuple[str, ...] = field(default=("click", "rich"))

    @property
    def usage(self) -> str:
        words = [self.name, *(operand.usage for operand in self.operands)]
        words += [f"[{option.name}{' ' + option.value if option.value else ''}]" for option in self.options]
        return " ".join(words)

    def option(self, name: str) -> Option | None:
        return next((it for it in self.options if name in (it.name, it.short)), None)


MODEL = Operand("MODEL", "model")
NODES = Option("--nodes", "N", "the node limit: 1 to 2147483647, 1000000 where none is asked", "number")
VERBOSE = Option("--verbose", "", "tell on standard error which specification is at work")
JOBS = Option("--jobs", "N", "so many runs at a time, over models and specifications", "number")
PROOF = Option("--proof", "FILE", "save a proof of each verdict in FILE", "file")
PARTIAL = Option("--partial", "", "take a proof file that has no block for some specification")

PROGRAM_COMMANDS = (
    Command(
        "check", "decide each specification of a model", (Operand("MODEL", "model", many=True),), (NODES, PROOF, VERBOSE, JOBS),
        "Puts one line for each SPEC, in order, and the path of a false one below it. Of several models each report stands "
        "behind a line `model NAME`, and the status is the greatest. With --proof one model is taken, and one run decides all.",
        "smv check examples/swap.smv",
    ),
    Command(
        "recheck", "test a proof file line by line, whoever wrote it", (MODEL, Operand("PROOF", "file")), (NODES, PARTIAL),
        "Puts `accepted` or `rejected` for each block of the file. A file without a block for some specification is told, and "
        "the status isn't 0 then unless --partial is given.",
        "smv recheck examples/peterson.smv peterson.proof",
    ),
    Command(
        "replay", "judge a path that is to show a specification false", (MODEL, Operand("TRACE", "file")), (NODES,),
        "TRACE is a path as reports have it, behind a line `trace J` with the number of the specification.",
        "smv replay examples/peterson.smv path",
    ),
    Command(
        "delay", "least and longest time from one specification to another",
        (MODEL, Operand("FROM", "number"), Operand("TO", "number")), (NODES,),
        "FROM and TO are specifications without path operators, by their numbers or by the names that comments NAME give them. "
        "The time is counted in steps.",
        "smv delay examples/waiting_counter.smv two five",
    ),
    Command(
        "strong", "a path that keeps promises of strong fairness, or why there is none",
        (MODEL, Operand("PAIR", "word", optional=True, many=True)), (NODES,),
        "Each PAIR is I:J, two specifications without path operators, by their numbers or their names: where I is true again and "
        "again, so is J.",
        "smv strong examples/kept_out.smv left_has:nothing free:left_has",
    ),
    Command(
        "gen", "put the text of a ring of N processes", (Operand("N", "number"),),
        (Option("--check", "", "decide the specifications of that text"),),
        "N is a number from 1 to 999.", "smv gen 3",
    ),
)

TOOL_COMMANDS = (
    Command(
        "help", "all commands, or one of them", (Operand("WORD", "command", optional=True),), (),
        "`--help` behind a command puts the same.", "smv help check", "help", needs_build=False, needs=(),
    ),
)

# Words that stand in place of a command, or before it.
GLOBAL_OPTIONS = (
    Option("--version", "", "the program's version, the commit, and whether this build is proved"),
    Option("--help", "", "all commands", short="-h"),
    Option("--proved", "", "prove the program first: stands before the command"),
)


def of_package(name: str) -> tuple[Command, ...]:
    """The commands that a package adds; none where it isn't there."""
    if importlib.util.find_spec(f"{__package__}.{name}") is None:
        return ()
    found: tuple[Command, ...] = importlib.import_module(f"{__package__}.{name}.words").COMMANDS
    return found


@cache
def commands() -> dict[str, Command]:
    """All commands by name, in the order of the help. A later one of the same name stands in place of the earlier."""
    added = [command for name in PACKAGES for command in of_package(name)]
    return {it.name: it for it in [*PROGRAM_COMMANDS, *TOOL_COMMANDS[:-1], *added, TOOL_COMMANDS[-1]]}
