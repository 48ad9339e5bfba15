"""The page of the manual, from the table of commands. Only the standard library is used here."""
from __future__ import annotations

import re
from collections.abc import Iterator

from .words import GLOBAL_OPTIONS, Command, Operand, Option, commands

HEAD = '.\\" Written by tools/write-words from the table of commands (tools/smv_tools/words.py).\n'
STATUSES = (
    ("0", "Every specification is true, every block is accepted, both delays are found, the trace is accepted, there is a strong "
          "path, the text of a ring was put, or a tool has done what it was asked."),
    ("1", "Some specification is false, some block or the trace is rejected, or there is no strong path."),
    ("2", "Something is unknown: ask for more by --nodes."),
    ("3", "The model is refused, or the number of a specification."),
    ("4", "A file could not be loaded or saved, or the output failed."),
    ("5", "The words are no command."),
    ("6", "Memory ran out. Nothing was put, and no file was changed."),
    ("7", "The proof file or the trace file is refused."),
    ("70", "There is no program to run, or nothing to show."),
)
VARIABLES = (
    ("SMV_QUIET", "Where it is set, nothing is said of the build on standard error."),
    ("SMV_PYTHON", "The interpreter for the tools: Python 3.11 with click and rich. Without it, /usr/bin/python3."),
    ("NO_COLOR", "Where it is set, nothing is coloured."),
)
CAVEATS = ("A state without a next one lies on no path, so `AG EX 1` is true of every model, also of one that comes to a dead end.",
           "The program wants 5 MB of stack for expressions that are nested as deep as they may be.")


def escaped(text: str) -> str:
    """The text for the page: `-` as it is typed, what stands in backticks bold."""
    text = text.replace("\\", "\\e").replace("-", "\\-")
    text = re.sub(r"`([^`]*)`", r"\\fB\1\\fR", text)
    return f"\\&{text}" if text[:1] in (".", "'") else text


def operand_text(operand: Operand) -> str:
    text = f"\\fI{escaped(operand.name)}\\fR{' ...' if operand.many else ''}"
    return f"[{text}]" if operand.optional else text


def option_text(option: Option) -> str:
    names = ", ".join(f"\\fB{escaped(it)}\\fR" for it in (option.short, option.name) if it)
    return names + (f" \\fI{escaped(option.value)}\\fR" if option.value else "")


def usage_text(command: Command) -> str:
    parts = [f"\\fB{escaped(command.name)}\\fR", *map(operand_text, command.operands)]
    return " ".join([*parts, *(f"[{option_text(it)}]" for it in command.options)])


def tagged(head: str, text: str) -> Iterator[str]:
    yield ".TP"
    yield head
    yield text


def command_lines(command: Command) -> Iterator[str]:
    yield f".SS {usage_text(command)}"
    yield escaped(f"{command.summary[0].upper()}{command.summary[1:]}.")
    yield escaped(command.about)
    for option in command.options:
        yield from tagged(option_text(option), escaped(f"{option.summary[0].upper()}{option.summary[1:]}."))
    yield ".PP"
    yield ".EX"
    yield escaped(command.example)
    yield ".EE"


def page(version: str) -> str:
    """The whole page."""
    lines = [f'.TH SMV 1 "" "smv {version}"', ".SH NAME", "smv, smv_run \\- decide CTL specifications of SMV models, and test "
             "proofs of them", ".SH SYNOPSIS"]
    for command in commands().values():
        lines += [f"\\fBsmv\\fR {usage_text(command)}", ".br"]
    lines += [f"\\fBsmv\\fR [{' | '.join(option_text(it) for it in GLOBAL_OPTIONS)}]", ".SH DESCRIPTION",
              "\\fBsmv\\fR reads a model in McMillan's SMV language and decides for each specification whether it holds at all "
              "initial states, where paths are infinite and fair. What decides, tests proofs and judges paths is the program "
              "\\fBsmv_run\\fR; the other commands are tools beside it.", ".SH COMMANDS"]
    for command in commands().values():
        lines += command_lines(command)
    lines.append(".SH OPTIONS")
    for option in GLOBAL_OPTIONS:
        lines += tagged(option_text(option), escaped(f"{option.summary[0].upper()}{option.summary[1:]}."))
    lines += tagged("\\fB\\-\\-\\fR", "What follows is no option.")
    lines.append(".SH EXIT STATUS")
    for number, text in STATUSES:
        lines += tagged(number, escaped(text))
    lines.append(".SH ENVIRONMENT")
    for name, text in VARIABLES:
        lines += tagged(f"\\fB{name}\\fR", escaped(text))
    lines.append(".SH CAVEATS")
    lines += [f".PP\n{escaped(text)}" for text in CAVEATS]
    lines += [".SH SEE ALSO", "K. L. McMillan, \\fIThe SMV System\\fR, 1992.", ".br",
              "E. M. Clarke, O. Grumberg, D. A. Peled, \\fIModel Checking\\fR, 1999."]
    return HEAD + "\n".join(lines).replace(".SH CAVEATS\n.PP\n", ".SH CAVEATS\n") + "\n"
