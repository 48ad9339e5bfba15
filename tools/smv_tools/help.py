"""`smv help`: all commands, or one. Only the standard library is used here."""
from __future__ import annotations

import textwrap
from collections.abc import Iterable

from .calls import Call
from .screen import put
from .statuses import CLEAR, USAGE, Stop
from .words import GLOBAL_OPTIONS, Command, Option, commands
from .wrong_words import no_command

WIDTH = 100


def rows(pairs: Iterable[tuple[str, str]]) -> str:
    """Two columns; the second goes on below itself."""
    found = list(pairs)
    width = max((len(left) for left, _ in found), default=0)
    lines = []
    for left, right in found:
        parts = textwrap.wrap(right, max(WIDTH - width - 4, 30), break_on_hyphens=False) or [""]
        lines += [f"  {left.ljust(width)}  {parts[0]}".rstrip(), *(f"  {' ' * width}  {it}" for it in parts[1:])]
    return "\n".join(lines) + "\n"


def option_rows(options: Iterable[Option]) -> str:
    return rows((f"{it.short + ', ' if it.short else ''}{it.name}{' ' + it.value if it.value else ''}", it.summary)
                for it in options)


def overview() -> str:
    """The text on all commands."""
    listed = commands().values()
    return (
        "usage: smv COMMAND WORD..\n\nCommands:\n" + rows((it.name, it.summary) for it in listed)
        + "\nExamples:\n" + "".join(f"  {it.example}\n" for it in listed)
        + "\nOptions:\n" + option_rows(GLOBAL_OPTIONS)
        + "\n`smv help WORD` or `smv WORD --help` has more on one command. SMV_QUIET=1 keeps quiet about the build.\n"
    )


def on_command(command: Command) -> str:
    """The text on one command."""
    usage = textwrap.fill(f"usage: smv {command.usage}", WIDTH, subsequent_indent=" " * 11, break_on_hyphens=False)
    text = f"{usage}\n\n{command.summary[0].upper()}{command.summary[1:]}.\n\n"
    text += textwrap.fill(command.about, WIDTH, break_on_hyphens=False) + "\n"
    options = [*command.options, Option("--help", "", "this text", short="-h")]
    return f"{text}\nOptions:\n{option_rows(options)}\nExample:\n  {command.example}\n"


def text_for(word: str | None) -> str:
    if word is None:
        return overview()
    if word not in commands():
        raise Stop(no_command(word), USAGE)
    return on_command(commands()[word])


def run(call: Call) -> int:
    put(text_for(call.operand(0)).encode())
    return CLEAR
