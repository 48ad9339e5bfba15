"""The commands of the table as commands of click, and how they end."""
from __future__ import annotations

import importlib
import os
import signal
import sys
from collections.abc import Sequence
from typing import Any

import click

from .calls import Call, OptionValue
from .help import on_command
from .screen import tell
from .statuses import OUTSIDE, USAGE, Stop
from .words import Command, Operand, Option, commands
from .wrong_words import no_command, no_option, wrong_count, wrong_value


def read_value(option: Option) -> Any:
    """A callback of click that says what is wrong with a value."""
    def read(_: click.Context, __: click.Parameter, value: Any) -> Any:
        for it in value if isinstance(value, tuple) else [value]:
            wrong = wrong_value(option, it) if isinstance(it, str) else None
            if wrong:
                raise click.UsageError(wrong)
        return value
    return read


def option_of(option: Option, place: int) -> click.Option:
    names = [f"option{place}", option.name, *([option.short] if option.short else [])]
    if not option.value:
        return click.Option(names, is_flag=True, help=option.summary)
    return click.Option(names, metavar=option.value, help=option.summary, multiple=option.many, callback=read_value(option))


class Built(click.Command):
    """A command of click with the help of the table, which puts operands and options into a call."""

    def __init__(self, command: Command) -> None:
        params: list[click.Parameter] = [option_of(it, place) for place, it in enumerate(command.options)]
        params.append(click.Argument(["words"], nargs=-1))
        super().__init__(command.name, params=params, context_settings={"help_option_names": ["--help", "-h"]})
        self.of = command

    def get_help(self, ctx: click.Context) -> str:
        return on_command(self.of).rstrip("\n")

    def call_of(self, words: Sequence[str]) -> Call | None:
        """The call that the words are; none where they ask for help."""
        try:
            with self.make_context(self.of.name, list(words)) as context:
                values = context.params
        except click.exceptions.Exit:
            return None
        operands = list(values["words"])
        wrong = wrong_count(self.of, len(operands))
        if wrong:
            raise Stop(wrong, USAGE)
        options: dict[str, OptionValue] = {}
        for place, option in enumerate(self.of.options):
            value = values[f"option{place}"]
            if value not in (None, False, ()):
                options[option.name] = list(value) if isinstance(value, tuple) else value
        return Call(self.of, operands, options)


def read(command: Command, words: Sequence[str]) -> Call | None:
    """The call that the words are, by click; Stop names what is wrong."""
    try:
        return Built(command).call_of(words)
    except click.NoSuchOption as wrong:
        raise Stop(no_option(command, wrong.option_name), USAGE) from None
    except click.BadOptionUsage as wrong:
        option = command.option(wrong.option_name)
        text = f"{wrong.option_name} takes {option.value}, which is missing" if option and option.value else wrong.message
        raise Stop(text, USAGE) from None
    except click.UsageError as wrong:
        raise Stop(wrong.message, USAGE) from None


def run(words: Sequence[str]) -> int:
    name, *rest = words or ["help"]
    command = commands().get(name)
    if command is None or not command.module:
        raise Stop(no_command(name), USAGE)
    call = read(command, rest)
    if call is None:
        return 0
    module = importlib.import_module(f".{command.module}", __package__)
    status = module.run(call)
    assert isinstance(status, int)
    return status


def main(words: Sequence[str]) -> int:
    """Runs a command, and gives the status that it ends with."""
    sys.setrecursionlimit(20_000)
    try:
        status = run(words)
        sys.stdout.flush()
        return status
    except Stop as stop:
        tell(str(stop))
        return stop.status
    except BrokenPipeError:
        os.dup2(os.open(os.devnull, os.O_WRONLY), 1)
        return OUTSIDE
    except OSError as error:
        tell(f"{error.strerror}: {error.filename}" if error.filename else str(error.strerror))
        return OUTSIDE
    except KeyboardInterrupt:
        signal.signal(signal.SIGINT, signal.SIG_DFL)
        os.kill(os.getpid(), signal.SIGINT)
        return 128 + signal.SIGINT
