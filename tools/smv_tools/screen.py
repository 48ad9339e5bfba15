"""What is put and told: bytes on standard output, lines on standard error, colours only on a terminal."""
from __future__ import annotations

import os
import sys
from typing import TYPE_CHECKING

from .statuses import OUTSIDE, Stop

if TYPE_CHECKING:
    from rich.console import Console


def tell(text: str) -> None:
    """A line on standard error. That nobody reads it changes nothing."""
    try:
        os.write(2, f"smv: {text}\n".encode(errors="backslashreplace"))
    except OSError:
        pass


def put(data: bytes) -> None:
    """Puts the bytes on standard output at once."""
    sys.stdout.flush()
    try:
        while data:
            data = data[os.write(1, data):]
    except OSError:
        raise Stop("the output failed", OUTSIDE) from None


def console(error: bool = False) -> Console:
    """A console of rich: colours where it is a terminal and NO_COLOR isn't set, and no markup in texts."""
    from rich.console import Console

    file = sys.stderr if error else sys.stdout
    terminal = file.isatty()
    plain = not terminal or "NO_COLOR" in os.environ
    return Console(file=file, no_color=plain, color_system=None if plain else "auto", highlight=False, markup=False,
                   emoji=False, soft_wrap=not terminal)
