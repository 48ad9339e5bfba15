"""Proof files as far as the tools need them: the header, and where the block of each specification stands."""
from __future__ import annotations

import re
from dataclasses import dataclass
from pathlib import Path

from .statuses import OUTSIDE, Stop

SPEC = re.compile(rb"^spec (\d+) (true|false)$", re.M)
END = re.compile(rb"^end$", re.M)


@dataclass(frozen=True)
class Block:
    """The specification and the claim; first and last line, from 1."""

    number: int
    claim: str
    first: int
    last: int


@dataclass(frozen=True)
class ProofFile:
    version: int
    names: tuple[str, ...]
    blocks: tuple[Block, ...]

    @property
    def numbers(self) -> list[int]:
        """The specifications that have a block."""
        return [block.number for block in self.blocks]

    @classmethod
    def read(cls, data: bytes) -> ProofFile:
        """What the file says; only `recheck` tests whether it has the form."""
        head, order, *_ = [*data.split(b"\n", 2), b"", b""]
        version = re.fullmatch(rb"smvproof (\d+)", head)
        names = order.decode(errors="replace").split(" ")[1:] if order.startswith(b"order") else []
        blocks, line, at = [], 1, 0
        for spec in SPEC.finditer(data):
            line, at = line + data.count(b"\n", at, spec.start()), spec.start()
            end = END.search(data, at)
            last = line + data.count(b"\n", at, end.start()) if end else line
            blocks.append(Block(int(spec[1]), spec[2].decode(), line, last))
        return cls(int(version[1]) if version else 0, tuple(names), tuple(blocks))

    @classmethod
    def load(cls, path: str) -> ProofFile:
        try:
            return cls.read(Path(path).read_bytes())
        except OSError as error:
            raise Stop(f"{error.strerror}: {path}", OUTSIDE) from None


def ranges(numbers: list[int]) -> str:
    """Rising numbers as `1 to 5, 7`."""
    parts: list[list[int]] = []
    for number in numbers:
        if parts and parts[-1][-1] == number - 1:
            parts[-1].append(number)
        else:
            parts.append([number])
    return ", ".join(f"{it[0]} to {it[-1]}" if len(it) > 2 else ", ".join(map(str, it)) for it in parts)
