"""Several records, with the program that made them and when."""
from __future__ import annotations

from collections.abc import Callable
from dataclasses import dataclass
from datetime import datetime, timezone

from ..builds import Build
from ..statuses import CLEAR, FAILED, NOTHING
from .findings import Findings

Form = Callable[["Gathered"], bytes]


def exit_status(status: int | None) -> int:
    """The status of a run as a shell has it: that of a signal behind 128, and NOTHING where its time was over."""
    return NOTHING if status is None else status if status >= 0 else 128 - status


@dataclass
class Gathered:
    """The records of a call, in the order of its files."""

    build: Build
    records: list[Findings]
    begun: datetime
    seconds: float

    @classmethod
    def since(cls, begun: datetime, build: Build, records: list[Findings]) -> Gathered:
        return cls(build, records, begun, (datetime.now(timezone.utc) - begun).total_seconds())

    @property
    def status(self) -> int:
        """The greatest status; at least FAILED where a proof or a path was rejected."""
        said = [it for record in self.records for found in record.findings for it in (found.proof, found.replay) if it]
        rejected = FAILED if any(it.answer == "rejected" for it in said) else CLEAR
        return max([rejected, *(exit_status(it.status) for it in self.records)])
