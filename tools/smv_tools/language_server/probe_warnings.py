"""What probes find of a model that was decided, as warnings, where the package `probes` is there."""
from __future__ import annotations

import importlib
import importlib.util
from collections.abc import Sequence

from ..model import Model, Unreadable
from ..program import Program
from ..source import Source
from .problems import Problem, Severity, line_span

PROBES = "smv_tools.probes"
SECONDS = 10.0


def probe_warnings(program: Program, source: Source, options: Sequence[str]) -> list[Problem]:
    """A warning for each finding; none where the package or the model can't be read."""
    if importlib.util.find_spec(PROBES) is None:
        return []
    try:
        found = importlib.import_module(f"{PROBES}.probing").probed(program, Model.of(source), list(options), SECONDS)
    except (Unreadable, RecursionError, OSError):
        return []
    return [Problem(*line_span(source, it.line or None), Severity.WARNING, "probe", it.text) for it in found.findings]
