"""The forms of traces, and which of them a trace has."""
from __future__ import annotations

from itertools import chain
from typing import Iterable

from .accesses import TraceError, shown
from .instrumented import INSTRUMENTED
from .lackey import LINE, OWN_LINES
from .samples import COMMENT, PERF_TIME, SAMPLES

LACKEY = "lackey"
FORMS = (LACKEY, *INSTRUMENTED, *SAMPLES)
WITH_KINDS = (LACKEY, *INSTRUMENTED)
"""Those that say which accesses are loads and stores."""


def form_of(line: bytes) -> str | None:
    """The form that this line has; None if it has none."""
    if line.startswith(OWN_LINES) or LINE.fullmatch(line):
        return LACKEY
    for form, decode in INSTRUMENTED.items():
        try:
            decode(line)
        except TraceError:
            continue
        return form
    if PERF_TIME.search(line):
        # If it has no address, the reader of samples says why.
        return "perf"
    for form in ("plain", "perf"):
        try:
            SAMPLES[form](line)
        except TraceError:
            continue
        return form
    return None


def found_form(stream: Iterable[bytes]) -> tuple[str, Iterable[bytes]]:
    """The form of a trace by its first line that is no comment, and all its lines. Raises TraceError."""
    lines = iter(stream)
    before: list[bytes] = []
    for number, line in enumerate(lines, 1):
        before.append(line)
        if line.startswith(COMMENT):
            continue
        if form := form_of(line):
            return form, chain(before, lines)
        if line.endswith(b"\n"):
            raise TraceError(f"line {number}: {reason(line)}")
    # No line has a form. Those that have comments know them.
    return "plain" if any(line.startswith(COMMENT) for line in before) else LACKEY, before


def reason(line: bytes) -> str:
    """Why a line has no form."""
    return f"not a line of lackey, of a memtrace view, of pinatrace, of perf script or of the form SECONDS ADDRESS: {shown(line)}"
