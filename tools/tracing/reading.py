"""The options that say what a trace is, and its reading by them."""
from __future__ import annotations

import argparse
import hashlib
import sys
from typing import Callable, Iterable

from common import STANDARD_INPUT, UsageError, opened

from .accesses import Origin, Trace
from .clocks import CLOCKS
from .forms import FORMS, LACKEY, WITH_KINDS, found_form
from .instrumented import PINATRACE, InstrumentedTrace
from .intervals import Recording, coarser, record
from .kept import Kept, is_kept, kept_at
from .lackey import KINDS, LackeyTrace
from .progress import Progress
from .samples import Samples
from .source import Interrupt, Source

ACCESSES, INSTRUCTIONS, MICROSECONDS = CLOCKS
MOST_INTERVALS = 1 << 20
"""No script that is made of a trace has room for more."""


def add_options(add: Callable[..., object]) -> None:
    """Adds the options of a trace to a parser, by its `add_argument`."""
    add("trace", nargs="?", default=STANDARD_INPUT,
        help="the trace, or a file that --keep of trace_to_script.py wrote; `-`, the default, is standard input; .gz and .xz are unpacked")
    add("--form", choices=FORMS, help="lackey: of valgrind's lackey; memtrace: DynamoRIO's view of one; pinatrace: of "
                                      "Pin's example; perf: of `perf script`; plain: `SECONDS ADDRESS` a line (the form of the first line)")
    for kind in KINDS:
        add(f"--{kind}", action="store_true", help=f"take {kind}, of a trace that says which they are")
    add("--clock", choices=tuple(CLOCKS),
        help="what the length of an interval counts: accesses that are taken, instructions of lackey, or the time of samples "
             "(accesses)")


def read_trace(options: argparse.Namespace, too_much: Callable[[Recording], bool], interrupt: Interrupt | None = None) -> Kept:
    """The trace, or what was kept of it, in intervals of `options.interval`. Raises UsageError and TraceError.

    With an interrupt, which must be entered, it is read as far as it is there when that comes.
    """
    if is_kept(options.trace):
        return taken_from(kept_at(options.trace), options, too_much)
    options.clock = options.clock or ACCESSES
    progress = Progress(sys.stderr)
    with opened(options.trace) as stream:
        source = Source(stream, interrupt)
        try:
            trace = trace_of(source.lines(), options, progress)
            recording = record(trace, options.interval, too_much, CLOCKS[options.clock])
        finally:
            progress.end()
    if options.clock == INSTRUCTIONS and recording.intervals and not recording.duration:
        raise UsageError("the trace has no instructions (lines `I`) to count: use --clock accesses")
    hash = source.hash.hexdigest() if options.trace == STANDARD_INPUT else hash_of(options.trace)
    kinds = kinds_of(options) if trace.form in WITH_KINDS else []
    return Kept(Origin(trace.form, options.clock, kinds, hash, trace.beyond, trace.without_address, trace.cut, source.ended), recording)


def taken_from(kept: Kept, options: argparse.Namespace, too_much: Callable[[Recording], bool]) -> Kept:
    """A kept trace in intervals of `options.interval`. What the options do not say is as it was kept. Raises UsageError."""
    origin, recording = kept
    kinds = kinds_of(options) if any(getattr(options, kind) for kind in KINDS) else origin.kinds
    for name, wanted, there in (("--form", options.form or origin.form, origin.form),
                                ("--clock", options.clock or origin.clock, origin.clock),
                                ("the kinds of accesses", " ".join(kinds), " ".join(origin.kinds))):
        if wanted != there:
            raise UsageError(f"{options.trace} was kept with {there!r} for {name}, and not {wanted!r}: take the trace itself")
    if options.interval % recording.length:
        raise UsageError(f"{options.trace} has intervals of {recording.length}: --interval must be a multiple of that, "
                         "or the trace be kept again with a smaller --grain")
    options.clock = origin.clock
    return Kept(origin, coarser(recording, options.interval, too_much))


def hash_of(path: str) -> str:
    """The SHA-256 of a file. Raises UsageError."""
    try:
        with open(path, "rb") as stream:
            return hashlib.file_digest(stream, "sha256").hexdigest()
    except OSError as error:
        raise UsageError(f"{path}: {error.strerror}") from None


def trace_of(stream: Iterable[bytes], options: argparse.Namespace, progress: Callable[[int], None]) -> Trace:
    """A trace of the form that is chosen or found. Raises UsageError and TraceError."""
    form, lines = (options.form, stream) if options.form else found_form(stream)
    if form == PINATRACE and (options.clock == INSTRUCTIONS or options.fetches):
        raise UsageError("a trace of the form pinatrace has no instructions: use --clock accesses, and leave --fetches out")
    if form in WITH_KINDS:
        if options.clock == MICROSECONDS:
            raise UsageError(f"a trace of {form} has no times: use --clock accesses{'' if form == PINATRACE else ' or --clock instructions'}")
        letters = b"".join(KINDS[kind] for kind in kinds_of(options))
        if form != LACKEY:
            return InstrumentedTrace(lines, form, letters, instructions=options.clock == INSTRUCTIONS, progress=progress)
        return LackeyTrace(lines, letters, instructions=options.clock == INSTRUCTIONS, progress=progress)
    if options.clock == INSTRUCTIONS:
        raise UsageError(f"a trace of the form {form} has no instructions to count: use --clock accesses or --clock microseconds")
    for kind in KINDS:
        if getattr(options, kind):
            raise UsageError(f"a trace of the form {form} does not say which accesses are {kind}: leave --{kind} out")
    return Samples(lines, form, timed=options.clock == MICROSECONDS, progress=progress)


def kinds_of(options: argparse.Namespace) -> list[str]:
    """The kinds of accesses that are taken, of a trace that names them."""
    return [kind for kind in KINDS if getattr(options, kind)] or ["loads", "stores"]


def no_limit(options: argparse.Namespace) -> Callable[[Recording], bool]:
    """Says of no recording that it is too much. Samples may be years apart: then it raises UsageError."""

    def too_much(recording: Recording) -> bool:
        if options.clock == MICROSECONDS and len(recording.intervals) > MOST_INTERVALS:
            raise UsageError(f"the trace has more than {MOST_INTERVALS} intervals of {options.interval} microseconds: "
                             "use a larger --interval")
        return False

    return too_much


def touched(recording: Recording) -> dict[int, int]:
    """The accesses of each touched page."""
    return {**dict.fromkeys(recording.more_pages, 0), **recording.uses}
