#!/usr/bin/env python3
"""Writes the exact counts of each page from a trace or a script, without the monitor, for tools/compare.py.

docs/TUTORIAL.md shows its use.
"""
from __future__ import annotations

import argparse
import sys
from pathlib import Path
from typing import NamedTuple, Sequence

sys.path.insert(0, str(Path(__file__).resolve().parent))

from common import UsageError, opened, opened_text, parser, run
from reports.events import Report, ReportError
from scripts.grammar import first_word
from searching.workloads import passed_script
from tracing import reading
from tracing.accesses import TraceError
from tracing.areas import Area, Choice, chosen, group_pages
from tracing.exact import Watched, exact_lines, of_areas
from tracing.intervals import Recording, Runs
from tracing.notes import counted_accesses, lost_lines
from tracing.reading import no_limit, read_trace, touched
from wording import counted

TOOL = "exact_counts.py"
EXAMPLE = """\
example:
  tools/exact_counts.py --interval 3000 examples/shop.trace.xz > out/shop.counts
  tools/compare.py out/shop.counts out/shop.report

  tools/exact_counts.py out/shop.damon > out/shop.counts

A script has all that is needed, so its trace need not be there: its passes are the intervals, and --aggr
is its own if it is not given. Each pass must be `arm`, touches and `finish`, and its ranges must stay, as
in the scripts of tools/trace_to_script.py.

For a trace the options are those that tools/trace_to_script.py was given for the script of the report. There is
no limit on pages and intervals, but for 1,048,576 intervals where samples have times. With --like the
aggregations come at the ticks of a report, so that it may be one whose commits change how many passes
an aggregation has.

What is written is a report in short: the line `exact counts 1`; then, for each aggregation, a line
`aggregate tick=T rows=N` and N lines `row TARGET START-END count=C`. Each page from START to before
END was touched in C of the intervals since the aggregation before; the rows cover all targets.
"""


SCRIPT = b"damon script "
OF_TRACES = ("form", "loads", "stores", "fetches", "clock", "interval", "gap", "unit")
"""The options that say how a trace is read."""


class Counted(NamedTuple):
    """Pages whose accesses are counted, and what a user should know beside the counts."""

    watched: list[Watched]
    intervals: list[Runs]
    said: str
    notes: list[str]


def options_of() -> argparse.Namespace:
    """The options of this run. Raises UsageError."""
    result = parser(TOOL, "Reads a trace of memory accesses, of valgrind's lackey or of perf, or a script of damon, and writes the "
                    "exact counts of its pages.", EXAMPLE)
    add = result.add_argument
    reading.add_options(add)
    add("--interval", type=int, metavar="N", help="the length of a sampling interval (10000)")
    add("--gap", type=int, metavar="PAGES", help="untouched pages that a target may have between touched ones (16)")
    add("--unit", type=int, metavar="PAGES", help="the minimum pages of a target (1)")
    add("--aggr", type=int, metavar="N", help="sampling intervals of an aggregation (20; of a script its own)")
    add("--like", metavar="REPORT", help="put the aggregations at the ticks of this report, and not by --aggr")
    options = result.parse_args()
    for name, least in (("interval", 1), ("gap", 0), ("unit", 1), ("aggr", 1)):
        value = getattr(options, name)
        if value is not None and value < least:
            raise UsageError(f"--{name} must be at least {least}")
    return options


def is_script(path: str) -> bool:
    """Whether a file, or standard input, begins as a script does. Raises UsageError."""
    with opened(path) as stream:
        start: bytes = stream.peek(len(SCRIPT))[: len(SCRIPT)]  # type: ignore[attr-defined]
    return start == SCRIPT


def of_script(options: argparse.Namespace) -> Counted:
    """The pages of a script. Raises UsageError."""
    for name in OF_TRACES:
        if getattr(options, name):
            raise UsageError(f"--{name} is for traces, and {options.trace} is a script")
    script, defaults, ranges, intervals = passed_script(options.trace)
    if options.aggr is None:
        if any(first_word(line) == "attrs" for line in script.body.decode("latin-1").split("\n")):
            raise UsageError(f"{options.trace}: its commits have a line `attrs`: use --aggr, or --like with its report")
        options.aggr = int(defaults["aggr"])
    watched, base = [], 0
    for one in ranges:
        watched.append(Watched(one.target, one.first, Area(base, base + one.pages, 0)))
        base += one.pages
    return Counted(watched, intervals, f"{counted(len(intervals), 'interval')}; {counted(len(ranges), 'range')} with {counted(base, 'page')}", [])


def of_trace(options: argparse.Namespace) -> Counted:
    """The pages of a trace. Raises UsageError."""
    for name, default in (("interval", 10_000), ("gap", 16), ("unit", 1), ("aggr", 20)):
        if getattr(options, name) is None:
            setattr(options, name, default)
    try:
        origin, recording = read_trace(options, no_limit(options))
    except TraceError as error:
        raise UsageError(str(error)) from None
    choice = targets_of(recording, options)
    pages = sum(area.pages for area in choice.kept)
    said = (f"{counted_accesses(recording.accesses)} in {counted(len(recording.intervals), 'interval')} of {recording.length}; "
            f"{counted(len(choice.kept), 'target')} with {counted(pages, 'page')}")
    left_out = [f"left out {counted(len(choice.left_out), 'area')}, by the limit of 64 targets and 1048576 pages"] if choice.left_out else []
    return Counted(of_areas(choice.kept), recording.intervals, said, [*left_out, *lost_lines(origin)])


def targets_of(recording: Recording, options: argparse.Namespace) -> Choice:
    """The areas that are targets, as tools/trace_to_script.py makes them."""
    choice = chosen(group_pages(touched(recording), options.gap, options.unit))
    if not choice.kept:
        raise UsageError("the trace has no access that is taken" if not choice.left_out
                         else "no target fits the limit of 1048576 pages: use a smaller --gap")
    return choice


def ticks_of(options: argparse.Namespace, intervals: int) -> Sequence[int]:
    """The ticks of the aggregations."""
    if options.like is None:
        return range(options.aggr, intervals + 1, options.aggr)
    with opened_text(options.like) as stream:
        try:
            ticks = [found.tick for found in Report(stream).aggregations()]
        except ReportError as error:
            raise UsageError(f"{options.like}: {error}") from None
    if ticks and ticks[-1] > intervals:
        lengths = f" of {options.interval}: use the --interval that its script was made with" if options.interval else ""
        raise UsageError(f"{options.like} goes to tick {ticks[-1]}, and {options.trace} has {counted(intervals, 'interval')}{lengths}")
    return ticks


def work() -> None:
    options = options_of()
    found = of_script(options) if is_script(options.trace) else of_trace(options)
    ticks = ticks_of(options, len(found.intervals))
    for line in exact_lines(ticks, found.watched, found.intervals):
        print(line)
    sys.stdout.flush()
    for note in (f"{found.said}; {counted(len(ticks), 'aggregation')}", *found.notes):
        print(f"note: {note}", file=sys.stderr)


if __name__ == "__main__":
    run(TOOL, work)
