"""Workloads of traces, which become scripts as tools/trace_to_script.py makes them."""
from __future__ import annotations

import argparse
from array import array
from itertools import accumulate
from math import gcd
from pathlib import Path
from typing import Iterable, Iterator, Mapping, Sequence

from common import UsageError
from measuring.truth import Range, Truths
from scripts.grammar import HEADERS
from scripts.reading import ARM, FINISH
from tracing.accesses import TraceError
from tracing.areas import Lookup, chosen, group_pages
from tracing.intervals import Recording, Runs, pairs
from tracing.kept import Kept, is_kept, keep, kept_at
from tracing.lackey import KINDS
from tracing.reading import hash_of, no_limit, read_trace, touched
from tracing.script import places, touches

from .plan import OF_TRACES, Plan
from .workloads import Key, Numbers, Workload, of_target, work_of

ENDING = b"show\nend\n"
KEPT = ".cut"
PARTS = 10
"""The most parts of the shortest interval in which a trace is read for all intervals at once."""


def trace_workloads(plan: Plan, name: str, keys: Iterable[Key], folder: Path | None = None) -> Iterator[tuple[Key, Workload]]:
    """The workloads of a trace, which is kept in the folder and taken from there the next time. Raises UsageError."""
    by_interval: dict[int, list[Key]] = {}
    for key in keys:
        by_interval.setdefault(key.interval, []).append(key)
    path = plan.folder / name
    if min(by_interval) < 1:
        raise UsageError("interval must be at least 1")
    if folder and not is_kept(path):
        path = kept_in(plan, path, list(by_interval), folder)
    for interval, same in by_interval.items():
        recording = read(plan, path, interval).recording
        for key in same:
            yield key, of_recording(plan, key, recording)


def kept_in(plan: Plan, path: Path, intervals: Sequence[int], folder: Path) -> Path:
    """The kept trace of a trace, which is made if it is not there; or the trace itself, where the intervals have no common part."""
    result = folder / f"{path.name}{KEPT}"
    grain = gcd(*intervals)
    if result.exists() and not is_kept(result):
        raise UsageError(f"{result} is not a kept trace, and is in the place of one: remove it")
    if result.exists() and is_of(kept_at(result), plan, path, grain):
        return result
    if len(intervals) > 1 and PARTS * grain < min(intervals):
        return path
    keep(result, read(plan, path, grain))
    return result


def is_of(kept: Kept, plan: Plan, path: Path, grain: int) -> bool:
    """Whether a kept trace is that of this trace, read in this way, and has intervals that make up the wanted ones."""
    source, origin = plan.source, kept.origin
    kinds = [kind for kind in KINDS if kind in source.kinds] or ["loads", "stores"]
    same_kinds = origin.kinds in ([], kinds)
    return (origin.clock == source.clock and source.form in (None, origin.form) and same_kinds
            and grain % kept.recording.length == 0 and origin.hash == hash_of(str(path)))


def read(plan: Plan, path: Path, interval: int) -> Kept:
    """A trace, or what was kept of it, in these intervals. Raises UsageError."""
    source = plan.source
    options = argparse.Namespace(trace=str(path), form=source.form, clock=source.clock, interval=interval,
                                 loads="loads" in source.kinds, stores="stores" in source.kinds, fetches="fetches" in source.kinds)
    try:
        return read_trace(options, no_limit(options))
    except TraceError as error:
        raise UsageError(f"{options.trace}: {error}") from None


def of_recording(plan: Plan, key: Key, recording: Recording) -> Workload:
    areas = chosen(group_pages(touched(recording), plan.source.gap, max(key.unit, 1))).kept
    if not areas:
        raise UsageError(f"{key.name} has no access that is taken, or no target that fits the limits of a script")
    ranges = [Range(target, area.first, area.after) for target, area in enumerate(areas)]
    lookup = Lookup(areas)
    passes = [pass_of(runs, lookup) for runs in recording.intervals]
    body = b"".join([*passes, ENDING])
    measured = of_target(ranges, plan.target)
    shifts = {one.target: base - one.first for one, base in zip(measured, Numbers(measured).bases)}
    intervals = [numbered(runs, lookup, shifts) for runs in recording.intervals]
    return Workload(key.name, HEADERS[plan.version or 1], tuple(places(areas)), dict(OF_TRACES), (), body,
                    list(accumulate(map(len, passes[:-1]), initial=0)), Truths(measured, intervals, plan.hot),
                    sum(one.pages for one in ranges), work_of(body))


def pass_of(runs: Runs, lookup: Lookup) -> bytes:
    """The lines of an interval."""
    return "".join(f"{line}\n" for line in (ARM, *touches(runs, lookup), FINISH)).encode("ascii")


def numbered(runs: Runs, lookup: Lookup, shifts: Mapping[int, int]) -> Runs:
    """The numbers of measured pages of runs, each of which lies in one target that is watched as a whole, or in none.

    `shifts` has what the numbers of the pages of each measured target are more than those of their addresses.
    """
    result: list[int] = []
    for first, after in pairs(runs):
        target = lookup.target_of(first)
        if target is not None and target in shifts:
            result += (first + shifts[target], after + shifts[target])
    return array("Q", result)
