"""Writes exact counts: in how many intervals of each aggregation each page was touched.

The first line is `exact counts 1`. Then, for each aggregation, comes a line `aggregate tick=T rows=N`
and N lines `row TARGET START-END count=C`: each page from START to before END was touched in C of the
intervals since the aggregation before. The rows cover all targets, by target and address; neighbours
with the same count are one row. So the size grows with the runs of pages, and not with the pages.
"""
from __future__ import annotations

from bisect import bisect_right
from typing import Iterable, Iterator, NamedTuple, Sequence

from reports.forms import EXACT_HEADER
from units import PAGE_BITS

from .areas import Area
from .intervals import PageCount, Runs, touch_counts


class Watched(NamedTuple):
    """Pages of a target whose counts are written."""

    target: int
    first: int
    """The number of the first page in its address space."""
    area: Area
    """The same pages, by the numbers that intervals have."""


def of_areas(areas: Iterable[Area]) -> list[Watched]:
    """The targets that a trace has, whose pages have the numbers of their addresses."""
    return [Watched(target, area.first, area) for target, area in enumerate(areas)]


def counts_in(area: Area, counts: Sequence[PageCount]) -> list[PageCount]:
    """All pages of an area with their counts, also those with 0."""
    result: list[PageCount] = []
    page = area.first
    number = bisect_right(counts, area.first, key=lambda run: run[1])
    while number < len(counts) and counts[number][0] < area.after:
        first, after, count = max(counts[number][0], area.first), min(counts[number][1], area.after), counts[number][2]
        if page < first:
            result.append((page, first, 0))
        result.append((first, after, count))
        page, number = after, number + 1
    if page < area.after:
        result.append((page, area.after, 0))
    return result


def aggregation_lines(tick: int, watched: Sequence[Watched], intervals: Iterable[Runs]) -> list[str]:
    """The lines of one aggregation."""
    counts = touch_counts(intervals)
    rows = [f"row {target} {first - area.first + start << PAGE_BITS:#x}-{after - area.first + start << PAGE_BITS:#x} count={count}"
            for target, start, area in watched for first, after, count in counts_in(area, counts)]
    return [f"aggregate tick={tick} rows={len(rows)}", *rows]


def exact_lines(ticks: Iterable[int], watched: Sequence[Watched], intervals: Sequence[Runs]) -> Iterator[str]:
    """The lines of exact counts with aggregations at these ticks. An interval is one tick."""
    yield EXACT_HEADER
    since = 0
    for tick in ticks:
        yield from aggregation_lines(tick, watched, intervals[since:tick])
        since = tick
