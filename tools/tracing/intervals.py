"""Cuts a trace into sampling intervals, each of a number of what a clock counts.

Of each interval only the runs of touched pages are kept. To find an interval that fits the limits of
a script in one reading of the trace, neighbours are joined in pairs whenever too much was collected.
"""
from __future__ import annotations

from array import array
from collections import Counter
from itertools import chain
from typing import TYPE_CHECKING, Callable, Iterable, Iterator

from .accesses import Pages
from .clocks import AccessClock, Clock

if TYPE_CHECKING:
    Runs = array[int]
else:
    Runs = array
"""The touched pages of an interval, ascending: first page, page after the last one, and so on."""
PageCount = tuple[int, int, int]
"""First page, page after the last one, and the intervals in which each of them was touched."""


class Recording:
    """What is kept of a trace."""

    def __init__(self, length: int) -> None:
        self.length = length
        """What the clock counts of each interval; of the last one it may be less."""
        self.intervals: list[Runs] = []
        self.uses: Counter[int] = Counter()
        """The accesses of each page; one across a border counts for its first page alone."""
        self.more_pages: set[int] = set()
        """Pages behind a border that an access crossed."""
        self.accesses = 0
        self.duration = 0
        """What the clock counts of all intervals together."""
        self.runs = 0
        """The runs of all intervals together."""

    def put(self, runs: Runs) -> None:
        """Adds the runs of the next interval."""
        self.intervals.append(runs)
        self.runs += len(runs) // 2


def record(
    trace: Iterable[Pages],
    length: int,
    too_much: Callable[[Recording], bool],
    clock: Callable[[Iterable[Pages]], Clock] = AccessClock,
) -> Recording:
    """Reads a whole trace in intervals of `length` units of the clock.

    Whenever `too_much` says so of what was collected so far, neighbours are joined in pairs and the
    length doubles. It may raise an error instead.
    """
    recording = Recording(length)
    time = clock(trace)
    while (interval := time.interval(recording.length)) is not None:
        add(recording, interval)
        recording.duration = time.passed
        # Joining needs an even number of whole intervals; a shorter one is the last of the trace.
        while len(recording.intervals) % 2 == 0 and too_much(recording):
            double(recording)
    return recording


def coarser(recording: Recording, length: int, too_much: Callable[[Recording], bool]) -> Recording:
    """The same trace in intervals of `length`, a multiple of those of the recording; or of more, as `record` makes them."""
    result = Recording(length)
    result.uses, result.more_pages = recording.uses, recording.more_pages
    result.accesses, result.duration = recording.accesses, recording.duration
    place = 0
    while place < len(recording.intervals):
        after = place + result.length // recording.length
        result.put(union(recording.intervals[place:after]))
        place = after
        while len(result.intervals) % 2 == 0 and too_much(result):
            double(result)
    return result


def add(recording: Recording, interval: list[Pages]) -> None:
    """Adds one interval, given by its accesses."""
    recording.uses.update([pages[0] for pages in interval])
    distinct = set(interval)
    touched = set(chain.from_iterable(distinct))
    recording.more_pages.update(*(pages[1:] for pages in distinct if len(pages) > 1))
    recording.accesses += len(interval)
    recording.put(runs_of(sorted(touched)))


def double(recording: Recording) -> None:
    """Makes intervals of twice the length."""
    recording.intervals = list(joined(recording.intervals, 2))
    recording.length *= 2
    recording.runs = sum(map(len, recording.intervals)) // 2


def joined(intervals: list[Runs], count: int) -> Iterator[Runs]:
    """Joins each `count` intervals that follow each other; the last ones may be fewer."""
    for start in range(0, len(intervals), count):
        yield union(intervals[start : start + count])


def union(intervals: list[Runs]) -> Runs:
    """The pages touched in at least one of these intervals."""
    if len(intervals) == 1:
        return intervals[0]
    result: list[int] = []
    for first, after in sorted(chain.from_iterable(map(pairs, intervals))):
        if result and first <= result[-1]:
            result[-1] = max(result[-1], after)
        else:
            result += (first, after)
    return array("Q", result)


def pairs(runs: Runs) -> Iterator[tuple[int, int]]:
    """The runs of an interval, each as its first page and the page after its last one."""
    return zip(runs[::2], runs[1::2])


def runs_of(pages: list[int]) -> Runs:
    """The longest runs of these pages, which rise."""
    result: list[int] = []
    for page in pages:
        if result and page == result[-1]:
            result[-1] = page + 1
        else:
            result += (page, page + 1)
    return array("Q", result)


def touch_counts(intervals: Iterable[Runs]) -> list[PageCount]:
    """The pages that were touched in these intervals, as runs with one count."""
    change: Counter[int] = Counter()
    for runs in intervals:
        for first, after in pairs(runs):
            change[first] += 1
            change[after] -= 1
    result: list[PageCount] = []
    start = count = 0
    for page in sorted(page for page, by in change.items() if by):
        if count:
            result.append((start, page, count))
        start, count = page, count + change[page]
    return result
