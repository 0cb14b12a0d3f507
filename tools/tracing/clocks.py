"""Clocks of a trace: accesses, instructions, or the time of samples. A sampling interval is a number of their units."""
from __future__ import annotations

from itertools import chain, islice
from typing import Callable, Iterable, Iterator, Protocol

from .accesses import Pages
from .lackey import INSTRUCTION

NANOSECONDS_OF_UNIT = 1000
"""The unit of the clock of samples is a microsecond."""


class Clock(Protocol):
    """Says where an interval ends."""

    passed: int
    """The units of time of all intervals so far."""

    def interval(self, length: int) -> list[Pages] | None:
        """The accesses of the next `length` units of time, or fewer at the end; None after it."""


class AccessClock:
    """Time is counted in accesses."""

    def __init__(self, trace: Iterable[Pages]) -> None:
        self.trace = iter(trace)
        self.passed = 0

    def interval(self, length: int) -> list[Pages] | None:
        found = list(islice(self.trace, length))
        self.passed += len(found)
        return found or None


class InstructionClock:
    """Time is counted in instructions; the accesses of an instruction follow its mark in the trace."""

    def __init__(self, trace: Iterable[Pages]) -> None:
        self.trace = iter(trace)
        self.passed = 0
        self.waiting: Pages | None = None
        """The mark that ended the interval before, with its pages: it belongs to the next one."""

    def interval(self, length: int) -> list[Pages] | None:
        found: list[Pages] = []
        left = length
        for pages in self.rest():
            if pages[0] == INSTRUCTION:
                if left == 0:
                    self.waiting = pages
                    break
                left -= 1
                pages = pages[1:]
            if pages:
                found.append(pages)
        self.passed += length - left
        return found if found or left < length else None

    def rest(self) -> Iterator[Pages]:
        """What follows the interval before."""
        if self.waiting is None:
            return self.trace
        waiting, self.waiting = self.waiting, None
        return chain((waiting,), self.trace)


class TimeClock:
    """Time is that of the samples, in microseconds since the first one; each has its nanoseconds before its page.

    An interval may have no sample.
    """

    def __init__(self, trace: Iterable[Pages]) -> None:
        self.trace = iter(trace)
        self.passed = 0
        self.waiting = next(self.trace, None)
        """The first sample of the next interval; None after the last one."""
        self.start = self.waiting[0] if self.waiting else 0

    def interval(self, length: int) -> list[Pages] | None:
        if self.waiting is None:
            return None
        self.passed += length
        end = self.start + self.passed * NANOSECONDS_OF_UNIT
        found: list[Pages] = []
        while self.waiting is not None and self.waiting[0] < end:
            found.append(self.waiting[1:])
            self.waiting = next(self.trace, None)
        return found


CLOCKS: dict[str, Callable[[Iterable[Pages]], Clock]] = {
    "accesses": AccessClock, "instructions": InstructionClock, "microseconds": TimeClock
}
"""By what they count."""
