"""Sets of pages as sorted runs, so that a set costs as much as it has borders, and not as it has pages.

A page is one number: its target and its place in the address space together. The runs of a set rise, do
not overlap and do not touch.
"""
from __future__ import annotations

from typing import Iterable, Sequence

from units import PAGE_BITS

PAGE_END_BITS = 51
"""Addresses are at most 2^63, so a page has at most this many bits, and its end one more value."""
TARGET_BITS = PAGE_END_BITS + 1
"""A target's number stands above the bits of its pages."""

PageRun = tuple[int, int]
"""The first page, and the page after the last one."""
PageRuns = list[PageRun]


def key(target: int, address: int) -> int:
    """The number of the page at this address of this target."""
    return (target << TARGET_BITS) | (address >> PAGE_BITS)


def place(page: int) -> tuple[int, int]:
    """The target of a page, and its address in bytes."""
    return page >> TARGET_BITS, (page & ((1 << TARGET_BITS) - 1)) << PAGE_BITS


def append(runs: PageRuns, start: int, end: int) -> None:
    """Adds a run that begins at the end of the last one or after it."""
    if runs and runs[-1][1] == start:
        runs[-1] = (runs[-1][0], end)
    else:
        runs.append((start, end))


def size(runs: Iterable[PageRun]) -> int:
    """The number of pages."""
    return sum(end - start for start, end in runs)


def union(one: PageRuns, other: PageRuns) -> PageRuns:
    """The pages of either set."""
    result: PageRuns = []
    for start, end in sorted(one + other):
        if result and start <= result[-1][1]:
            result[-1] = (result[-1][0], max(result[-1][1], end))
        else:
            result.append((start, end))
    return result


def common(one: Sequence[PageRun], other: Sequence[PageRun]) -> PageRuns:
    """The pages of both sets."""
    result: PageRuns = []
    left = right = 0
    while left < len(one) and right < len(other):
        start = max(one[left][0], other[right][0])
        end = min(one[left][1], other[right][1])
        if start < end:
            result.append((start, end))
        if one[left][1] < other[right][1]:
            left += 1
        else:
            right += 1
    return result


def without(one: Sequence[PageRun], other: Sequence[PageRun]) -> PageRuns:
    """The pages of the first set that are not in the second."""
    result: PageRuns = []
    right = 0
    for start, end in one:
        while right < len(other) and other[right][1] <= start:
            right += 1
        ahead = right
        while ahead < len(other) and other[ahead][0] < end:
            if start < other[ahead][0]:
                result.append((start, other[ahead][0]))
            start = other[ahead][1]
            ahead += 1
        if start < end:
            result.append((start, end))
    return result
