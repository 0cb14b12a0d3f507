"""Regions that stay: each is a range of its own. No rule joins two ranges, and where there are `max` regions none is split."""
from __future__ import annotations

from heapq import heapify, heappop, heapreplace
from typing import Sequence

from units import PAGE_BITS

from .table import PointError


def fixed_places(places: Sequence[str], regions: int, unit: int) -> list[str]:
    """The lines of targets, with ranges that cut them into this number of regions, of sizes that are as equal as can be. Raises PointError."""
    targets = [line for line in places if line.startswith("target ")]
    sizes = [(int(base, 16), int(pages)) for _, base, pages in map(str.split, targets)]
    counts = shares([pages for _, pages in sizes], regions, unit)
    lines = list(targets)
    for target, ((base, pages), count) in enumerate(zip(sizes, counts)):
        edges = [base + (pages * part // count << PAGE_BITS) for part in range(count + 1)]
        lines += [f"range {target} {start:#x} {end:#x} 0" for start, end in zip(edges, edges[1:])]
    return lines


def shares(sizes: Sequence[int], regions: int, unit: int) -> list[int]:
    """How many regions each target has: one goes to where regions are largest, again and again. Raises PointError."""
    if regions < len(sizes):
        raise PointError(f"{regions} fixed regions are too few for {len(sizes)} targets")
    counts = [1] * len(sizes)
    largest: list[tuple[float, int]] = [(-pages, place) for place, pages in enumerate(sizes)]
    heapify(largest)
    while largest and sum(counts) < regions:
        place = largest[0][1]
        if sizes[place] < (counts[place] + 1) * unit:
            heappop(largest)
        else:
            counts[place] += 1
            heapreplace(largest, (-sizes[place] / counts[place], place))
    return counts
