"""What `damon reclaim` says of memory, in a report."""
from __future__ import annotations

from typing import NamedTuple


class Memory(NamedTuple):
    """What it says after an aggregation, and at the end: numbers of pages, the last three of them since the start."""

    tick: int
    resident: int
    out: int
    pageouts: int
    refaults: int
    prefetches: int
