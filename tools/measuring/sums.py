"""Adds up how far what was found accessed is from what was accessed, over all aggregations.

All numbers but the first are page-aggregations: one page in one aggregation.
"""
from __future__ import annotations

from dataclasses import dataclass
from typing import NamedTuple

from .truth import HOT, UNTOUCHED, Truth


class Found(NamedTuple):
    """What a report says of an aggregation."""

    watched: int
    """The pages of all its regions."""
    accessed: int
    """Those of them that were accessed."""
    called: bytes
    """What the pages of all regions with a count above 0 were."""
    called_hot: bytes
    """The same of regions with a count that makes them hot."""


@dataclass
class Sums:
    """What is added up."""

    aggregations: int = 0
    pages: int = 0
    """What the exact counts have."""
    unwatched: int = 0
    """What the report has no region for."""
    hot: int = 0
    called_hot: int = 0
    hot_found: int = 0
    """Hot, and called hot."""
    cold: int = 0
    """What was not accessed; called cold is what a region with the count 0 has."""
    called_cold: int = 0
    cold_found: int = 0
    working_set: int = 0
    working_set_found: int = 0
    working_set_off: int = 0
    """The distances of the two working sets, aggregation by aggregation."""

    def add(self, truth: Truth, found: Found) -> None:
        """Adds one aggregation."""
        called = len(found.called)
        accessed = called - found.called.count(UNTOUCHED)
        called_cold = found.watched - called
        self.aggregations += 1
        self.pages += truth.pages
        self.unwatched += truth.pages - found.watched
        self.hot += truth.hot
        self.called_hot += len(found.called_hot)
        self.hot_found += found.called_hot.count(HOT)
        self.cold += truth.pages - truth.accessed
        self.called_cold += called_cold
        self.cold_found += called_cold - (found.accessed - accessed)
        self.working_set += truth.accessed
        self.working_set_found += called
        self.working_set_off += abs(truth.accessed - called)
