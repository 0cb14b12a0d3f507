"""Exact counts: which pages were accessed between two ticks, and which of them were hot.

The watched pages are numbered from 0: range by range, each by address.
"""
from __future__ import annotations

from typing import Callable, Iterable, NamedTuple, Sequence, TypeVar

from tracing.intervals import Runs, touch_counts
from units import PAGE_BITS

UNTOUCHED, ACCESSED, HOT = b"\0", b"\1", b"\2"
"""What a page was in an aggregation. A hot one was accessed too."""
MOST_KEPT = 1 << 16
"""The most texts whose pages are kept."""
MOST_BYTES = 1 << 28
"""The most bytes of aggregations that are kept."""


class Range(NamedTuple):
    """Watched pages of a target, by their numbers in the address space."""

    target: int
    first: int
    after: int

    @property
    def pages(self) -> int:
        return self.after - self.first


T = TypeVar("T")


class Known(dict[str, T]):
    """What a function says of texts. It is asked once for each, as the rows of reports come again."""

    def __init__(self, answer: Callable[[str], T]) -> None:
        super().__init__()
        self.answer = answer

    def __missing__(self, text: str) -> T:
        """All other answers are forgotten where they are many."""
        if len(self) >= MOST_KEPT:
            self.clear()
        result = self[text] = self.answer(text)
        return result

    def __reduce__(self) -> tuple[type[Known[T]], tuple[Callable[[str], T]]]:
        return (Known, (self.answer,))


class Places:
    """The numbers of watched pages."""

    def __init__(self, ranges: Sequence[Range]) -> None:
        self.ranges = list(ranges)
        self.rows, self.runs = Known(self.row), Known(self.run)

    def row(self, text: str) -> tuple[slice, int]:
        """The pages and the count of `TARGET START-END count=COUNT`. Raises LookupError and ValueError, as `of` does."""
        target, addresses, count = text.split(" ")
        return self.of(target, addresses), int(count.removeprefix("count="))

    def run(self, text: str) -> tuple[str, int]:
        """The action of `ACTION TARGET START-END score`, and how many pages it has. Raises LookupError and ValueError, as `of` does."""
        action, target, addresses, _ = text.split(" ")
        pages = self.of(target, addresses)
        return action, pages.stop - pages.start

    def of(self, target: str, addresses: str) -> slice:
        """The pages of `TARGET` and `START-END`. Raises LookupError if they are not watched, and ValueError if these are no such texts."""
        start, end = (int(address, 16) >> PAGE_BITS for address in addresses.split("-"))
        return self.at(int(target), start, end)

    def at(self, target: int, first: int, after: int) -> slice:
        """The same of pages that are named by numbers. Raises LookupError."""
        base = 0
        for one in self.ranges:
            if one.target == target and one.first <= first < after <= one.after:
                return slice(base + first - one.first, base + after - one.first)
            base += one.pages
        raise LookupError(f"pages that are not watched: {target} {first << PAGE_BITS:#x}-{after << PAGE_BITS:#x}")


class Truth:
    """What was true in an aggregation: a byte for each page. Those of a row are a slice, and are counted without a loop."""

    def __init__(self, pages: int, runs: Iterable[tuple[int, int, bool]]) -> None:
        """Runs of accessed pages, each with whether they were hot; `pages` are all pages."""
        kinds = bytearray(UNTOUCHED) * pages
        for first, after, is_hot in runs:
            kinds[first:after] = (HOT if is_hot else ACCESSED) * (after - first)
        self.kinds = bytes(kinds)
        self.pages = pages
        self.hot = kinds.count(HOT)
        self.accessed = self.hot + kinds.count(ACCESSED)


class Truths:
    """The exact counts of a workload, each computed once, and the numbers of its pages."""

    def __init__(self, ranges: Sequence[Range], intervals: Sequence[Runs], share: float) -> None:
        """The intervals have numbers of watched pages. A hot page was accessed in at least `share` of the passes."""
        self.intervals = intervals
        self.share = share
        self.pages = sum(one.pages for one in ranges)
        self.places = Places(ranges)
        self.known: dict[tuple[int, int], Truth] = {}

    def between(self, since: int, tick: int) -> Truth:
        """What was true of the intervals from one tick to another."""
        return self.known.get((since, tick)) or self.found(since, tick)

    def found(self, since: int, tick: int) -> Truth:
        """The same, which is kept from now on; all others are forgotten where they are large together."""
        if (len(self.known) + 1) * self.pages > MOST_BYTES:
            self.known.clear()
        least = self.share * (tick - since)
        runs = ((first, after, count >= least) for first, after, count in touch_counts(self.intervals[since:tick]))
        result = self.known[since, tick] = Truth(self.pages, runs)
        return result
