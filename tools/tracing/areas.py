"""Groups the pages that a trace touches into areas, each of which becomes one target of a script."""
from __future__ import annotations

from bisect import bisect_right
from dataclasses import dataclass
from typing import Iterable, Mapping

from units import MOST_PAGES, MOST_TARGETS


@dataclass(frozen=True)
class Area:
    """A run of pages, by number: `first` to before `after`, with the accesses that it had."""

    first: int
    after: int
    accesses: int

    @property
    def pages(self) -> int:
        return self.after - self.first


@dataclass(frozen=True)
class Choice:
    """The areas that become targets, by address, and those that are left out."""

    kept: list[Area]
    left_out: list[Area]


def group_pages(uses: Mapping[int, int], gap: int, unit: int) -> list[Area]:
    """The areas of the touched pages, by address.

    `uses` has the number of accesses of each touched page. Pages with at most `gap` untouched pages
    between them are in one area. An area has at least `unit` pages: a smaller one is filled up with
    the pages behind it.
    """
    areas: list[Area] = []
    for page in sorted(uses):
        if areas and page - areas[-1].after <= gap:
            last = areas[-1]
            after = max(last.after, page + 1)
            areas[-1] = Area(last.first, after, last.accesses + uses[page])
        else:
            areas.append(Area(page, page + unit, uses[page]))
    return areas


def chosen(areas: Iterable[Area]) -> Choice:
    """Keeps the most used areas that fit in the limits of a script: 64 targets, 1,048,576 pages."""
    kept: list[Area] = []
    left_out: list[Area] = []
    pages = 0
    for area in sorted(areas, key=lambda area: (-area.accesses, area.first)):
        if len(kept) < MOST_TARGETS and pages + area.pages <= MOST_PAGES:
            kept.append(area)
            pages += area.pages
        else:
            left_out.append(area)
    return Choice(sorted(kept, key=lambda area: area.first), left_out)


class Lookup:
    """Finds the area of a page."""

    def __init__(self, areas: list[Area]) -> None:
        self.areas = areas
        self.firsts = [area.first for area in areas]

    def target_of(self, page: int) -> int | None:
        """The number of the area that holds this page, or None."""
        number = bisect_right(self.firsts, page) - 1
        return number if number >= 0 and page < self.areas[number].after else None
