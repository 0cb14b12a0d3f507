"""Which memory is hot or cold in a span of a report, and how large its working sets are.

The share of a page is the part of the passes in which the region that held it was found accessed, over all aggregations of
the span. An area is a longest run of neighbours whose shares are the same when they are rounded down to a step of percent.
"""
from __future__ import annotations

from collections import Counter
from dataclasses import dataclass
from typing import Iterable, NamedTuple, Sequence

from reports.events import Aggregation
from reports.pages import key, place
from units import PAGE


class Area(NamedTuple):
    """A run of pages; addresses are in bytes."""

    target: int
    start: int
    end: int
    share: float
    """The mean over its pages, from 0 to 1."""
    age: int
    """The least age of its regions at the end of the span."""
    slots: tuple[str, ...]
    """The slots that were applied to a page of it in the span, each with its action."""

    @property
    def pages(self) -> int:
        return (self.end - self.start) // PAGE


@dataclass(frozen=True)
class Stretch:
    """Pages with the same number of hits."""

    first: int
    after: int
    hits: int


def stretches_of(found: Sequence[Aggregation]) -> list[Stretch]:
    """The pages that were watched, by what all aggregations together found."""
    hits: Counter[int] = Counter()
    watched: Counter[int] = Counter()
    for aggregation in found:
        for region in aggregation.regions:
            first, after = key(region.target, region.start), key(region.target, region.end)
            hits[first] += region.hits
            hits[after] -= region.hits
            watched[first] += 1
            watched[after] -= 1
    result: list[Stretch] = []
    edges = sorted(watched)
    sum_of_hits = times = 0
    for first, after in zip(edges, edges[1:]):
        sum_of_hits += hits[first]
        times += watched[first]
        if times:
            result.append(Stretch(first, after, sum_of_hits))
    return result


def areas_of(found: Sequence[Aggregation], step: int) -> list[Area]:
    """The areas of a span that has at least one aggregation, by address. A step of 0 percent keeps each difference."""
    passes = sum(aggregation.passes for aggregation in found)
    groups: list[list[Stretch]] = []
    for one in stretches_of(found):
        last = groups[-1][-1] if groups else None
        if last and last.after == one.first and level(last, passes, step) == level(one, passes, step):
            groups[-1].append(one)
        else:
            groups.append([one])
    ages, slots = ages_at(found[-1]), applied_in(found)
    return [area_of(group, passes, ages, slots) for group in groups]


def level(one: Stretch, passes: int, step: int) -> int:
    """The whole steps of the share."""
    return 100 * one.hits // (step * passes) if step else one.hits


Ages = list[tuple[int, int, int]]
Slots = dict[str, list[tuple[int, int]]]


def ages_at(found: Aggregation) -> Ages:
    """The regions of an aggregation as pages, each with its age."""
    return [(key(one.target, one.start), key(one.target, one.end), one.age) for one in found.regions]


def applied_in(found: Iterable[Aggregation]) -> Slots:
    """The pages that each slot was applied to, by its number and its action."""
    result: dict[tuple[int, str], set[tuple[int, int]]] = {}
    for aggregation in found:
        for run in aggregation.applied:
            result.setdefault((run.slot, run.action), set()).add((key(run.target, run.start), key(run.target, run.end)))
    return {f"{slot} {action}": sorted(runs) for (slot, action), runs in sorted(result.items())}


def area_of(group: list[Stretch], passes: int, ages: Ages, slots: Slots) -> Area:
    first, after = group[0].first, group[-1].after
    hits = sum(one.hits * (one.after - one.first) for one in group)
    age = min((age for start, end, age in ages if start < after and first < end), default=0)
    names = tuple(name for name, runs in slots.items() if any(start < after and first < end for start, end in runs))
    target, start = place(first)
    return Area(target, start, start + (after - first) * PAGE, hits / (passes * (after - first)), age, names)


def ranked(areas: Iterable[Area], cold: bool) -> list[Area]:
    """The most heat first; or the least, and of the same share the oldest. Of what is alike the larger, then the lower."""
    def rank(area: Area) -> tuple[float, int, int, int, int]:
        return (area.share if cold else -area.share, -area.age if cold else 0, -area.pages, area.target, area.start)

    return sorted(areas, key=rank)


class Sizes(NamedTuple):
    """Working sets in pages: each is the least size that at least this part of them does not exceed."""

    aggregations: int
    least: int
    quarter: int
    median: int
    three_quarters: int
    greatest: int


def sizes_of(found: Sequence[Aggregation]) -> Sizes:
    """The working sets of a span that has at least one aggregation."""
    sizes = sorted(one.working_set // PAGE for one in found)
    quarter, median, three_quarters = (sizes[-(-len(sizes) * part // 4) - 1] for part in (1, 2, 3))
    return Sizes(len(sizes), sizes[0], quarter, median, three_quarters, sizes[-1])
