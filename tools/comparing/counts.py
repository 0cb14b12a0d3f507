"""What one aggregation says of its pages."""
from __future__ import annotations

from measuring.sums import Found
from measuring.truth import UNTOUCHED, Places, Range, Truth
from reports.events import Aggregation, Region, ReportError
from reports.pages import PageRun, PageRuns, append, key
from units import PAGE_BITS


def regions_of(found: Aggregation, target: int | None) -> list[Region]:
    """The regions of one target, or of all. Raises ReportError if they do not rise."""
    before = (-1, 0)
    result: list[Region] = []
    for region in found.regions:
        if target is None or region.target == target:
            if not before <= (region.target, region.start) < (region.target, region.end):
                raise ReportError(f"the row at {region.start:#x} of the aggregation at tick {found.tick} does not follow the one before it")
            before = (region.target, region.end)
            result.append(region)
    return result


def accessed_in(regions: list[Region]) -> PageRuns:
    """The pages of the regions with a count above 0."""
    result: PageRuns = []
    for region in regions:
        if region.hits:
            append(result, key(region.target, region.start), key(region.target, region.end))
    return result


class Exact:
    """The exact counts of an aggregation: the numbers of its pages, and what each of them was."""

    def __init__(self, regions: list[Region], least: float) -> None:
        """A page is hot from this count on."""
        self.places = Places(ranges_of(regions))
        runs: list[tuple[int, int, bool]] = []
        first = 0
        for region in regions:
            after = first + ((region.end - region.start) >> PAGE_BITS)
            if region.hits:
                runs.append((first, after, region.hits >= least))
            first = after
        self.truth = Truth(first, runs)
        self.accessed = accessed_in(regions)

    def kinds_at(self, region: Region) -> bytes:
        """What the pages of a region were. Raises LookupError if the exact counts lack one."""
        return self.truth.kinds[self.places.at(region.target, region.start >> PAGE_BITS, region.end >> PAGE_BITS)]

    def found_by(self, regions: list[Region], least: float) -> Found:
        """What a report with these regions found, which calls hot what has at least this count. Raises LookupError."""
        kinds = [(self.kinds_at(region), region.hits) for region in regions]
        watched = b"".join([pages for pages, _ in kinds])
        called = b"".join([pages for pages, hits in kinds if hits])
        called_hot = b"".join([pages for pages, hits in kinds if hits and hits >= least])
        return Found(len(watched), len(watched) - watched.count(UNTOUCHED), called, called_hot)


def ranges_of(regions: list[Region]) -> list[Range]:
    """The longest runs of pages of regions that rise."""
    result: list[Range] = []
    for region in regions:
        first, after = region.start >> PAGE_BITS, region.end >> PAGE_BITS
        if result and (result[-1].target, result[-1].after) == (region.target, first):
            result[-1] = result[-1]._replace(after=after)
        else:
            result.append(Range(region.target, first, after))
    return result


def applied_of(found: Aggregation, target: int | None) -> dict[tuple[int, str], list[PageRun]]:
    """The pages that schemes were applied to, by slot and action, in the order of the report."""
    result: dict[tuple[int, str], list[PageRun]] = {}
    for run in found.applied:
        if target in (None, run.target):
            result.setdefault((run.slot, run.action), []).append((key(run.target, run.start), key(run.target, run.end)))
    return result
