"""What is measured of a run: what tools/compare.py says of its counts, by the exact counts of its workload, and what
`damon reclaim` says of its pages."""
from __future__ import annotations

from typing import Collection

from measuring.sums import Found, Sums
from measuring.truth import Truths
from reports.blocks import Block, blocks_of, checks_of, memory_of
from reports.forms import ReportError as ReportError

REPLAY, RECLAIM = COMMANDS = ("replay", "reclaim")
"""The commands of damon that run scripts."""
LESS, MORE = "less", "more"
MEASURES = {
    "checks": LESS, "hot_found": MORE, "hot_false": LESS, "cold_false": LESS, "working_set_error": LESS,
    "applied": MORE, "pageouts": LESS, "refaults": LESS, "out": MORE, "again": LESS,
}
"""Each measure, and whether less or more of it is better. Of an error it is the distance from 0."""
OF_AGGREGATIONS = {"hot_found", "hot_false", "cold_false", "working_set_error", "applied", "again"}
"""Those for which all aggregations are read."""
OF_MEMORY = {"pageouts", "refaults", "out", "again"}
"""Those that `damon reclaim` alone has."""
PAGEOUT = "pageout"


def measures_by(command: str) -> tuple[str, ...]:
    """The measures of runs by this command."""
    return tuple(name for name in MEASURES if command == RECLAIM or name not in OF_MEMORY)


class Measured:
    """What is added up over the aggregations of a report."""

    def __init__(self, truths: Truths, share: float) -> None:
        """The share is the least one of the passes of a hot page."""
        self.truths = truths
        self.share = share
        self.sums = Sums()
        self.applied = self.pageout = 0
        """The page-aggregations to which schemes were applied, and those of `pageout` among them."""

    def add(self, since: int, block: Block) -> None:
        """Adds an aggregation. Raises ValueError or LookupError if it is none."""
        truth, places = self.truths.between(since, block.tick), self.truths.places
        rows = [places.rows[row] for row in block.accessed_rows()]
        least = self.share * (block.tick - since)
        called = b"".join([truth.kinds[pages] for pages, _ in rows])
        called_hot = b"".join([truth.kinds[pages] for pages, count in rows if count >= least])
        self.sums.add(truth, Found(truth.pages, truth.accessed, called, called_hot))
        for action, pages in map(places.runs.__getitem__, block.applied()):
            self.applied += pages
            self.pageout += pages if action == PAGEOUT else 0


def sums_of(report: str, truths: Truths, share: float) -> Measured:
    """Adds up all aggregations of a report. Raises ReportError."""
    result = Measured(truths, share)
    since = 0
    try:
        for block in blocks_of(report):
            result.add(since, block)
            since = block.tick
    except (ValueError, LookupError) as error:
        raise ReportError(f"not a report of this workload: {error}") from None
    return result


def measured(report: str, truths: Truths, share: float, names: Collection[str]) -> dict[str, str]:
    """The measures with these names as the texts of their columns; nothing where one is not defined. Raises ReportError.

    It may give others too. What only others need is not read.
    """
    read = None if OF_AGGREGATIONS.isdisjoint(names) else sums_of(report, truths, share)
    found = {"checks": str(checks_of(report)), **(measures_of(read) if read else {})}
    return found if OF_MEMORY.isdisjoint(names) else {**found, **memory_measures(report, read)}


def measures_of(found: Measured) -> dict[str, str]:
    """The measures that all aggregations make up."""
    sums = found.sums
    return {
        "hot_found": ratio(sums.hot_found, sums.hot),
        "hot_false": ratio(sums.called_hot - sums.hot_found, sums.called_hot),
        "cold_false": ratio(sums.called_cold - sums.cold_found, sums.called_cold),
        "working_set_error": ratio(sums.working_set_found - sums.working_set, sums.working_set),
        "applied": str(found.applied),
    }


def memory_measures(report: str, read: Measured | None) -> dict[str, str]:
    """The measures that `damon reclaim` alone has, from what it says after each aggregation and at the end. Raises ReportError."""
    each, (*last, end) = memory_of(report)
    # Through an aggregation those pages were out that are out after it, less those that it put out itself and with those that
    # it fetched back. Over all aggregations these add up to the numbers of the last one.
    out = sum(each) - sum(one.pageouts - one.prefetches for one in last)
    again = {"again": ratio(read.pageout - end.pageouts, read.pageout)} if read else {}
    return {"pageouts": str(end.pageouts), "refaults": str(end.refaults), "out": ratio(out, len(each)), **again}


def ratio(part: int, whole: int) -> str:
    return f"{part / whole:.4f}" if whole else ""
