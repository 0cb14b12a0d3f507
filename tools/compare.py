#!/usr/bin/env python3
"""Says what reports missed and what their schemes did, by an exact report of the same run.

docs/TUTORIAL.md shows its use.
"""
from __future__ import annotations

import argparse
import json
from contextlib import ExitStack
from itertools import zip_longest
from typing import Iterator

from common import STANDARD_INPUT, UsageError, opened_text, parser, run
from comparing.comparison import Comparison, members
from comparing.counts import Exact, regions_of
from comparing.lines import columns_of, lines_of
from reports.events import Aggregation, Report, ReportError
from units import PAGE

TOOL = "compare.py"
EXAMPLE = """\
example:
  tools/compare.py exact.report sampled.report
  tools/compare.py exact.report sampled.report other.report

All are of the same trace in the same intervals. The first is exact: a report with one page a region
(`trace_to_script.py --exact`), or what tools/exact_counts.py wrote. Several others are written beside
each other, a column for each. With --json each is an object in a line of its own.

A page-aggregation is one page in one aggregation. In an aggregation a page is
  hot          if it was accessed in at least the share --hot of the passes; it is called hot if this
               is so of the count of its region
  cold         if it was not accessed; it is called cold if its region has the count 0
The working set is the pages that were accessed, or those of regions with a count above 0.

A page goes out when `pageout` is applied to it, unless it is out already. It comes back with the
first later aggregation in which it was accessed: a refault of the slot that put it out. Or it is
fetched back when `willneed` is applied to it, and nothing else brings it back. So all slots together
have the numbers that `damon reclaim` writes at its last aggregation. What `pageout` was applied to
although it was out already has cost quota, and put nothing out. --moves also lists which pages
went out at which tick, and at which tick they were back.
"""


def check_exact(found: Aggregation, path: str) -> None:
    """Raises UsageError if a row of a report may be more than one page."""
    for region in found.regions:
        if region.end - region.start != PAGE:
            pages = (region.end - region.start) // PAGE
            raise UsageError(f"{path} is not exact: it has a region of {pages} pages at tick {found.tick}; "
                             "the first report needs one page a region, as --exact makes it")


def aggregations_of(report: Report, path: str) -> Iterator[Aggregation]:
    """The aggregations of a report. Raises UsageError."""
    try:
        yield from report.aggregations()
    except ReportError as error:
        raise UsageError(f"{path}: {error}") from None
    except UnicodeDecodeError:
        # Said here, since all files are open, and the one that was opened last would be named.
        raise UsageError(f"{path}: a byte that is not ASCII") from None


def exact_of(found: Aggregation, report: Report, options: argparse.Namespace) -> Exact:
    """The exact counts of an aggregation. Raises UsageError."""
    if not report.has_runs:
        check_exact(found, options.exact)
    try:
        return Exact(regions_of(found, options.target), options.hot * found.passes)
    except ReportError as error:
        raise UsageError(f"{options.exact}: {error}") from None


def add(result: Comparison, exact: Exact, found: Aggregation, options: argparse.Namespace) -> None:
    """Adds one aggregation of a report. Raises UsageError."""
    try:
        result.add(exact, found, options.target, options.hot)
    except ReportError as error:
        raise UsageError(f"{result.name}: {error}") from None
    except LookupError:
        raise UsageError(f"{result.name}: at tick {found.tick} it has pages that {options.exact} does not have: "
                         "use the same trace, --gap and --unit for both") from None


def compared(options: argparse.Namespace) -> list[Comparison]:
    """Reads all reports side by side, one aggregation at a time. Raises UsageError."""
    results = [Comparison(path, options.after, options.moves) for path in options.found]
    with ExitStack() as files:
        exact, *others = [Report(files.enter_context(opened_text(path))) for path in (options.exact, *options.found)]
        for result, report in zip(results, others):
            if report.has_runs:
                raise UsageError(f"{result.name} has exact counts: it must be the first of the reports")
        streams = [aggregations_of(report, result.name) for report, result in zip(others, results)]
        for one, *found in zip_longest(aggregations_of(exact, options.exact), *streams):
            if one is None or any(other is None or other.tick != one.tick for other in found):
                raise UsageError("the reports have aggregations at different ticks: use the same --interval and --aggr for all, "
                                 "or exact counts that are made with --like")
            truth = exact_of(one, exact, options)
            for result, other in zip(results, found):
                add(result, truth, other, options)
    if not results[0].sums.aggregations:
        raise UsageError("the reports have no aggregation: there is nothing to compare")
    if not results[0].sums.pages:
        raise UsageError(f"{options.exact} has no page of target {options.target}")
    return results


def options_of() -> argparse.Namespace:
    """The options of this run. Raises UsageError."""
    result = parser(TOOL, "Says what reports missed and what their schemes did, by an exact report of the same run.", EXAMPLE)
    result.add_argument("exact", help="the exact report, or exact counts; `-` is standard input")
    result.add_argument("found", nargs="+", help="a report with fewer regions, or several; `-` is standard input")
    result.add_argument("--hot", type=float, default=0.5, metavar="SHARE", help="the least share of hits of a hot page (0.5)")
    result.add_argument("--after", type=int, default=5, metavar="N",
                        help="how many aggregations after an action an access comes soon (5)")
    result.add_argument("--target", type=int, metavar="N", help="compare only this target")
    result.add_argument("--moves", action="store_true", help="also list the pages that went out, and when they came back")
    result.add_argument("--json", action="store_true", help="write the numbers as JSON, an object for each report")
    options = result.parse_args()
    if not 0 < options.hot <= 1:
        raise UsageError("--hot must be above 0 and at most 1")
    if options.after < 1:
        raise UsageError("--after must be at least 1")
    if [options.exact, *options.found].count(STANDARD_INPUT) > 1:
        raise UsageError("standard input cannot be more than one of the reports")
    if options.moves and (options.json or len(options.found) > 1):
        raise UsageError("--moves is for one report, and not for --json")
    return options


def work() -> None:
    options = options_of()
    found = compared(options)
    if options.json:
        print("\n".join(json.dumps(members(one)) for one in found))
    else:
        print("\n".join(lines_of(found[0]) if len(found) == 1 else columns_of(found)))


if __name__ == "__main__":
    run(TOOL, work)
