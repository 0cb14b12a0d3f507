#!/usr/bin/env python3
"""Writes a report as one table: a row for each region of each aggregation, as CSV, for pandas, R or DuckDB."""
from __future__ import annotations

import csv
import sys
from typing import Iterator, Sequence

from common import STANDARD_INPUT, UsageError, opened_text, parser, run
from reports.events import Aggregation, Applied, Region, Report, ReportError
from units import PAGE

TOOL = "flat.py"
EXAMPLE = """\
example:
  tools/flat.py out/shop.report > out/shop.csv
  python3 -c "import pandas; print(pandas.read_csv('out/shop.csv').groupby('tick').pages.sum())"

Columns:
  tick       of the aggregation: how many passes have ended
  passes     those since the aggregation before
  target, start, end
             the region; addresses in bytes, as decimal numbers
  pages      its size
  count, last, age
             as in the report; exact counts have neither last nor age
  slots      the slots that were applied to pages of it in this aggregation, with spaces between
  applied    the pages of it to which a slot was applied; a page that several took counts for each
  score      the highest score with which this was so; empty where there is none
"""
COLUMNS = ("tick", "passes", "target", "start", "end", "pages", "count", "last", "age", "slots", "applied", "score")
Cell = int | str


def rows_of(found: Aggregation, is_exact: bool) -> Iterator[Sequence[Cell]]:
    """The rows of an aggregation. Both its regions and the runs that lie in them go by target and address."""
    runs = sorted(found.applied, key=lambda one: (one.target, one.start))
    number = 0
    for region in found.regions:
        while number < len(runs) and (runs[number].target, runs[number].end) <= (region.target, region.start):
            number += 1
        ages: list[Cell] = ["", ""] if is_exact else [region.last, region.age]
        pages = (region.end - region.start) // PAGE
        yield [found.tick, found.passes, region.target, region.start, region.end, pages, region.hits, *ages, *taken_of(region, runs[number:])]


def taken_of(region: Region, runs: list[Applied]) -> tuple[Cell, Cell, Cell]:
    """What slots did with a region, by the runs that end after its start."""
    slots: set[int] = set()
    pages = score = 0
    for one in runs:
        if (one.target, one.start) >= (region.target, region.end):
            break
        both = min(one.end, region.end) - max(one.start, region.start)
        if one.target == region.target and both > 0:
            slots.add(one.slot)
            pages += both // PAGE
            score = max(score, one.score)
    return " ".join(map(str, sorted(slots))), pages, score if slots else ""


def work() -> None:
    options = parser(TOOL, "Writes a row for each region of each aggregation of a report, as CSV.", EXAMPLE)
    options.add_argument("report", nargs="?", default=STANDARD_INPUT, help="the report, as text or as JSON lines, or exact counts; "
                         "`-`, the default, is standard input")
    path = options.parse_args().report
    table = csv.writer(sys.stdout, lineterminator="\n")
    with opened_text(path) as stream:
        report = Report(stream)
        table.writerow(COLUMNS)
        try:
            for found in report.aggregations():
                table.writerows(rows_of(found, report.has_runs))
        except ReportError as error:
            raise UsageError(f"{path}: {error}") from None


if __name__ == "__main__":
    run(TOOL, work)
