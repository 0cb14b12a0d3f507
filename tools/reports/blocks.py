"""Reads a whole report at once, for what is measured of many: each aggregation as the text of its lines.

A row that was not found accessed is never looked at. As rows tile the ranges, all pages of no other row were not accessed.
`events` reads the same lines one after another, and checks each.
"""
from __future__ import annotations

from typing import Iterator, NamedTuple

from .forms import ACCESSED_ROW, AGGREGATE_START, APPLIED, LAST_LINES, MEMORY, MEMORY_START, OUT, ROW_START, SHOW_START, ReportError
from .memory import Memory


class Block(NamedTuple):
    """An aggregation."""

    tick: int
    lines: str
    rows: int
    """Where its rows begin."""

    def accessed_rows(self) -> list[str]:
        """The rows that were found accessed, as `TARGET START-END count=COUNT`."""
        return ACCESSED_ROW.findall(self.lines, self.rows)

    def applied(self) -> list[str]:
        """The runs that schemes were applied to, as `ACTION TARGET START-END score`."""
        return APPLIED.findall(self.lines, 0, self.rows)


def blocks_of(report: str) -> Iterator[Block]:
    """The aggregations. Raises ValueError where there is none."""
    for lines in f"\n{report}".split(AGGREGATE_START)[1:]:
        # Rows of a show are not those of the aggregation before it.
        lines = lines.partition(SHOW_START)[0]
        yield Block(int(lines[: lines.index(" ")]), lines, lines.find(ROW_START))


def lines_of(report: str, start: str) -> Iterator[str]:
    """The lines that begin with this, each with the end of the line before. A pattern would look at each character."""
    place = report.find(start)
    while place >= 0:
        end = report.find("\n", place + 1)
        yield report[place:end]
        place = report.find(start, end)


def checks_of(report: str) -> int:
    """How often the monitor looked at a page in the whole run. Raises ReportError."""
    last = LAST_LINES.fullmatch(report, report.rfind("\nend ") + 1)
    if not last:
        raise ReportError("the report has no last line")
    return int(last[1])


def memory_of(report: str) -> tuple[list[int], list[Memory]]:
    """What `damon reclaim` says of memory: the pages that are out after each aggregation; and all of the last one, if there is one,
    and of the end. Raises ReportError."""
    lines = list(lines_of(report, MEMORY_START))
    out = OUT.findall("".join(lines[:-1]))
    last = MEMORY.findall("".join(lines[-2:]))
    if len(out) != f"\n{report}".count(AGGREGATE_START) or len(last) != min(2, 1 + len(out)):
        raise ReportError("the report does not say after each aggregation how many pages are out")
    return [*map(int, out)], [Memory._make(map(int, numbers)) for numbers in last]
