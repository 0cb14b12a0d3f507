"""Fills the cells of a grid of time and addresses, and joins equal cells to rectangles.

A panel has at most MOST_COLUMNS columns; its rows lie where regions begin and end, or are of equal
height if those are too many. So the size of a picture is bounded, whatever the report has.
"""
from __future__ import annotations

from bisect import bisect_left
from dataclasses import dataclass
from typing import Sequence

from reports.events import Snapshot

MOST_COLUMNS = 480
LEVELS = 9
"""The steps of the colour scale above 0."""
AGAIN = "again"
"""In place of the action where `pageout` was applied to pages that were out already."""
UNWATCHED = -1
"""The level of a cell that no region covers."""

Rectangle = tuple[int, int, int, int]
"""Column, row, and how many of each; row 0 has the lowest addresses."""


@dataclass(frozen=True)
class Columns:
    """The ticks at which columns begin and end, and which snapshots or heat tables are in each: the same number."""

    edges: list[int]
    groups: list[slice]


@dataclass(frozen=True)
class Cells:
    """The cells of one panel, as rectangles by level, and by slot for the pages of schemes."""

    rows: list[int]
    """The addresses at which rows begin and end."""
    heat: dict[int, list[Rectangle]]
    applied: dict[int, list[Rectangle]]
    again: dict[int, list[Rectangle]]
    """Those of its pages that were out already, where this is known."""


def columns_of(ticks: Sequence[int], start: int = 0) -> Columns:
    """Groups what was found at these ticks so that there are at most MOST_COLUMNS columns. There is at least one tick, after `start`."""
    size = -(-len(ticks) // MOST_COLUMNS)
    groups = [slice(start, start + size) for start in range(0, len(ticks), size)]
    return Columns([start, *(ticks[group][-1] for group in groups)], groups)


def rows_of(report: list[Snapshot], target: int, low: int, high: int, most: int) -> list[int]:
    """The edges of the rows of a panel: where regions begin and end, if that gives at most `most` rows."""
    edges = {low, high}
    for snapshot in report:
        for region in snapshot.by_target.get(target, ()):
            edges.update((region.start, region.end))
        edges.update(edge for run in snapshot.applied if run.target == target for edge in (run.start, run.end))
    if len(edges) - 1 <= most:
        return sorted(edges)
    return [low + (high - low) * number // most for number in range(most + 1)]


def level(share: float) -> int:
    """The step of the colour scale for a share from 0 to 1; 0 only for a share of 0."""
    return 0 if share <= 0 else min(LEVELS, 1 + int(share * LEVELS))


def heat_column(group: list[Snapshot], target: int, rows: list[int]) -> list[int]:
    """The levels of one column: the mean share of hits over its snapshots and the row's bytes, as far as they are watched."""
    count = len(rows) - 1
    hits, covered = [0.0] * count, [0.0] * count
    for snapshot in group:
        for region in snapshot.by_target.get(target, ()):
            share = region.hits / snapshot.passes
            spread(rows, region.start, region.end, share, hits, covered)
    return [level(hit / cover) if cover else UNWATCHED for hit, cover in zip(hits, covered)]


def spread(rows: list[int], start: int, end: int, share: float, hits: list[float], covered: list[float]) -> None:
    """Adds a region's share to the rows that it overlaps, weighted by the bytes."""
    row = max(0, bisect_left(rows, start + 1) - 1)
    while row < len(hits) and rows[row] < end:
        both = min(end, rows[row + 1]) - max(start, rows[row])
        hits[row] += share * both
        covered[row] += both
        row += 1


def applied_column(group: list[Snapshot], target: int, rows: list[int], slot: int, is_again: bool) -> list[int]:
    """1 for each row with a page to which the slot's scheme was applied in this column; of those that were out already or of the others."""
    marks = [0] * (len(rows) - 1)
    for snapshot in group:
        for run in snapshot.applied:
            if run.target == target and run.slot == slot and (run.action == AGAIN) == is_again:
                row = max(0, bisect_left(rows, run.start + 1) - 1)
                while row < len(marks) and rows[row] < run.end:
                    marks[row] = 1
                    row += 1
    return marks


def cells_of(report: list[Snapshot], columns: Columns, target: int, rows: list[int], slots: list[int]) -> Cells:
    """The rectangles of a panel."""
    heat = [heat_column(report[group], target, rows) for group in columns.groups]
    applied, again = ({
        slot: rectangles([applied_column(report[group], target, rows, slot, is_again) for group in columns.groups]).get(1, [])
        for slot in slots
    } for is_again in (False, True))
    return Cells(rows, rectangles(heat), applied, again)


def rectangles(columns: list[list[int]]) -> dict[int, list[Rectangle]]:
    """Joins cells of the same level: within a column first, then columns with the same run."""
    done: dict[int, list[Rectangle]] = {}
    open_runs: dict[tuple[int, int, int], int] = {}
    for column, cells in enumerate(columns):
        runs = set(runs_of(cells))
        for run in [run for run in open_runs if run not in runs]:
            close(done, run, open_runs.pop(run), column)
        for run in runs:
            open_runs.setdefault(run, column)
    for run, since in open_runs.items():
        close(done, run, since, len(columns))
    return {value: sorted(found) for value, found in done.items()}


def runs_of(cells: list[int]) -> list[tuple[int, int, int]]:
    """The longest runs of equal cells that are not 0: first row, number of rows, level."""
    runs, start = [], 0
    for row in range(1, len(cells) + 1):
        if row == len(cells) or cells[row] != cells[start]:
            if cells[start]:
                runs.append((start, row - start, cells[start]))
            start = row
    return runs


def close(done: dict[int, list[Rectangle]], run: tuple[int, int, int], since: int, column: int) -> None:
    row, rows, value = run
    done.setdefault(value, []).append((since, row, column - since, rows))
