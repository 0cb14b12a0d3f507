"""Reads the rows of a search, of runs or of points, as marks with two measures and the settings that they have."""
from __future__ import annotations

import csv
import math
from dataclasses import dataclass
from typing import Iterable, Sequence

from .measures import LESS, MEASURES, MORE
from .table import DONE_RUNS, MEAN, RUNS, SPREAD, STATUS

ERRORS = {"working_set_error"}
"""Measures of which the distance from 0 is drawn."""


class TableError(Exception):
    """A file that does not have the rows of a search, or not these columns."""


@dataclass(frozen=True)
class Axis:
    """A measure, or another column of numbers, and whether less of it is better."""

    name: str
    less: bool

    @property
    def words(self) -> str:
        return f"{self.name}{', distance from 0' if self.name in ERRORS else ''} ({LESS if self.less else MORE} is better)"


WORKLOAD = "workload"
"""The column of what was run."""
TOGETHER = "all of them together"


@dataclass(frozen=True)
class Mark:
    """A row, or the mean of the rows that have the same settings and each another workload."""

    x: float
    y: float
    spreads: tuple[float, float]
    names: tuple[str, ...]
    """The settings in which rows differ."""
    values: tuple[str, ...]
    """Their values."""

    @property
    def settings(self) -> str:
        return ", ".join(f"{name} {value}" for name, value in zip(self.names, self.values) if value)

    def value(self, name: str) -> str:
        """The value of a setting; nothing if rows do not differ in it."""
        return self.values[self.names.index(name)] if name in self.names else ""


@dataclass(frozen=True)
class Table:
    """What is drawn of a file."""

    marks: list[Mark]
    left_out: int
    """The rows without a number for one of the axes."""
    same: str
    """The settings that all rows share."""

    def by_workload(self) -> dict[str, list[Mark]]:
        """The marks of each workload, and after several the means of the settings that all of them have. One is no better or
        worse than one of another workload: they are different questions."""
        found: dict[str, list[Mark]] = {}
        for mark in self.marks:
            found.setdefault(mark.value(WORKLOAD), []).append(mark)
        return {**found, TOGETHER: means_of(found)} if len(found) > 1 else found


def own_settings(marks: Sequence[Mark]) -> set[str]:
    """The settings that go with the workload, where there are several: each workload has one value, such as its own `unit`."""
    if WORKLOAD not in marks[0].names:
        return set()
    values = {(name, workload, mark.value(name)) for mark in marks for name in mark.names for workload in [mark.value(WORKLOAD)]}
    workloads = len({mark.value(WORKLOAD) for mark in marks})
    return {name for name in marks[0].names if sum(name == other for other, _, _ in values) == workloads}


def means_of(found: dict[str, list[Mark]]) -> list[Mark]:
    """The means over all workloads, for the settings with which each was run once."""
    every = [mark for marks in found.values() for mark in marks]
    own = own_settings(every)
    alike: dict[tuple[str, ...], list[Mark]] = {}
    for mark in every:
        alike.setdefault(tuple("" if name in own else value for name, value in zip(mark.names, mark.values)), []).append(mark)
    place = every[0].names.index(WORKLOAD)
    return [Mark(sum(one.x for one in marks) / len(marks), sum(one.y for one in marks) / len(marks), (0.0, 0.0), marks[0].names,
                 (*values[:place], TOGETHER, *values[place + 1 :]))
            for values, marks in alike.items() if len({one.value(WORKLOAD) for one in marks}) == len(marks) == len(found)]


def axis_of(text: str) -> Axis:
    """An axis `NAME`, `NAME:less` or `NAME:more`. Raises TableError."""
    name, colon, better = text.rpartition(":")
    if not colon:
        name, better = text, MEASURES.get(text, "")
    if better not in (LESS, MORE):
        raise TableError(f"{text!r} does not say what is better: use {name}:{LESS} or {name}:{MORE}")
    return Axis(name, better == LESS)


def table_of(lines: Iterable[str], x: Axis, y: Axis, only: Sequence[tuple[str, str]] = ()) -> Table:
    """The rows of a file that have these values in these columns. Raises TableError with the number of the first faulty line."""
    rows = csv.reader(lines, strict=True)
    try:
        header: list[str] = next(rows, [])
        columns = [column_of(header, axis) for axis in (x, y)]
        found = list(rows)
    except csv.Error as error:
        raise TableError(f"line {rows.line_num}: {error}") from None
    for number, row in enumerate(found, 2):
        if len(row) != len(header):
            raise TableError(f"line {number}: {len(row)} cells, and the first line has {len(header)}")
    for name, value in only:
        found = chosen(found, header, name, value)
    settings = settings_in(header)
    differ = [place for place in settings if len({row[place] for row in found}) > 1]
    marks = [mark for row in found if (mark := mark_of(row, header, columns, differ))]
    same = words(header, found[0], [place for place in settings if place not in differ]) if found else ""
    return Table(marks, len(found) - len(marks), same)


def chosen(rows: list[list[str]], header: Sequence[str], name: str, value: str) -> list[list[str]]:
    """The rows with this value. Raises TableError if there is none."""
    if name not in header:
        raise TableError(f"line 1: there is no column {name!r}")
    place = header.index(name)
    kept = [row for row in rows if row[place] == value]
    if not kept:
        raise TableError(f"no row has the {name} {value!r}: there are {', '.join(sorted({row[place] for row in rows}))}")
    return kept


def column_of(header: Sequence[str], axis: Axis) -> int:
    """The place of a column of numbers; in rows of points it is that of their means."""
    for name in (axis.name, axis.name + MEAN):
        if name in header:
            return header.index(name)
    raise TableError(f"line 1: there is no column {axis.name!r}")


def settings_in(header: Sequence[str]) -> list[int]:
    """The places of what stands before the measures."""
    measures = {STATUS, RUNS, DONE_RUNS, *MEASURES, *(name + MEAN for name in MEASURES)}
    ends = [place for place, name in enumerate(header) if name in measures]
    return list(range(min(ends, default=len(header))))


def words(header: Sequence[str], row: Sequence[str], places: Iterable[int]) -> str:
    """The columns at these places with what they have, but for empty cells."""
    return ", ".join(f"{header[place]} {row[place]}" for place in places if row[place])


def mark_of(row: Sequence[str], header: Sequence[str], columns: Sequence[int], differ: Sequence[int]) -> Mark | None:
    """The mark of a row whose settings at some places are those in which rows differ; None if one of its numbers is missing."""
    numbers = [number_of(row[column]) for column in columns]
    if None in numbers:
        return None
    x, y = (abs(number or 0.0) if header[column].removesuffix(MEAN) in ERRORS else number or 0.0
            for number, column in zip(numbers, columns))
    spreads = [spread_of(row, header, column) for column in columns]
    names, values = (tuple(cells[place] for place in differ) for cells in (header, row))
    return Mark(x, y, (spreads[0], spreads[1]), names, values)


def spread_of(row: Sequence[str], header: Sequence[str], column: int) -> float:
    """How far the runs of a point are spread; 0 where that is not known."""
    name = header[column].removesuffix(MEAN) + SPREAD
    return number_of(row[header.index(name)]) or 0.0 if name in header else 0.0


def number_of(text: str) -> float | None:
    try:
        number = float(text)
    except ValueError:
        return None
    return number if math.isfinite(number) else None


def front_of(marks: Iterable[Mark], x: Axis, y: Axis) -> list[Mark]:
    """The marks that no other one beats: none is as good in both and better in one. They come by x, the best first."""
    def cost(mark: Mark) -> tuple[float, float]:
        return (mark.x if x.less else -mark.x, mark.y if y.less else -mark.y)

    front: list[Mark] = []
    for mark in sorted(marks, key=cost):
        if not front or cost(mark)[1] < cost(front[-1])[1] or cost(mark) == cost(front[-1]):
            front.append(mark)
    return front
