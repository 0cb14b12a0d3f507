"""The CSV files of a search: one row for each run, in the order in which runs are wanted, and one for each point.

The file of runs is a beginning of the whole one at each moment, whatever the order in which runs end.
So a search that was stopped goes on behind the last whole row.
"""
from __future__ import annotations

import csv
import io
import os
from pathlib import Path
from statistics import mean, stdev
from typing import Iterable, Iterator, Self, Sequence

from common import UsageError, whole_file

from .plan import SEED

STATUS, DONE = "status", "ok"
RUNS, DONE_RUNS = "runs", "done"
MEAN, SPREAD = " mean", " spread"
"""What stands behind the name of a measure in a row of a point."""

Row = list[str]
"""The cells of a run or of a point."""


class PointError(Exception):
    """Values of settings that make no script."""


def line_of(cells: Sequence[str]) -> str:
    """The line of a row."""
    stream = io.StringIO()
    csv.writer(stream, lineterminator="\n").writerow(cells)
    return stream.getvalue()


class RunsFile:
    """The file of runs: what is there is read and compared with what is wanted, row by row, and then rows are added."""

    def __init__(self, path: Path, header: Sequence[str]) -> None:
        """Raises UsageError if it is of another plan."""
        self.path = path
        self.columns = len(header)
        path.touch()
        self.stream = open(path, newline="", encoding="utf-8")
        self.lines = 0
        self.whole: int | None = 0
        """The bytes of the rows that are read; None once there are others."""
        self.is_read = self.row(header) is None
        if self.is_read:
            self.add([[*header]])

    def __enter__(self) -> Self:
        return self

    def __exit__(self, *error: object) -> None:
        self.stream.close()

    def row(self, first: Sequence[str]) -> Row | None:
        """The next row, which begins with these cells; None if it is not there. Raises UsageError if it is another one."""
        line = self.stream.readline()
        if not line.endswith("\n"):
            return None
        self.lines += 1
        self.whole = (self.whole or 0) + len(line.encode("utf-8"))
        try:
            cells: Row = next(csv.reader([line], strict=True), [])
        except csv.Error:
            cells = []
        if len(cells) != self.columns or cells[: len(first)] != list(first):
            raise self.other()
        return cells

    def other(self) -> UsageError:
        return UsageError(f"{self.path}: line {self.lines} is not of this plan: name another file, or remove this one")

    def kept(self, first: Sequence[str]) -> Row | None:
        """The row of a run, if it is there; from the first that is not, none is."""
        found = None if self.is_read else self.row(first)
        self.is_read = found is None
        return found

    def end(self) -> None:
        """Raises UsageError if there are more rows than were wanted."""
        if not self.is_read and self.stream.readline():
            self.lines += 1
            raise self.other()

    def add(self, rows: Iterable[Row]) -> None:
        """Writes rows behind those that are read. A last line that is cut off is removed."""
        if self.whole is not None:
            self.stream.close()
            os.truncate(self.path, self.whole)
            self.stream = open(self.path, "a", encoding="utf-8")
            self.whole = None
        self.stream.write("".join(map(line_of, rows)))
        self.stream.flush()


def rows_there(path: Path) -> int:
    """How many rows a file of runs has."""
    return max(0, path.read_bytes().count(b"\n") - 1)


def points_header(columns: Sequence[str], measures: Sequence[str]) -> list[str]:
    settings = [name for name in columns if name != SEED]
    return [*settings, RUNS, DONE_RUNS, *(name + part for name in measures for part in (MEAN, SPREAD))]


def write_points(runs: Path, path: Path, columns: Sequence[str], measures: Sequence[str], seeds: int) -> None:
    """Writes the rows of points, each from the rows of its seeds."""
    with whole_file(path) as stream:
        stream.write(line_of(points_header(columns, measures)).encode())
        for rows in rows_of_points(runs, seeds):
            stream.write(line_of(point_cells(rows, len(columns) - 1, len(measures))).encode())


def rows_of_points(path: Path, seeds: int) -> Iterator[list[list[str]]]:
    """The rows of each point."""
    with open(path, newline="", encoding="utf-8") as stream:
        lines = csv.reader(stream)
        next(lines)
        rows: list[list[str]] = []
        for row in lines:
            rows.append(row)
            if len(rows) == seeds:
                yield rows
                rows = []


def point_cells(rows: list[list[str]], settings: int, measures: int) -> list[str]:
    """The settings of a point, and of each measure the mean over its runs and how far these are spread."""
    done = [row for row in rows if row[-1] == DONE]
    result = [*rows[0][:settings], str(len(rows)), str(len(done))]
    for column in range(settings + 1, settings + 1 + measures):
        numbers = [float(row[column]) for row in done if row[column]]
        result.append(f"{mean(numbers):.4f}" if numbers else "")
        result.append(f"{stdev(numbers):.4f}" if len(numbers) > 1 else "")
    return result
