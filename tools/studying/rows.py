"""The rows of a study: a point of a plan on a program, with the mean, the least and the greatest of each measure over its seeds."""
from __future__ import annotations

import csv
import os
from itertools import product
from pathlib import Path
from typing import Iterable, Iterator, Mapping, NamedTuple, Sequence

from searching.plan import PASSES, Plan
from searching.points import Points
from searching.table import DONE, line_of, rows_of_points
from units import PAGE_BITS

from .programs import Program

PROGRAM, RUNS = "program", "runs"
LEAST, GREATEST = " least", " greatest"
PRICES = (3, 10, 30)
"""How many aggregations a page has to be out to make up for a refault."""
WORTH = "worth_"
CHECKS, COST = "checks", "cost"
"""The checks of a pass, and which share of all pages they are."""


class Spread(NamedTuple):
    """A measure over the seeds of a point."""

    mean: float
    least: float
    greatest: float


class Found(NamedTuple):
    """A row."""

    settings: Mapping[str, str]
    """The program, and what the plan has several values for."""
    measures: Mapping[str, Spread | None]
    """None where no run has the number."""

    @property
    def program(self) -> str:
        return self.settings[PROGRAM]

    def mean(self, name: str) -> float:
        """A measure that is there."""
        found = self.measures[name]
        assert found is not None
        return found.mean

    def has(self, name: str) -> bool:
        return self.measures[name] is not None


def shown_settings(plan: Plan) -> list[str]:
    """The names of what a plan has several values for."""
    axes = [*plan.settings.items(), *plan.values.items()]
    return [PASSES if name == "interval" and plan.intervals else name for name, values in axes if len(values) > 1]


def shown_measures(plan: Plan) -> list[str]:
    """The measures of the rows of a plan."""
    has_worth = {"out", "refaults"} <= set(plan.measures)
    return [*plan.measures, COST, *([f"{WORTH}{price}" for price in PRICES] if has_worth else [])]


def found_rows(plan: Plan, settings: Sequence[str], program: Program, path: Path) -> Iterator[Found]:
    """The rows of a program, from the file of its runs. The settings are those that rows show."""
    points = Points(plan, None, 1)
    names = [PASSES if name == "interval" and plan.intervals else name for name, _ in points.axes[1:]]
    values = product(*(values for _, values in points.axes[1:]))
    header = [*plan.columns, *plan.measures]
    for chosen, runs in zip(values, rows_of_points(path, len(points.seeds)), strict=True):
        given = dict(zip(names, map(str, chosen)))
        cells = [dict(zip(header, run)) for run in runs if run[-1] == DONE]
        numbers = [per_page(one, program) for one in cells]
        yield Found({PROGRAM: program.name, **{name: given[name] for name in settings}, RUNS: str(len(cells))},
                    {name: spread_of([one[name] for one in numbers if name in one]) for name in shown_measures(plan)})


def per_page(run: Mapping[str, str], program: Program) -> dict[str, float]:
    """The measures of a run: checks for each pass, and memory as shares of the pages, what moves for each aggregation."""
    passes, aggr = program.passes(int(run["interval"])), int(run["aggr"])
    divisors = {CHECKS: passes, "out": program.pages, "tuned": 1 << PAGE_BITS,
                **dict.fromkeys(("refaults", "pageouts"), program.pages * max(1, passes // aggr))}
    found = {name: float(text) / divisors.get(name, 1) for name, text in run.items() if text and is_number(text)}
    if CHECKS in found:
        found[COST] = found[CHECKS] / program.pages
    if {"out", "refaults"} <= found.keys():
        found |= {f"{WORTH}{price}": found["out"] - price * found["refaults"] for price in PRICES}
    return found


def is_number(text: str) -> bool:
    return text.removeprefix("-").replace(".", "", 1).isdecimal()


def spread_of(numbers: Sequence[float]) -> Spread | None:
    return Spread(sum(numbers) / len(numbers), min(numbers), max(numbers)) if numbers else None


# ---- the files


def lines_of(rows: Sequence[Found]) -> Iterator[list[str]]:
    """The cells of a file of rows."""
    names = list(rows[0].measures)
    yield [*rows[0].settings, *(name + part for name in names for part in ("", LEAST, GREATEST))]
    for row in rows:
        yield [*row.settings.values(), *(cell for name in names for cell in cells_of(name, row.measures[name]))]


def cells_of(name: str, spread: Spread | None) -> list[str]:
    return ["", "", ""] if spread is None else [number_text(name, number) for number in spread]


def number_text(name: str, number: float) -> str:
    """Shares have four digits behind the point, and refaults, which are few beside all pages, six."""
    digits = 2 if name in (CHECKS, "tuned") else 6 if name in ("refaults", "pageouts") else 4
    return f"{number:.{digits}f}"


def write_cells(path: Path, rows: Iterable[Sequence[str]]) -> None:
    """Writes a file, as a whole or not at all."""
    path.parent.mkdir(parents=True, exist_ok=True)
    unready = path.with_name(f".{path.name}.{os.getpid()}")
    unready.write_text("".join(map(line_of, rows)), encoding="utf-8")
    os.replace(unready, path)


def read_rows(path: Path) -> list[Found]:
    """The rows of a file."""
    with open(path, newline="", encoding="utf-8") as stream:
        lines = csv.reader(stream)
        header = next(lines)
        measures = [name for name in header if name + LEAST in header]
        first = header.index(measures[0])
        return [found_in(header, measures, first, line) for line in lines]


def found_in(header: Sequence[str], measures: Sequence[str], first: int, line: Sequence[str]) -> Found:
    cells = dict(zip(header, line))
    spreads = {name: Spread(*(float(cells[name + part]) for part in ("", LEAST, GREATEST))) if cells[name] else None for name in measures}
    return Found(dict(zip(header[:first], line)), spreads)


def of_program(rows: Iterable[Found]) -> dict[str, list[Found]]:
    """The rows of each program."""
    found: dict[str, list[Found]] = {}
    for row in rows:
        found.setdefault(row.program, []).append(row)
    return found


def where(rows: Iterable[Found], **settings: object) -> list[Found]:
    """The rows with these settings."""
    return [row for row in rows if all(row.settings[name] == str(value) for name, value in settings.items())]
