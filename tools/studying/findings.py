"""What follows from the rows of all plans: what adapting brings, what one setting for all programs costs, and what goals bring."""
from __future__ import annotations

from bisect import bisect_left
from functools import cached_property
from pathlib import Path
from typing import Callable, Iterable, Iterator, Mapping, NamedTuple, Sequence

from common import UsageError
from units import PAGE_BITS

from .rows import GREATEST, LEAST, PRICES, PROGRAM, RUNS, WORTH, Found, Spread, number_text, of_program, read_rows, where

Cells = Iterator[list[str]]
PRICE = 10
"""The price by which the best settings are chosen."""
AGGR = 20
"""That of the plans with one."""
AGE = 4
"""The age of the schemes with goals."""
NO_QUOTA = "262144"
"""The quota in pages that no program uses up."""


class Results:
    """The files of results, each read when it is needed."""

    def __init__(self, folder: Path) -> None:
        self.folder = folder
        self.known: dict[str, list[Found]] = {}

    def rows(self, name: str) -> list[Found]:
        """The rows of a plan. Raises UsageError if they are not there."""
        if name not in self.known:
            path = self.folder / f"{name}.csv"
            if not path.exists():
                raise UsageError(f"there is no {path}: tools/study.py makes it")
            self.known[name] = read_rows(path)
        return self.known[name]

    @cached_property
    def facts(self) -> dict[str, dict[str, str]]:
        """What each program is."""
        return {cells[PROGRAM]: cells for cells in self.table("programs")}

    @cached_property
    def pages(self) -> dict[str, int]:
        """The pages of each program."""
        return {program: int(cells["pages"]) for program, cells in self.facts.items()}

    def table(self, name: str) -> list[dict[str, str]]:
        """A file whose rows are no points. Raises UsageError if it is not there."""
        path = self.folder / f"{name}.csv"
        if not path.exists():
            raise UsageError(f"there is no {path}: tools/study.py makes it")
        header, *lines = [line.split(",") for line in path.read_text(encoding="utf-8").splitlines()]
        return [dict(zip(header, line)) for line in lines]


class Curve:
    """What is gained for what is paid, between points as a straight line. Who pays more can have as much as for less."""

    def __init__(self, points: Iterable[tuple[float, float]]) -> None:
        self.paid: list[float] = []
        self.gained: list[float] = []
        for paid, gained in sorted(points):
            self.paid.append(paid)
            self.gained.append(max([gained, *self.gained[-1:]]))

    def gain(self, paid: float) -> float | None:
        """What is gained for as much; None below the least and above the greatest point."""
        return between(self.paid, self.gained, paid)

    def price(self, gained: float) -> float | None:
        """The least for which there is as much."""
        return between(self.gained, self.paid, gained)


def between(xs: Sequence[float], ys: Sequence[float], x: float) -> float | None:
    """The straight line between the neighbours of a place; both lists rise."""
    place = bisect_left(xs, x)
    if place == len(xs) or (place == 0 and xs[0] != x):
        return None
    if xs[place] == x or place == 0:
        return ys[place]
    return ys[place - 1] + (ys[place] - ys[place - 1]) * (x - xs[place - 1]) / (xs[place] - xs[place - 1])


# ---- does adapting pay?


def adapting_rows(results: Results) -> list[Found]:
    """The points with regions that adapt, all with `min` and `max` among their settings."""
    rows = [row._replace(settings={PROGRAM: row.program, "min": "10", **row.settings}) for row in where(results.rows("accuracy"), aggr=AGGR)]
    return rows + [row._replace(settings={PROGRAM: row.program, "max": "1000", **row.settings})
                   for row in where(results.rows("least"), aggr=AGGR) if row.settings["min"] != "10"]


AGAINST = ("mean", "greatest", "least")
"""What the mean, the least and the greatest of a share are compared with, so that the difference has its whole spread."""


def with_ends(name: str) -> list[str]:
    """The columns of a number with its spread over seeds."""
    return [name, name + LEAST, name + GREATEST]


def fixed_curves(results: Results, part: str) -> dict[str, Curve]:
    """For each program what fixed regions find, by the least, the mean or the greatest over seeds. To check each page finds all."""
    return {program: Curve([*((row.mean("checks"), getattr(row.measures["hot_found"], part)) for row in rows if row.has("hot_found")),
                            (float(results.pages[program]), 1.0)])
            for program, rows in of_program(results.rows("fixed")).items()}


def adapting_cells(results: Results) -> Cells:
    """Of each point with regions that adapt what fixed regions find with as many checks, and how many they need to find as much."""
    yield [PROGRAM, "min", "max", "checks", "hot_found", "fixed_found", *with_ends("gain"), "fixed_checks", *with_ends("times")]
    fixed = [fixed_curves(results, part) for part in AGAINST]
    for program, rows in of_program(adapting_rows(results)).items():
        for row in rows:
            found = row.measures["hot_found"]
            if found is None:
                continue
            checks = row.mean("checks")
            others = [curves[program].gain(checks) for curves in fixed]
            gains = [mine - its if its is not None else None for mine, its in zip(found, others)]
            needed = [curves[program].price(share) for curves, share in zip(fixed, found)]
            yield [program, row.settings["min"], row.settings["max"], f"{checks:.2f}", f"{found.mean:.4f}", text(others[0]),
                   *map(text, gains), text(needed[0], 2), *(text(one / checks if one else None, 2) for one in needed)]


WANTED = (0.5, 0.8, 0.9)
"""Shares of the hot memory that are to be found."""


def needed_cells(results: Results) -> Cells:
    """What share of the pages a pass has to check to find so much of what is hot, with the best `min` and `max`, and with fixed regions."""
    yield [PROGRAM, "wanted", *with_ends("adapting"), *with_ends("fixed")]
    fixed = [fixed_curves(results, part) for part in AGAINST]
    for program, rows in of_program(adapting_rows(results)).items():
        pages = results.pages[program]
        adapting = [Curve((row.mean("checks"), getattr(row.measures["hot_found"], part)) for row in rows if row.has("hot_found"))
                    for part in AGAINST]
        for wanted in WANTED:
            prices = (curve.price(wanted) for curve in (*adapting, *(curves[program] for curves in fixed)))
            yield [program, str(wanted), *(text(price / pages if price else None) for price in prices)]


def text(number: float | None, digits: int = 4) -> str:
    return "" if number is None else f"{number:.{digits}f}"


# ---- what one setting costs


Setting = tuple[str, ...]


class Choice(NamedTuple):
    """The best setting of each program, and the one that is best for all of them on average."""

    own: Mapping[str, Found]
    one: Setting
    rows: Mapping[str, Found]
    """Those of the one setting, by program."""


def choice_of(rows: Sequence[Found], price: int) -> Choice:
    """The settings whose worth is greatest: the memory that is out less so much for each refault."""
    names = [name for name in rows[0].settings if name not in (PROGRAM, RUNS)]
    worth = f"{WORTH}{price}"
    programs = of_program(row for row in rows if row.has(worth))
    alike: dict[Setting, dict[str, Found]] = {}
    for row in rows:
        if row.has(worth):
            alike.setdefault(tuple(row.settings[name] for name in names), {})[row.program] = row
    whole = {setting: found for setting, found in alike.items() if len(found) == len(programs)}
    one = max(whole, key=lambda setting: sum(row.mean(worth) for row in whole[setting].values()))
    return Choice({program: max(own, key=lambda row: row.mean(worth)) for program, own in programs.items()}, one, whole[one])


def regret_cells(results: Results) -> Cells:
    """For each price and program the best setting, the one for all programs, and how much less that one is worth."""
    parts = ("age", "quota", "out", "refaults", "worth")
    yield ["price", PROGRAM, *(f"own {part}" for part in parts), *(f"one {part}" for part in parts), *with_ends("regret")]
    for price in PRICES:
        choice = choice_of(results.rows("reclaim"), price)
        for program, own in choice.own.items():
            one = choice.rows[program]
            mine, other = own.measures[f"{WORTH}{price}"], one.measures[f"{WORTH}{price}"]
            assert mine and other
            cells = [cell for row in (own, one) for cell in (row.settings["age"], in_pages(row.settings["quota"]), f"{row.mean('out'):.4f}",
                                                              f"{row.mean('refaults'):.6f}", f"{row.mean(f'{WORTH}{price}'):.4f}")]
            # The same setting has the same runs; of two settings each may have its best or its worst seed.
            spread = (0.0, 0.0) if own is one else (mine.least - other.greatest, mine.greatest - other.least)
            yield [str(price), program, *cells, *map(text, (mine.mean - other.mean, *spread))]


def in_pages(quota: str) -> str:
    return str(int(quota) >> PAGE_BITS)


# ---- what goals bring


KINDS = {"quota": "reclaim", "cold": "goals", "goal": "marks"}
"""What is set, and the plan that has it: a fixed quota, a share that is to be found cold, a share that is to be out."""


def goal_rows(results: Results) -> Iterator[tuple[str, str, Found]]:
    """The points with age 4 of each kind: the kind, its value and the row."""
    for kind, plan in KINDS.items():
        for row in results.rows(plan):
            if row.settings.get("age", str(AGE)) == str(AGE):
                yield kind, in_pages(row.settings[kind]) if kind == "quota" else row.settings[kind], row


def goal_cells(results: Results) -> Cells:
    """Of each quota and goal what it puts out and what comes back; what fixed quotas put out where as much comes back; and how much
    less it is worth than the best fixed quota of the program."""
    worth = f"{WORTH}{PRICE}"
    yield ["kind", "value", PROGRAM, "out", "refaults", *with_ends("worth"), "fixed_out", *with_ends("gain"), *with_ends("regret")]
    rows = [row for row in goal_rows(results) if row[2].has(worth)]
    quotas = of_program(row for kind, _, row in rows if kind == "quota")
    best = {program: max(row.mean(worth) for row in own) for program, own in quotas.items()}
    curves = {program: Curve((row.mean("refaults"), row.mean("out")) for row in own) for program, own in quotas.items()}
    for kind, value, row in sorted(rows, key=lambda one: (list(KINDS).index(one[0]), int(one[1]), one[2].program)):
        found, out, refaults = (row.measures[name] for name in (worth, "out", "refaults"))
        assert found and out and refaults
        # Who has fewer refaults is compared with fixed quotas that put out less.
        fixed = [None if kind == "quota" else curves[row.program].gain(getattr(refaults, part)) for part in AGAINST]
        yield [kind, value, row.program, f"{out.mean:.4f}", f"{refaults.mean:.6f}", *map(text, found), text(fixed[0]),
               *(text(None if its is None else mine - its) for mine, its in zip(out, fixed)),
               *(text(best[row.program] - getattr(found, part)) for part in AGAINST)]


# ---- over all programs


PLANS = ("accuracy", "interval", "least", "fixed", "reclaim", "goals", "marks")


def summary_cells(results: Results) -> Cells:
    """Of each point of each plan the mean, the least and the greatest of each measure over the programs that have it, and the means of
    the least and of the greatest over seeds."""
    yield ["plan", "settings", "measure", "programs", "mean", "least", "greatest", "seeds least", "seeds greatest"]
    for plan in PLANS:
        alike: dict[str, list[Found]] = {}
        for row in results.rows(plan):
            alike.setdefault(settings_text(row), []).append(row)
        for settings, rows in alike.items():
            for name in rows[0].measures:
                found = [spread for row in rows if (spread := row.measures[name])]
                if found:
                    ends = (mean(spread.least for spread in found), mean(spread.greatest for spread in found))
                    numbers = (*over([spread.mean for spread in found]), *ends)
                    yield [plan, settings, name, str(len(found)), *(number_text(name, number) for number in numbers)]
    yield from gain_cells(results)


def gain_cells(results: Results) -> Cells:
    """The same of what adapting gains, of what has to be checked, of regrets, and of what goals gain."""
    for file, keys, names in (("adapting", ("min", "max"), ("gain", "times")), ("needed", ("wanted",), ("adapting", "fixed")),
                              ("regret", ("price",), ("regret",)), ("goals_regret", ("kind", "value"), ("gain", "regret"))):
        alike: dict[str, list[dict[str, str]]] = {}
        for cells in results.table(file):
            # Means that are compared are those of the same programs.
            if file != "needed" or all(cells[name] for name in names):
                alike.setdefault(" ".join(f"{key}={cells[key]}" for key in keys), []).append(cells)
        for settings, some in alike.items():
            for name in names:
                found = [[cells[column] for column in with_ends(name)] for cells in some if cells[name]]
                if found:
                    ends = (mean(map(float, end)) if all(end) else None for end in list(zip(*found))[1:])
                    yield [file, settings, name, str(len(found)), *map(text, over([float(cells[0]) for cells in found])), *map(text, ends)]


def over(numbers: Sequence[float]) -> Spread:
    return Spread(mean(numbers), min(numbers), max(numbers))


def mean(numbers: Iterable[float]) -> float:
    """The mean, as the rows have it: other sums round otherwise."""
    found = list(numbers)
    return sum(found) / len(found)


def settings_text(row: Found) -> str:
    return " ".join(f"{name}={value}" for name, value in row.settings.items() if name not in (PROGRAM, RUNS))


FINDINGS: dict[str, Callable[[Results], Cells]] = {
    "adapting": adapting_cells, "needed": needed_cells, "regret": regret_cells, "goals_regret": goal_cells, "summary": summary_cells,
}
"""The files of what follows, each with what makes its cells; the last one reads the others."""
