"""The pictures of a study, each with a panel for each program."""
from __future__ import annotations

from typing import Callable, Iterable, Sequence

from drawing.multiples import Axis, Dot, Multiples, Panel, Series, multiples

from .findings import AGE, AGGR, PRICE, Results, choice_of
from .rows import COST, Found, of_program, where

SHARES = [(part / 4, f"{25 * part} %") for part in range(5)]
CHECKS = Axis("checks in each pass, as a share of all pages", 0.005, 1.0, [(0.01, "1 %"), (0.1, "10 %"), (1.0, "100 %")], True)
HOT_FOUND = Axis("share of the hot memory that is found", 0.0, 1.0, SHARES)
REFAULTS = Axis("pages that come back in an aggregation, as a share of all pages", 0.0001, 0.1,
                [(0.0001, ""), (0.001, "0.1 %"), (0.01, "1 %"), (0.1, "10 %")], True)
OUT = Axis("share of the memory that is out", 0.0, 1.0, SHARES)
EACH_PAGE = "each page checked"


def dot(row: Found, x: str, y: str, is_large: bool = False) -> Dot:
    """The mark of a row that has both measures."""
    across, upwards = row.measures[x], row.measures[y]
    assert across is not None and upwards is not None
    words = ", ".join(f"{name} {value}" for name, value in row.settings.items() if name not in ("program", "runs"))
    hover = f"{words}\n{x} {across.mean:.4g}, {y} {upwards.mean:.4g}"
    return Dot(across, upwards, hover, is_large)


def found_series(name: str, kind: int, rows: Iterable[Found], line: str = "solid") -> Series:
    """What is found for how many checks."""
    return Series(name, kind, [dot(row, COST, "hot_found") for row in rows if row.has("hot_found")], line)


def each_page(kind: int) -> Series:
    """To check each page finds all that is hot."""
    return Series(EACH_PAGE, kind, [Dot((1.0, 1.0, 1.0), (1.0, 1.0, 1.0), EACH_PAGE, True)], "")


def panel(results: Results, program: str, series: Sequence[Series]) -> Panel:
    return Panel(program, f"{results.pages[program]:,} pages", series)


def accuracy(results: Results) -> str:
    """What 10 to 1,000 regions find, for some lengths of aggregations."""
    rows, panels = of_program(results.rows("accuracy")), []
    for program, own in rows.items():
        lines = [found_series(f"aggr {aggr}", kind, where(own, aggr=aggr)) for kind, aggr in enumerate((5, 20, 40))]
        panels.append(panel(results, program, [*lines, each_page(3)]))
    return multiples(Multiples("Hot memory that is found, and what it costs: max from 10 to 1,000 along each line", CHECKS, HOT_FOUND, panels,
                               "a cross is as long as from the least to the greatest of five seeds"))


def adapting(results: Results) -> str:
    """Regions that adapt beside regions that stay."""
    accurate, least, fixed = (of_program(where(results.rows(name), aggr=AGGR) if name != "fixed" else results.rows(name))
                              for name in ("accuracy", "least", "fixed"))
    panels = []
    for program, own in accurate.items():
        panels.append(panel(results, program, [found_series("adapting, min 10, max from 10 to 1,000", 0, own),
                                               found_series("adapting, max 1,000, min from 10 to 1,000", 1, least[program]),
                                               found_series("fixed regions, 10 to 1,000", 2, fixed[program], "dashed"), each_page(3)]))
    return multiples(Multiples("Regions that adapt, and regions that stay as they are", CHECKS, HOT_FOUND, panels,
                               f"aggr {AGGR}; a cross is as long as from the least to the greatest of five seeds"))


def moved_series(name: str, kind: int, rows: Iterable[Found], line: str, is_large: bool = False) -> Series:
    """What is out for how many refaults."""
    return Series(name, kind, [dot(row, "refaults", "out", is_large) for row in rows if row.has("out")], line)


def front(rows: Sequence[Found]) -> list[Found]:
    """The rows that no other one beats, from few refaults to many."""
    result: list[Found] = []
    for row in sorted((row for row in rows if row.has("out")), key=lambda row: (row.mean("refaults"), -row.mean("out"))):
        if not result or row.mean("out") > result[-1].mean("out"):
            result.append(row)
    return result


def reclaim(results: Results) -> str:
    """The front of each program, its best setting, and the one that is best for all programs together."""
    rows, choice, panels = results.rows("reclaim"), choice_of(results.rows("reclaim"), PRICE), []
    for program, own in of_program(rows).items():
        panels.append(panel(results, program, [
            moved_series("all settings", 3, own, ""), moved_series("front", 0, front(own), "solid"),
            moved_series("best for the program", 2, [choice.own[program]], "", True),
            moved_series("one for all", 1, [choice.rows[program]], "", True)]))
    return multiples(Multiples("Memory that is out, and pages that come back: all ages and quotas of one scheme", REFAULTS, OUT, panels,
                               f"best where a refault costs as much as a page in memory for {PRICE} aggregations"))


def goals(results: Results) -> str:
    """Quotas that follow a goal beside fixed ones."""
    fixed = of_program(where(results.rows("reclaim"), age=AGE))
    cold, marks = (of_program(results.rows(name)) for name in ("goals", "marks"))
    panels = [panel(results, program, [moved_series("fixed quotas, from 4 pages on", 2, own, "dashed"),
                                       moved_series("quota follows what is cold", 0, cold[program], "solid"),
                                       moved_series("rests while enough is out", 1, marks[program], "solid")])
              for program, own in fixed.items()]
    return multiples(Multiples(f"Fixed quotas, and schemes with a goal, for regions that were cold for {AGE} aggregations", REFAULTS, OUT, panels))


PICTURES: dict[str, Callable[[Results], str]] = {"accuracy": accuracy, "adapting": adapting, "reclaim": reclaim, "goals": goals}
"""The pictures, by the last part of their names."""
