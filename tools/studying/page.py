"""The tables of the page, from the results. A cell has a mean, and in brackets the least and the greatest over seeds."""
from __future__ import annotations

from typing import Iterable, Mapping, Sequence

from units import PAGE_BITS

from .findings import AGGR, NO_QUOTA, PRICE, Results, with_ends
from .rows import Found, Spread, where

START_MAX, LARGE_MAX, LARGE_MIN = 200, 1000, 100
"""Of the settings whose tables the page has: a budget to begin with, the greatest one, and a `min` for small regions."""
SHOWN = {"quota": ("64", "256", NO_QUOTA), "cold": ("700", "800", "900"), "goal": ("300", "500", "700")}
"""The quotas and goals whose rows the page has."""


def tables_of(results: Results) -> dict[str, list[str]]:
    """The lines of each table, by its name."""
    return {"programs": programs(results), "accuracy": accuracy(results), "adapting": adapting(results),
            "reclaim": reclaim(results), "goals": goals(results)}


def table(head: Sequence[str], rows: Iterable[Sequence[str]]) -> list[str]:
    return [f"| {' | '.join(cells)} |" for cells in (head, ["---"] * len(head), *rows)]


def share(number: float, digits: int = 0) -> str:
    return f"{100 * number:.{digits}f} %"


def spread(found: Spread | None, digits: int = 0) -> str:
    """A share with its spread."""
    if found is None:
        return "-"
    return f"{share(found.mean, digits)} ({100 * found.least:.{digits}f}–{100 * found.greatest:.{digits}f})"


def programs(results: Results) -> list[str]:
    rows = [[name, cells["targets"], f"{int(cells['pages']):,}", share(float(cells["accessed"]), 1), share(float(cells["hot"]), 1),
             cells["hot_run"]] for name, cells in results.facts.items()]
    return table(["program", "targets", "pages", "accessed", "hot", "hot pages in a run"], rows)


def one(rows: Sequence[Found], **settings: object) -> Found:
    """The only row with these settings."""
    (found,) = where(rows, **settings)
    return found


def accuracy(results: Results) -> list[str]:
    """What some budgets find of each program."""
    rows = []
    for name in results.facts:
        accurate, least = (where(results.rows(plan), program=name, aggr=AGGR) for plan in ("accuracy", "least"))
        few, start = one(accurate, max=50), one(accurate, max=START_MAX)
        small = one(least, min=LARGE_MIN)
        rows.append([name, spread(few.measures["hot_found"]), *cost_and(start), spread(start.measures["working_set_error"]), *cost_and(small)])
    return table(["program", "found, `max` 50", f"checked, `max` {START_MAX}", "found", "working set",
                  f"checked, `min` {LARGE_MIN}, `max` {LARGE_MAX:,}", "found"], rows)


def cost_and(row: Found) -> list[str]:
    """Which share of the pages is checked in a pass, and which share of what is hot is found."""
    return [share(row.mean("cost")) if row.has("cost") else "-", spread(row.measures["hot_found"])]


def adapting(results: Results) -> list[str]:
    """What regions that stay find with as many checks."""
    rows = [[cells["program"], f"{float(cells['checks']):.0f}", shown(cells["fixed_found"]),
             with_spread(cells, with_ends("gain"), 100, "+.0"), with_spread(cells, with_ends("times"), 1, ".1")]
            for cells in results.table("adapting") if (cells["min"], cells["max"]) == ("10", str(START_MAX))]
    return table(["program", "checks a pass", "fixed regions find", "gain, in points", "fixed regions need, in times"], rows)


def shown(text: str) -> str:
    return share(float(text)) if text else "-"


def with_spread(cells: Mapping[str, str], columns: Sequence[str], unit: float, digits: str) -> str:
    """A number, its least and its greatest, each some times a unit and with so many digits; nothing where one is not there."""
    if not all(cells.get(name) for name in columns):
        return "-"
    mean, least, greatest = (f"{unit * float(cells[name]):{digits}f}" for name in columns)
    return f"{mean} ({least} … {greatest})"


def reclaim(results: Results) -> list[str]:
    """The best setting of each program, and the one for all of them."""
    rows = []
    for cells in results.table("regret"):
        if cells["price"] == str(PRICE):
            rows.append([cells["program"], setting(cells, "own"), *moved(results, cells, "own"), *moved(results, cells, "one"),
                         with_spread(cells, with_ends("regret"), 100, ".1")])
            all_alike = setting(cells, "one")
    return table(["program", "its best: age, quota", "out", "back", f"one for all ({all_alike}): out", "back", "regret, in points"], rows)


def setting(cells: dict[str, str], whose: str) -> str:
    return f"{cells[f'{whose} age']}, {quota(cells[f'{whose} quota'])}"


def quota(text: str) -> str:
    return "none" if text == NO_QUOTA else f"{text} pages"


def moved(results: Results, cells: Mapping[str, str], whose: str) -> list[str]:
    """What a setting puts out of a program, and what comes back."""
    size = int(cells[f"{whose} quota"]) << PAGE_BITS
    row = one(results.rows("reclaim"), program=cells["program"], age=cells[f"{whose} age"], quota=size)
    return [spread(row.measures["out"]), spread(row.measures["refaults"], 2)]


def goals(results: Results) -> list[str]:
    """What each quota and each goal is worth over all programs."""
    words = {"quota": "quota: {}", "cold": "goal: {} thousandths cold", "goal": "rests at {} thousandths out"}
    sums = {(cells["settings"], cells["measure"]): cells for cells in results.table("summary") if cells["plan"] == "goals_regret"}
    found: dict[tuple[str, str], list[dict[str, str]]] = {}
    for cells in results.table("goals_regret"):
        found.setdefault((cells["kind"], cells["value"]), []).append(cells)
    rows = []
    for (kind, value), some in found.items():
        if value not in SHOWN[kind]:
            continue
        sum_rows = [sums.get((f"kind={kind} value={value}", name), {}) for name in ("regret", "gain")]
        out, back = (sum(float(cells[name]) for cells in some) / len(some) for name in ("out", "refaults"))
        rows.append([words[kind].format(quota(value) if kind == "quota" else value), share(out), share(back, 2),
                     *(with_spread(cells, ("mean", "least", "greatest"), 100, ".1") for cells in sum_rows)])
    return table(["setting", "out", "back", "regret, in points", "gain, in points"], rows)
