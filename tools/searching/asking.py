"""The points of a plan that were run for its question, with their measures."""
from __future__ import annotations

from itertools import islice
from statistics import mean, stdev
from typing import Callable, Iterable, Iterator, Mapping, NamedTuple, Sequence

from .plan import Plan
from .points import Points
from .questions import Aim, Condition
from .table import DONE, Row
from .workloads import Key, Workload


class Measured(NamedTuple):
    """A measure over the runs of a point."""

    mean: float
    spread: float


class Asked:
    """Points by their numbers. Each is run once."""

    def __init__(self, plan: Plan, points: Points, workloads: Mapping[Key, Workload],
                 make: Callable[[Sequence[int]], Iterator[Row]]) -> None:
        """`make` gives the rows of runs, by the numbers of these."""
        self.plan = plan
        self.points = points
        self.workloads = workloads
        self.make = make
        self.known: dict[int, dict[str, Measured | None]] = {}

    def ask(self, numbers: Iterable[int]) -> None:
        """Runs those of these points that were not run."""
        new = sorted({*numbers} - self.known.keys())
        seeds = len(self.points.seeds)
        rows = self.make([number * seeds + seed for number in new for seed in range(seeds)])
        for number in new:
            self.known[number] = self.means(list(islice(rows, seeds)))

    def means(self, rows: list[Row]) -> dict[str, Measured | None]:
        """The measures of a point; None where a run has no such number."""
        result: dict[str, Measured | None] = {}
        for column, name in enumerate(self.plan.measures, len(self.plan.columns)):
            numbers = [float(row[column]) for row in rows if row[-1] == DONE and row[column]]
            spread = stdev(numbers) if len(numbers) > 1 else 0.0
            result[name] = Measured(mean(numbers), spread) if len(numbers) == len(rows) else None
        return result

    def value(self, condition: Condition, number: int) -> Measured | None:
        """What the condition bounds, of a point that was run, in the unit of the bound."""
        found = self.known[number][condition.measure]
        if found is None:
            return None
        point = self.points.point(number)
        workload = self.workloads[point.key(self.plan.are_traces)]
        one = condition.one(workload.pages, len(workload.passes) // int(point.settings(workload)["aggr"]))
        return Measured(found.mean / one, found.spread / one)

    def holds(self, condition: Condition, number: int) -> bool:
        found = self.value(condition, number)
        return found is not None and condition.holds(found.mean)

    def meets(self, number: int) -> bool:
        """Whether a point that was run meets all conditions."""
        return all(self.holds(condition, number) for condition in self.plan.question.conditions)

    def follow(self, numbers: Sequence[int]) -> bool:
        """Whether each measure of a condition rises or falls along these points, but for what the spreads may explain."""
        for condition in self.plan.question.conditions:
            values = [self.value(condition, number) for number in numbers]
            there = [value for value in values if value is not None]
            if len(there) < len(values):
                return False
            sign = 1 if there[-1].mean >= there[0].mean else -1
            if any(sign * (after.mean - before.mean) < -(before.spread + after.spread) for before, after in zip(there, there[1:])):
                return False
        return True

    def cost(self, aim: Aim, number: int) -> float:
        """How far a point is from an aim; less is better."""
        if aim.is_measure:
            found = self.known[number][aim.name]
            value = found.mean if found else float("inf") * (1 if aim.is_least else -1)
        else:
            value = float(self.points.point(number).chosen[aim.name] or 0)
        return value if aim.is_least else -value
