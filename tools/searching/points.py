"""The runs of a plan, by number: all combinations of its values, or some that are drawn at random."""
from __future__ import annotations

import random
from itertools import product
from typing import Mapping, NamedTuple, Sequence

from common import UsageError

from .plan import SETTINGS, Plan, Value
from .workloads import Key, Workload

Axes = Sequence[tuple[str, Sequence[Value | None]]]
MOST_POINTS = 1 << 60
OWN = (None,)
"""In place of the values of a setting that the plan does not name: that of the workload."""


class Point(NamedTuple):
    """The settings of some runs that differ in their seeds."""

    workload: str
    chosen: Mapping[str, Value | None]
    """None stands for what the workload has."""

    def key(self, are_traces: bool) -> Key:
        interval, unit = self.chosen["interval"], self.chosen["unit"]
        return Key(self.workload, int(interval or 0), int(unit or 0)) if are_traces else Key(self.workload, 0, 0)

    def settings(self, workload: Workload) -> dict[str, Value]:
        """All settings. `cap` follows `max` where the plan does not say it."""
        found = {name: workload.defaults.get(name, "") if value is None else value for name, value in self.chosen.items()}
        if self.chosen["cap"] is None:
            found["cap"] = max(int(found["cap"] or 0), int(found["max"]))
        return found


class Points:
    """The points of a plan, in their order, each made when it is asked for."""

    def __init__(self, plan: Plan, draws: int | None, draw: int) -> None:
        """With `draws` that number of different points is drawn, by a generator that starts with `draw`. Raises UsageError."""
        named = {**{name: plan.settings.get(name, OWN) for name in SETTINGS}, **plan.values}
        self.axes: Axes = [("", plan.workloads), *named.items()]
        self.intervals = plan.intervals
        self.seeds: Sequence[Value | None] = plan.seeds or OWN
        self.all = 1
        for _, values in self.axes:
            self.all *= len(values)
        self.drawn: list[int] | None = None
        if self.all > MOST_POINTS:
            raise UsageError(f"the plan has more than {MOST_POINTS} points")
        if plan.question.axis and draws is not None:
            raise UsageError(f"--random draws points, and the plan looks for a value of {plan.question.axis} by an aim")
        if draws is not None and draws < self.all:
            self.drawn = sorted(random.Random(draw).sample(range(self.all), draws))

    def __len__(self) -> int:
        return self.all if self.drawn is None else len(self.drawn)

    @property
    def runs(self) -> int:
        return len(self) * len(self.seeds)

    def point(self, number: int) -> Point:
        """The last axis changes from point to point."""
        place = number if self.drawn is None else self.drawn[number]
        found: list[Value | None] = []
        for _, values in reversed(self.axes):
            place, index = divmod(place, len(values))
            found.append(values[index])
        workload, *values_found = reversed(found)
        return self.made(str(workload), dict(zip((name for name, _ in self.axes[1:]), values_found)))

    def made(self, workload: str, chosen: Mapping[str, Value | None]) -> Point:
        """A point, with the interval that its trace has for a number of passes."""
        own = self.intervals.get((workload, chosen["interval"] or 0))
        return Point(workload, {**chosen, "interval": own} if own else chosen)

    def keys(self, are_traces: bool) -> dict[str, list[Key]]:
        """What workloads the points have, by name."""
        found: dict[str, dict[Key, None]] = {}
        if self.drawn is None:
            intervals, units = (dict(self.axes)[name] for name in ("interval", "unit"))
            one = self.point(0)
            points = (self.made(str(name), {**one.chosen, "interval": interval, "unit": unit})
                      for name, interval, unit in product(self.axes[0][1], intervals, units))
        else:
            points = (self.point(number) for number in range(len(self)))
        for point in points:
            found.setdefault(point.workload, {})[point.key(are_traces)] = None
        return {name: list(keys) for name, keys in found.items()}

    def run(self, number: int) -> tuple[Point, Value | None]:
        """A run, by its number: its point and its seed. Those of a point come one after another."""
        point, seed = divmod(number, len(self.seeds))
        return self.point(point), self.seeds[seed]

    def rest(self, number: int) -> int:
        """The same for all points that differ in their workloads alone."""
        place = number if self.drawn is None else self.drawn[number]
        return place % (self.all // len(self.axes[0][1]))
