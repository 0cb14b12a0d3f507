"""Refuses a plan with points that cannot be written as scripts, before its first run."""
from __future__ import annotations

from itertools import product
from typing import Iterator, Mapping, Sequence

from common import UsageError
from scripts.grammar import LEAST_REGIONS, MOST_BYTES, MOST_CAP, MOST_WORK, pass_work

from .plan import Plan, Value
from .points import Point, Points
from .workloads import Key, Workload


def check_limits(plan: Plan, points: Points, workloads: Mapping[Key, Workload]) -> None:
    """Raises UsageError that names the setting that is too much."""
    for point in largest(points):
        workload = workloads[point.key(plan.are_traces)]
        settings = point.settings(workload)
        cap, passes = int(settings["cap"] or 0), len(workload.passes)
        longer = ", or a longer interval" if plan.are_traces else ""
        if len(workload.whole) > MOST_BYTES:
            raise UsageError(f"{workload.name} has {passes} passes in {len(workload.whole)} bytes, and a script has at most "
                             f"{MOST_BYTES}: the plan needs a longer interval")
        work = 2 * passes * pass_work(cap) + workload.work
        if work > MOST_WORK and cap <= MOST_CAP:
            name = "max" if point.chosen["cap"] is None else "cap"
            most = ((MOST_WORK - workload.work) // (2 * passes) - pass_work(0)) // 2
            smaller = f"a {name} of at most {most}{longer}" if most >= LEAST_REGIONS else "fewer passes or touches"
            raise UsageError(f"{name} {settings[name]} is too much for {workload.name} with its {passes} passes: the scripts would have "
                             f"a work of {work}, and at most {MOST_WORK} is allowed; the plan needs {smaller}")


def largest(points: Points) -> Iterator[Point]:
    """For each workload a point with the most work, and maybe others."""
    if points.drawn is not None:
        yield from (points.point(number) for number in range(len(points)))
        return
    axes, one = dict(points.axes), points.point(0)
    most = {name: greatest(axes[name]) for name in ("cap", "max")}
    for workload, interval, unit in product(points.axes[0][1], axes["interval"], axes["unit"]):
        yield points.made(str(workload), {**one.chosen, **most, "interval": interval, "unit": unit})


def greatest(values: Sequence[Value | None]) -> Value | None:
    """The greatest of some numbers, but for those that damon takes in no script; None for what a workload has."""
    numbers = [value for value in values if isinstance(value, int)]
    return max([value for value in numbers if value <= MOST_CAP] or numbers, default=None)
