"""Answers the question of a plan: which of its points meet all conditions, and which of these are best.

Where the least or the greatest value of a setting is looked for, its values are bisected for each combination of the
others, since most measures rise or fall with a setting. Where a measure does not at the values that were tried, all
values of that combination are run.
"""
from __future__ import annotations

from typing import Generator, Iterable, Iterator, Sequence

from wording import counted

from .asking import Asked

Steps = Generator[list[int], None, int | None]
"""Asks for points, and ends with the one that was looked for."""
ALL = "all workloads"


def answers(asked: Asked) -> Iterator[str]:
    """The lines of the answer. It runs what it needs."""
    workloads = asked.points.axes[0][1]
    axis = asked.plan.question.axis
    lines = lines_of(asked, axis) if axis else []
    found = by_setting(asked, lines) if axis else by_measures(asked)
    for name in workloads:
        own = [[number] for number in found if asked.points.point(number).workload == name]
        yield from said(asked, str(name), own)
        if not own:
            yield from closest(asked, str(name))
    if len(workloads) > 1:
        yield from said(asked, ALL, common(asked, [*found, *at_the_worst(asked, lines, found)]))


def by_measures(asked: Asked) -> list[int]:
    """All points that meet the conditions."""
    numbers = range(len(asked.points))
    asked.ask(numbers)
    return [number for number in numbers if asked.meets(number)]


def by_setting(asked: Asked, lines: Sequence[Sequence[int]]) -> list[int]:
    """For each combination of the other settings the point with the least or the greatest value that meets the conditions."""
    steps = dict(enumerate(bisected(asked, line) for line in lines))
    found: list[int] = []
    wanted = {number: next(one) for number, one in steps.items()}
    while wanted:
        asked.ask(point for some in wanted.values() for point in some)
        for number in list(wanted):
            try:
                wanted[number] = next(steps[number])
            except StopIteration as end:
                del wanted[number]
                found += [] if end.value is None else [end.value]
    return found


def lines_of(asked: Asked, name: str) -> list[list[int]]:
    """The points that differ in this setting alone, the wanted values first."""
    axes = asked.points.axes
    place = [axis for axis, _ in axes].index(name)
    values = axes[place][1]
    stride = 1
    for _, others in axes[place + 1 :]:
        stride *= len(others)
    order = sorted(range(len(values)), key=lambda index: int(values[index] or 0), reverse=not asked.plan.question.aims[0].is_least)
    firsts = [number for number in range(asked.points.all) if number // stride % len(values) == 0]
    return [[first + index * stride for index in order] for first in firsts]


def bisected(asked: Asked, line: Sequence[int]) -> Steps:
    """Looks for the first point of a line that meets all conditions."""
    tried = {0, len(line) - 1}
    yield [line[0], line[-1]]
    low, high = 0, len(line) - 1
    # These have to come to hold; those that hold at the first point may cease to.
    needed = [condition for condition in asked.plan.question.conditions if not asked.holds(condition, line[0])]
    if not needed:
        return line[0]
    middle = high // 2
    while high - low > 1:
        middle = (low + high) // 2
        tried.add(middle)
        yield [line[middle]]
        if all(asked.holds(condition, line[middle]) for condition in needed):
            high = middle
        elif all(asked.holds(condition, line[high]) for condition in needed):
            low = middle
        else:
            break
    if not asked.follow([line[place] for place in sorted(tried)]):
        yield list(line)
        return next((number for number in line if asked.meets(number)), None)
    return line[high] if asked.meets(line[high]) else None


def at_the_worst(asked: Asked, lines: Sequence[Sequence[int]], found: Iterable[int]) -> list[int]:
    """Points that meet the conditions where what one workload needs is given to all."""
    workloads = len(asked.points.axes[0][1])
    there = {*found}
    needs: dict[int, list[int]] = {}
    for line in lines:
        needs.setdefault(asked.points.rest(line[0]), []).extend(place for place, number in enumerate(line) if number in there)
    wanted = [line[max(places)] for line in lines if len(places := needs[asked.points.rest(line[0])]) == workloads > 1]
    asked.ask(wanted)
    return [number for number in wanted if number not in there and asked.meets(number)]


def common(asked: Asked, found: Sequence[int]) -> list[list[int]]:
    """The points that meet the conditions in each workload, those with the same settings together."""
    groups: dict[int, list[int]] = {}
    for number in found:
        groups.setdefault(asked.points.rest(number), []).append(number)
    return [group for group in groups.values() if len(group) == len(asked.points.axes[0][1])]


def said(asked: Asked, name: str, found: Sequence[Sequence[int]]) -> Iterator[str]:
    """Lines about the best of these points; a group stands for the means of its points."""
    best = front(asked, found)
    if not best:
        yield f"{name}: no point meets all conditions"
    for group in best:
        yield f"{name}: {in_words(asked, group)}"
    if asked.plan.question.axis:
        # Each combination of the other settings has one.
        aim = asked.plan.question.aims[0]
        for group in sorted((group for group in found if group not in best), key=lambda group: asked.cost(aim, group[0])):
            yield f"{name}: then {in_words(asked, group)}"
    elif len(found) > len(best):
        yield f"{name}: of {counted(len(found), 'point')} that met all conditions"


def closest(asked: Asked, name: str) -> Iterator[str]:
    """For each condition the best value of it alone, of a workload of which no point meets all of them."""
    own = [number for number in sorted(asked.known) if asked.points.point(number).workload == name]
    for condition in asked.plan.question.conditions:
        values = {number: value.mean for number in own if (value := asked.value(condition, number))}
        if values:
            best = (max if condition.is_least else min)(values, key=values.__getitem__)
            yield (f"{name}: {condition.measure} alone comes to {short([values[best]])}{' ' * bool(condition.unit)}{condition.unit} "
                   f"with {', '.join(settings(asked, best)) or 'the settings of the plan'}")


def front(asked: Asked, found: Sequence[Sequence[int]]) -> list[Sequence[int]]:
    """The groups that no other one beats in all aims."""
    def costs(group: Sequence[int]) -> list[float]:
        return [sum(asked.cost(aim, number) for number in group) for aim in asked.plan.question.aims]

    def beats(one: list[float], other: list[float]) -> bool:
        return one != other and all(mine <= its for mine, its in zip(one, other))

    all_costs = [costs(group) for group in found]
    return [group for group, own in zip(found, all_costs) if not any(beats(other, own) for other in all_costs)]


def in_words(asked: Asked, group: Sequence[int]) -> str:
    return ", ".join([*settings(asked, group[0]), *measures(asked, group)])


def settings(asked: Asked, number: int) -> list[str]:
    """The settings of a point that the plan has several values for, and the one that was looked for."""
    chosen = asked.points.point(number).chosen
    aims = {aim.name for aim in asked.plan.question.aims}
    return [f"{name} {chosen[name]}" for name, values in asked.points.axes[1:] if len(values) > 1 or name in aims]


def measures(asked: Asked, group: Sequence[int]) -> list[str]:
    """The measures of conditions and aims of some points, on average."""
    lines = []
    for condition in asked.plan.question.conditions:
        values = [value.mean for number in group if (value := asked.value(condition, number))]
        lines.append(f"{condition.measure} {short(values)}{' ' * bool(condition.unit)}{condition.unit}")
    bounded = {condition.measure for condition in asked.plan.question.conditions}
    for aim in asked.plan.question.aims:
        if aim.is_measure and aim.name not in bounded:
            lines.append(f"{aim.name} {short([abs(asked.cost(aim, number)) for number in group])}")
    return lines


def short(values: Sequence[float]) -> str:
    return f"{sum(values) / len(values):.4g}"
