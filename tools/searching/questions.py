"""Questions with a condition: which points meet all conditions, and which of these are best by an aim.

A condition is `MEASURE >= NUMBER` or `MEASURE <= NUMBER`, with a unit behind the number if it is one of `UNITS`. It holds
of a point if it holds of the mean over its runs. An aim is `least NAME` or `most NAME` of a measure, a setting or a value.
"""
from __future__ import annotations

import re
from typing import NamedTuple, Sequence

from common import UsageError

AT_LEAST, AT_MOST = ">=", "<="
PERCENT, OF_PAGES, EACH = "%", "% of pages", "an aggregation"
UNITS = ("", PERCENT, OF_PAGES, EACH)
"""A hundredth; a hundredth of all pages; the same in each aggregation."""
CONDITION = re.compile(r"(\S+) (>=|<=) ([0-9]+(?:\.[0-9]+)?) ?(%|% of pages|an aggregation)?")
AIM = re.compile(r"(least|most) (\S+)")


class Condition(NamedTuple):
    """A bound of a measure."""

    text: str
    measure: str
    bound: float
    is_least: bool
    """Whether the measure must be at least the bound, and not at most."""
    unit: str

    def one(self, pages: int, aggregations: int) -> float:
        """One of the unit of the bound, for a workload with these pages and a run with these aggregations."""
        return {"": 1.0, PERCENT: 0.01, OF_PAGES: pages / 100, EACH: float(max(1, aggregations))}[self.unit]

    def holds(self, value: float) -> bool:
        return value >= self.bound if self.is_least else value <= self.bound


class Aim(NamedTuple):
    """What shall be least or most."""

    text: str
    name: str
    is_least: bool
    is_measure: bool
    """Or else it is a setting, or the value of a placeholder."""


class Question(NamedTuple):
    """What is asked of the points of a plan; there may be no condition and no aim."""

    conditions: tuple[Condition, ...]
    aims: tuple[Aim, ...]

    @property
    def is_asked(self) -> bool:
        return bool(self.conditions or self.aims)

    @property
    def axis(self) -> str | None:
        """The setting that is looked for, if there is one: its least or its greatest value with which all conditions hold."""
        alone = self.aims[0] if len(self.aims) == 1 and self.conditions else None
        return alone.name if alone and not alone.is_measure else None


def condition_of(text: str, measures: Sequence[str]) -> Condition:
    """Raises UsageError."""
    match = CONDITION.fullmatch(text)
    if not match:
        raise UsageError(f"a condition needs MEASURE >= NUMBER or MEASURE <= NUMBER, with nothing or one of {', '.join(UNITS[1:])} "
                         f"behind it, and not {text!r}")
    check_measure(text, match[1], measures)
    return Condition(text, match[1], float(match[3]), match[2] == AT_LEAST, match[4] or "")


def aim_of(text: str, axes: dict[str, list[int | str]], measures: Sequence[str]) -> Aim:
    """Raises UsageError."""
    match = AIM.fullmatch(text)
    if not match:
        raise UsageError(f"an aim needs `least NAME` or `most NAME`, and not {text!r}")
    name = match[2]
    if name not in axes:
        check_measure(text, name, measures, " or a setting or value with a list of numbers")
    elif not all(isinstance(value, int) for value in axes[name]):
        raise UsageError(f"{text!r} needs numbers, and {name} has texts")
    return Aim(text, name, match[1] == "least", name not in axes)


def check_measure(text: str, name: str, measures: Sequence[str], more: str = "") -> None:
    if name not in measures:
        raise UsageError(f"{text!r} needs one of the measures of the plan{more}, and {name} is none: {', '.join(measures)}")
