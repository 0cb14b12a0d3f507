"""The rows as a slot saw them, worked out backwards from those of the report, which shows them after all slots.

`docs/MONITOR.md`, "Checking a choice by hand", has the rules. A slot changes ages and cuts rows, and nothing else: the count and
the last count of a page are those of the report. Where the report does not tell an age, all that it may have been are kept.
"""
from __future__ import annotations

from dataclasses import dataclass, replace

from reports.events import Aggregation, Applied, Choice
from units import PAGE

from .policy import Ages, Policy, Scheme

STAT = "stat"
"""The action that changes no row."""


@dataclass(frozen=True)
class Row:
    """A row; addresses are in bytes."""

    target: int
    start: int
    end: int
    count: int
    last: int
    ages: Ages
    is_sure: bool = True
    """Whether its borders are known. They are not where a row looks like the back of one that was cut, and may be one of its own."""

    @property
    def pages(self) -> int:
        return (self.end - self.start) // PAGE

    def holds(self, target: int, address: int) -> bool:
        return self.target == target and self.start <= address < self.end


def rows_at_end(found: Aggregation) -> list[Row]:
    """The rows of the report."""
    return [Row(one.target, one.start, one.end, one.hits, one.last, Ages(one.age, one.age)) for one in found.regions]


def rows_seen(found: Aggregation, policy: Policy, slot: int) -> list[Row]:
    """The rows as this slot saw them: those of the report with what it and all later slots did undone."""
    rows = rows_at_end(found)
    for later in sorted((number for number in found.choices if number >= slot), reverse=True):
        runs = [run for run in found.applied if run.slot == later]
        if runs and runs[0].action != STAT:
            rows = undone(rows, runs, found.choices[later], policy, policy.schemes[later])
    return rows


def undone(rows: list[Row], runs: list[Applied], choice: Choice, policy: Policy, scheme: Scheme) -> list[Row]:
    """The rows before a slot was applied to these runs."""
    if choice.left == choice.taken:
        rows = joined_again(rows, runs[-1], policy, scheme)
    result: list[Row] = []
    for row in rows:
        taken = next((run for run in runs if run.target == row.target and run.start < row.end and row.start < run.end), None)
        result.append(before_taken(row, taken.score, policy, scheme) if taken else row)
    return result


def before_taken(row: Row, score: int, policy: Policy, scheme: Scheme) -> Row:
    """A row before pages of it were taken: it had another age if it has the age 0 now, since it was taken whole then."""
    if not row.is_sure:
        return replace(row, ages=Ages(0, policy.number + 1)) if row.ages.least == 0 else row
    ages = ages_with(row, score, policy, scheme, any_age(row, policy) if row.ages.least == 0 else row.ages)
    return replace(row, ages=ages) if ages.least <= ages.most else replace(row, ages=Ages(0, policy.number + 1), is_sure=False)


def any_age(row: Row, policy: Policy) -> Ages:
    return Ages(0, policy.most_age(row.target, row.start, row.end))


def joined_again(rows: list[Row], run: Applied, policy: Policy, scheme: Scheme) -> list[Row]:
    """The rows before the one of the last run was cut, if it was."""
    number = next((number for number, row in enumerate(rows) if row.holds(run.target, run.end - PAGE)), None)
    if number is None or number + 1 == len(rows):
        return rows
    front, back = rows[number], rows[number + 1]
    if front.end != run.end or not are_parts(front, back, policy):
        return rows
    if not front.is_sure or not back.is_sure:
        unsure = [replace(front, ages=Ages(0, policy.number + 1), is_sure=False), replace(back, is_sure=False)]
        return [*rows[:number], *unsure, *rows[number + 2 :]]
    whole = replace(back, start=front.start)
    joined, alone = ages_with(whole, run.score, policy, scheme, back.ages), ages_with(front, run.score, policy, scheme, any_age(front, policy))
    if joined.least > joined.most:
        return rows
    if alone.least > alone.most:
        return [*rows[:number], replace(whole, ages=joined), *rows[number + 2 :]]
    # The score fits both: the two parts of one row, and two rows.
    either = Ages(min(joined.least, alone.least), max(joined.most, alone.most))
    return [*rows[:number], replace(front, ages=either, is_sure=False), replace(back, is_sure=False), *rows[number + 2 :]]


def are_parts(front: Row, back: Row, policy: Policy) -> bool:
    """Whether two neighbours may be the parts of one row."""
    if (front.target, front.end, front.count, front.last) != (back.target, back.start, back.count, back.last):
        return False
    return front.ages.least == 0 and not any(one.target == back.target and one.start == back.start for one in policy.ranges)


def ages_with(row: Row, score: int, policy: Policy, scheme: Scheme, within: Ages) -> Ages:
    """The ages among these with which a row matches and has this score; an empty span if there is none. The score never falls with the age."""
    low, high = scheme.spans.get("age", within)
    low, high = max(low, within.least), min(high, within.most)
    ages = [age for age in {low, high, *range(100)} if low <= age <= high
            and policy.score(scheme, row.pages, row.count, age) == score and matches(row, scheme)]
    return Ages(min(ages, default=1), max(ages, default=0))


def matches(row: Row, scheme: Scheme) -> bool:
    """Whether its size and its count lie within the pattern."""
    return all(low <= value <= high for name, value in (("size", row.pages), ("count", row.count))
               for low, high in [scheme.spans.get(name, (value, value))])
