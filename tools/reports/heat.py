"""Reads the tables that `damon heat` writes; `docs/FORMATS.md` has their lines."""
from __future__ import annotations

import re
from dataclasses import dataclass
from typing import Iterable

from wording import listed

COLUMNS = (8, 16, 64)
"""The numbers of columns that a target may have."""
TENTHS = 11
"""How many numbers a line `freq` has."""

HEAT = re.compile(r"heat (\d+) (\d+)((?: \d+)+)")
FREQ = re.compile(rf"freq (\d+)((?: \d+){{{TENTHS}}})")
WORKING_SET = re.compile(r"wss (\d+) (\d+)")
LAST = re.compile(r"all reports=(?:0|([1-9]\d*) least=\d+ median=\d+ greatest=\d+)")


class HeatError(Exception):
    """A line that is not of the tables, or tables that are cut."""


@dataclass(frozen=True)
class Heat:
    """The tables of one aggregation."""

    tick: int
    passes: int
    """The ticks since the aggregation before, at least 1."""
    heat: list[list[int]]
    """For each target, the heat of its columns: the sum of the counts of their pages."""
    freq: list[int]
    """How many pages had their count in each tenth of the passes of an aggregation."""
    working_set: int
    """The pages in regions that were found accessed."""


class Lines:
    """The lines of a text, with the text and the number of the one that was read last."""

    def __init__(self, lines: Iterable[str]) -> None:
        self.rest = iter(lines)
        self.number = 0
        self.text = ""

    def read(self) -> None:
        """Reads a line. Raises HeatError where none is left."""
        line = next(self.rest, None)
        self.number += 1
        if line is None:
            raise HeatError(f"line {self.number}: the tables end early: their last line begins with `all`")
        self.text = line.rstrip("\n")

    def fault(self, what: str) -> HeatError:
        return HeatError(f"line {self.number}: {what}: {ascii(self.text[:60])}")

    def lacking(self, what: str) -> HeatError:
        """The fault of a line in whose place another one has to stand."""
        known = any(form.fullmatch(self.text) for form in (HEAT, FREQ, WORKING_SET, LAST))
        return self.fault(f"{what} is wanted" if known else "not a line of a heat table")


def heats_of(lines: Iterable[str]) -> list[Heat]:
    """The tables of all aggregations. Raises HeatError with the number of the first faulty line."""
    source = Lines(lines)
    found: list[Heat] = []
    source.read()
    while not (last := LAST.fullmatch(source.text)):
        found.append(heat_of(source, found[-1] if found else None))
        source.read()
    if int(last[1] or 0) != len(found):
        raise source.fault(f"there are {len(found)} aggregations before it")
    if next(source.rest, None) is not None:
        raise HeatError(f"line {source.number + 1}: text after the last line")
    return found


def heat_of(source: Lines, before: Heat | None) -> Heat:
    """The tables of an aggregation whose first line is read, up to and with its last line."""
    since = before.tick if before else 0
    match = HEAT.fullmatch(source.text)
    if not match:
        raise source.lacking("a line `heat`")
    tick = int(match[1])
    if tick <= since:
        raise source.fault(f"the tick is not above {since}")
    heat = heat_lines(source, tick, before)
    freq = numbers_of(source, FREQ, tick, "the line `freq`")
    source.read()
    working_set = numbers_of(source, WORKING_SET, tick, "the line `wss`")
    return Heat(tick, tick - since, heat, freq, working_set[0])


def heat_lines(source: Lines, tick: int, before: Heat | None) -> list[list[int]]:
    """The numbers of the lines `heat`, of which the first one is read; then the line after them is read."""
    heat: list[list[int]] = []
    while match := HEAT.fullmatch(source.text):
        if before and len(heat) == len(before.heat):
            raise source.lacking(f"the line `freq` of tick {tick}")
        if int(match[1]) != tick or int(match[2]) != len(heat):
            raise source.lacking(f"`heat {tick} {len(heat)}`")
        heat.append([int(word) for word in match[3].split()])
        columns = len((before.heat if before else heat)[0])
        if len(heat[-1]) != columns or columns not in COLUMNS:
            raise source.fault(f"{len(heat[-1])} columns, and not {columns if columns in COLUMNS else listed(tuple(map(str, COLUMNS)))}")
        source.read()
    if before and len(heat) < len(before.heat):
        raise source.lacking(f"`heat {tick} {len(heat)}`")
    return heat


def numbers_of(source: Lines, form: re.Pattern[str], tick: int, what: str) -> list[int]:
    """The numbers after the tick of a line of this form."""
    match = form.fullmatch(source.text)
    if not match or int(match[1]) != tick:
        raise source.lacking(f"{what} of tick {tick}")
    return [int(word) for word in match[2].split()]
