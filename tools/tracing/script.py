"""Writes a recording as a script of damon, and checks the limits of scripts.

`docs/FORMATS.md` has the format and its limits. Whether a text is a script is decided by the program
alone; the checks here are for messages that say which option helps.
"""
from __future__ import annotations

from dataclasses import dataclass, field
from typing import Iterator

from scripts.grammar import HEADERS, LEAST_REGIONS, MOST_AGGR, MOST_BYTES, MOST_CAP, MOST_UNIT, MOST_WORK
from scripts.grammar import pass_work as work_of_call
from units import PAGE_BITS

from .areas import Area, Lookup
from .commits import Commits, commit_lines
from .intervals import Runs, pairs


class LimitError(Exception):
    """A limit of scripts would be broken. The text names it and the option that helps."""


@dataclass(frozen=True)
class Settings:
    """The setup of a script but for its targets."""

    seed: int
    unit: int
    """The minimum size of a region, in pages."""
    cap: int
    least: int
    """`min` of `attrs`: the regions that the first division aims at."""
    most: int
    """`max` of `attrs`: the most regions."""
    aggr: int
    """The sampling intervals of an aggregation."""
    schemes: tuple[str, ...] = ()
    """Lines as they stand in a script."""
    commits: Commits = field(default_factory=dict)
    version: int = 1
    """That of the rules."""


def check_settings(settings: Settings) -> None:
    """Raises LimitError for the first setting that is outside its limits."""
    for name, value, low, high in (
        ("seed", settings.seed, 0, 2**64 - 1),
        ("unit", settings.unit, 1, MOST_UNIT),
        ("cap", settings.cap, LEAST_REGIONS, MOST_CAP),
        ("min", settings.least, LEAST_REGIONS, settings.most),
        ("max", settings.most, settings.least, settings.cap),
        ("aggr", settings.aggr, 1, MOST_AGGR),
    ):
        if not low <= value <= high:
            raise LimitError(f"{name} is {value} and must be from {low} to {high}: change --{name}{hint(name)}")


def hint(name: str) -> str:
    return {"cap": " or --max", "min": " or --max", "max": ", --min or --cap"}.get(name, "")


def check_ranges(areas: list[Area], settings: Settings) -> None:
    """Raises LimitError if there are more targets, each with one range, than regions."""
    if len(areas) > settings.most:
        raise LimitError(
            f"max is {settings.most}, and there are {len(areas)} ranges, one for each target: "
            f"use a larger --max (with --cap), or a larger --gap for fewer targets"
        )


def pass_work(cap: int) -> int:
    """The work of `arm` and `finish` together."""
    return 2 * work_of_call(cap)


def address(page: int) -> str:
    return hex(page << PAGE_BITS)


def opening(settings: Settings) -> list[str]:
    """The lines before the targets."""
    return [
        HEADERS[settings.version],
        f"seed {settings.seed}",
        f"unit {settings.unit}",
        f"cap {settings.cap}",
        f"attrs {settings.least} {settings.most} {settings.aggr}",
    ]


def setup(areas: list[Area], settings: Settings) -> list[str]:
    """The lines up to `begin`."""
    return [*opening(settings), *places(areas), *settings.schemes, "begin"]


def places(areas: list[Area]) -> list[str]:
    """The targets, each with one range."""
    lines = [f"target {address(area.first)} {area.pages}" for area in areas]
    return lines + [f"range {target} {address(area.first)} {address(area.after)} 0" for target, area in enumerate(areas)]


def touches(runs: Runs, lookup: Lookup) -> Iterator[str]:
    """One line for each run of touched pages that lies in a target."""
    for first, after in pairs(runs):
        target = lookup.target_of(first)
        if target is None:
            continue
        if after - first == 1:
            yield f"touch {target} {address(first)}"
        else:
            yield f"sweep {target} {address(first)} {address(after)}"


class Writer:
    """Collects the lines of a script, and counts its bytes and its work."""

    def __init__(self, areas: list[Area], settings: Settings) -> None:
        self.settings = settings
        self.lookup = Lookup(areas)
        self.pieces: list[str] = []
        self.bytes = 0
        self.work = 0

    def put(self, lines: list[str]) -> None:
        piece = "\n".join(lines) + "\n"
        self.pieces.append(piece)
        self.bytes += len(piece)
        if self.bytes > MOST_BYTES:
            raise LimitError(f"a script has at most {MOST_BYTES} bytes: use --fit or a larger --interval")

    def charge(self, work: int) -> None:
        self.work += work
        if self.work > MOST_WORK:
            raise LimitError(
                f"the work of a script is at most {MOST_WORK}: use --fit, a larger --interval or a smaller --cap"
            )

    def interval(self, number: int, runs: Runs) -> None:
        """Writes one sampling interval: the commits before it, `arm`, its pages, `finish`."""
        lines: list[str] = []
        for commit in self.settings.commits.get(number, []):
            lines += commit_lines(commit)
            self.charge(1)
        lines += ["arm", *touches(runs, self.lookup), "finish"]
        self.charge(pass_work(self.settings.cap) + self.pages_of(runs))
        self.put(lines)

    def pages_of(self, runs: Runs) -> int:
        """The touched pages that lie in targets; a run lies in one target or in none."""
        return sum(after - first for first, after in pairs(runs) if self.lookup.target_of(first) is not None)


def write_script(areas: list[Area], intervals: Iterator[Runs], settings: Settings) -> Writer:
    """The whole script. Raises LimitError as soon as a limit is broken."""
    writer = Writer(areas, settings)
    writer.put(setup(areas, settings))
    for number, runs in enumerate(intervals):
        writer.interval(number, runs)
    writer.charge(1)
    writer.put(["show", "end"])
    return writer
