"""The settings that are in force at an aggregation: those of the script, as the accepted commits of the report changed them.

The rules are those of `docs/MONITOR.md`. Whether a commit is accepted, and whether a slot is active, is said by the report.
"""
from __future__ import annotations

from dataclasses import dataclass, field
from typing import Iterable, Iterator, NamedTuple

from reports.events import Aggregation, Commit, Event, Region, Tuned
from reports.memory import Memory
from scripts import reading
from scripts.grammar import words_of
from scripts.reading import Watched
from scripts.schemes import Key, keys_of
from scripts.setup import Script

MOST_PART = 99
"""The most that a part of a score is, and a score."""


class PolicyError(Exception):
    """A report and a script that do not belong together."""


class Ages(NamedTuple):
    """The ages that a row may have had: from the one to the other."""

    least: int
    most: int


@dataclass(frozen=True)
class Filter:
    """A filter of a scheme."""

    text: str
    """As it stands in the script."""
    allows: bool
    is_not: bool
    kind: str
    values: tuple[int, ...]

    def applies(self, target: int, address: int, label: int) -> bool:
        """Whether it applies to a page, by the class of its range."""
        if self.kind == "addr":
            of_kind = self.values[0] <= address < self.values[1]
        else:
            of_kind = self.values[0] == (target if self.kind == "target" else label)
        return of_kind != self.is_not


@dataclass(frozen=True)
class Scheme:
    """A line `scheme`, with the defaults of what it does not say."""

    line: str
    spans: dict[str, tuple[int, int]]
    """Those of size, count and age that it has."""
    weights: tuple[int, ...]
    is_cold: bool
    filters: tuple[Filter, ...]

    @staticmethod
    def of(line: str) -> Scheme:
        keys = list(keys_of(line))
        by_name = {key.name.text: key for key in keys}
        spans = {name: (key.values()[0], key.values()[1]) for name, key in by_name.items() if name in ("size", "count", "age")}
        weights = tuple(by_name["weights"].values()) if "weights" in by_name else (1, 1, 1)
        is_cold = "prefer" in by_name and by_name["prefer"].value.text == "cold"
        return Scheme(line, spans, weights, is_cold, tuple(filter_of(key) for key in keys if key.name.text == "filter"))

    def decides(self, target: int, address: int, label: int) -> tuple[bool, Filter | None]:
        """Whether a page passes, and the filter that decides; None if none applies."""
        for one in self.filters:
            if one.applies(target, address, label):
                return one.allows, one
        return not self.filters or not self.filters[-1].allows, None

    def score(self, pages: int, count: int, age: int, total: int, aggr: int) -> int:
        size, heat = min(MOST_PART, MOST_PART * pages // total), min(MOST_PART, MOST_PART * count // aggr)
        parts = (size, MOST_PART - heat if self.is_cold else heat, min(MOST_PART, age))
        whole = sum(self.weights)
        return sum(weight * part for weight, part in zip(self.weights, parts)) // whole if whole else 0


def filter_of(key: Key) -> Filter:
    answer, kind, _ = (piece.text for piece in key.value.parts(":"))
    return Filter(key.value.text, answer == "allow", kind.startswith("not-"), key.filter_kind(), tuple(key.values()))


@dataclass
class Policy:
    """What holds at a moment."""

    aggr: int
    ranges: list[Watched]
    schemes: dict[int, Scheme] = field(default_factory=dict)
    number: int = 0
    """The aggregations before this moment."""
    before: list[Region] = field(default_factory=list)
    """The regions of the last one."""
    was_moved: bool = False
    """Whether a commit since then may have joined rows or moved their borders."""

    def most_age(self, target: int, start: int, end: int) -> int:
        """The most that the age of a row can be when schemes see it: it grows by 1 in an aggregation, and joined rows have averages."""
        if self.was_moved:
            return self.number + 1
        return 1 + max((one.age for one in self.before if one.target == target and one.start < end and start < one.end), default=0)

    @property
    def total(self) -> int:
        """The pages of all ranges."""
        return sum(one.pages for one in self.ranges)

    def score(self, scheme: Scheme, pages: int, count: int, age: int) -> int:
        return scheme.score(pages, count, age, self.total, self.aggr)

    def range_of(self, region: Region) -> Watched | None:
        """The range that holds a region."""
        return next((one for one in self.ranges if one.target == region.target and one.start <= region.start < one.end), None)

    def change(self, commit: reading.Commit) -> None:
        """Carries out a commit that was accepted."""
        for line in commit.with_word("attrs"):
            self.aggr = words_of(line)[3].number()
        self.ranges = commit.ranges or self.ranges
        self.was_moved = self.was_moved or bool(commit.with_word("attrs") or commit.ranges)
        for line in commit.with_word("scheme"):
            self.schemes[words_of(line)[1].number()] = Scheme.of(line)
        for line in commit.with_word("drop"):
            self.schemes.pop(words_of(line)[1].number(), None)


def policy_of(script: Script) -> Policy:
    """What holds at the start."""
    schemes = {words_of(line)[1].number(): Scheme.of(line) for line in script.schemes()}
    return Policy(script.setup.numbers("attrs")[0][2], script.setup.ranges, schemes)


def followed(events: Iterable[Event], script: Script) -> Iterator[tuple[Aggregation, Policy]]:
    """The aggregations of a report, each with what holds at it: an object that changes. Raises PolicyError."""
    commits = iter([part for part in script.parts() if isinstance(part, reading.Commit)])
    policy = policy_of(script)
    before: Event | None = None
    for event in events:
        if isinstance(event, Tuned):
            raise PolicyError("a report of `damon tune` does not say which commits the tuner put in")
        # Directly after what `reclaim` says of the memory stands the commit of its metric, which it puts in.
        if isinstance(event, Commit) and not isinstance(before, Memory):
            commit = next(commits, None)
            if commit is None:
                raise PolicyError(f"the report has a commit at tick {event.tick} that the script does not have")
            if event.accepted:
                policy.change(commit)
        elif isinstance(event, Aggregation):
            if set(event.active) != set(policy.schemes):
                raise PolicyError(f"at tick {event.tick} other slots are set in the report than in the script")
            yield event, policy
            policy.number, policy.before, policy.was_moved = policy.number + 1, event.regions, False
        before = event
