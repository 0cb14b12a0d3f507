"""Reads a report, as text or as JSON lines, one event at a time; `docs/FORMATS.md` has both forms.

It also reads exact counts, which tools/exact_counts.py writes, and whose rows are runs of pages that share a count.
"""
from __future__ import annotations

import json
import re
from dataclasses import dataclass, field
from functools import cached_property
from itertools import chain
from operator import attrgetter
from typing import Any, Iterable, Iterator, NamedTuple, Union

from .forms import APPLY, COMMIT, END, EXACT_HEADER, MEMORY, ROW, SCHEME, SLOT, SNAPSHOT, TUNED, ReportError
from .memory import Memory

__all__ = ["Aggregation", "Applied", "Choice", "Commit", "Event", "Memory", "Region", "Report", "ReportError", "Show", "Snapshot", "Tuned"]

MOST_KEPT = 1 << 16
"""The most places that are kept while a text is read."""


class Region(NamedTuple):
    """A region, or a run of pages of exact counts: addresses in bytes, and the passes in which it was hit."""

    target: int
    start: int
    end: int
    hits: int
    last: int = 0
    age: int = 0
    """Exact counts have neither."""


class Applied(NamedTuple):
    """Pages to which the scheme of a slot was applied; addresses in bytes."""

    slot: int
    action: str
    target: int
    start: int
    end: int
    score: int = 0


class Choice(NamedTuple):
    """The certificate of an active slot."""

    left: int | None
    """The pages that were left of its quota; None without a quota."""
    taken: int
    lowest: int | None
    """The lowest score of a region of which a page was taken; None if no page was."""


@dataclass
class Snapshot:
    """The regions at a tick, with their counts since the aggregation before."""

    tick: int
    passes: int
    """The ticks since the aggregation before, at least 1."""
    rows: int
    """The number of regions that its first line names."""
    regions: list[Region] = field(default_factory=list)
    active: dict[int, bool] = field(default_factory=dict)
    """For each slot that is set, whether it is active."""
    applied: list[Applied] = field(default_factory=list)
    """The pages that schemes were applied to, in the order of the report; a show has none."""
    choices: dict[int, Choice] = field(default_factory=dict)
    """For each active slot what it chose; a show has none."""
    threshold: int = 0
    """The most by which counts differ that are about the same; a show has none."""

    @cached_property
    def by_target(self) -> dict[int, list[Region]]:
        """The regions of each target. To be used when all regions are read."""
        result: dict[int, list[Region]] = {}
        for found in self.regions:
            result.setdefault(found.target, []).append(found)
        return result

    @property
    def left(self) -> dict[int, int]:
        """For each active slot with a quota, the pages that were left of it before the choice."""
        return {slot: choice.left for slot, choice in self.choices.items() if choice.left is not None}

    @property
    def working_set(self) -> int:
        """The bytes of all regions that were found accessed at least once."""
        return sum(found.end - found.start for found in self.regions if found.hits > 0)


@dataclass
class Show(Snapshot):
    """What a line `show` of the script wrote."""


@dataclass
class Aggregation(Snapshot):
    """What an aggregation wrote."""


@dataclass(frozen=True)
class Commit:
    """A commit that was carried out or refused."""

    tick: int
    answer: str

    @property
    def accepted(self) -> bool:
        return self.answer.startswith("ok")


class Tuned(NamedTuple):
    """What `damon tune` says at the end of a slot that has a goal: the bytes of its quota; None if it is not tunable."""

    slot: int
    bytes: int | None


Event = Union[Show, Aggregation, Commit, Memory, Tuned]


class Report:
    """A report that is read as its events are asked for, once."""

    def __init__(self, lines: Iterable[str]) -> None:
        rest = iter(lines)
        first = next(rest, "")
        self.lines = chain([first], rest) if first else rest
        self.is_json = first.startswith("{")
        self.has_runs = first.rstrip("\n") == EXACT_HEADER
        """Whether rows are runs of pages that share a count, and not regions."""

    def events(self) -> Iterator[Event]:
        """Raises ReportError with the number of the first faulty line."""
        return json_events(self.lines) if self.is_json else text_events(self.lines)

    def aggregations(self) -> Iterator[Aggregation]:
        """Raises ReportError with the number of the first faulty line."""
        return (event for event in self.events() if isinstance(event, Aggregation))


class KeptPlaces(dict[str, tuple[int, int, int]]):
    """The targets and addresses of some rows, by their text: most places of a report come again in the next aggregation."""

    def added(self, match: re.Match[str]) -> tuple[int, int, int]:
        """The place of a row, which is kept from now on."""
        if len(self) >= MOST_KEPT:
            self.clear()
        result = self[match[1]] = (int(match[2]), int(match[3], 16), int(match[4], 16))
        return result

    def region(self, match: re.Match[str]) -> Region:
        """The region of a row."""
        place = self.get(match[1]) or self.added(match)
        return Region(*place, int(match[5]), int(match[6] or 0), int(match[7] or 0))


def text_events(lines: Iterable[str]) -> Iterator[Event]:
    """The events of a text; each snapshot is given when its last line was read."""
    current: Show | Aggregation | None = None
    kept = KeptPlaces()
    number = since = 0
    for number, line in enumerate(lines, 1):
        if match := ROW.fullmatch(line):
            if current is None:
                raise ReportError(f"line {number}: a row that belongs to no aggregation and no show")
            current.regions.append(kept.region(match))
        elif not is_part(text := line.rstrip("\n"), current):
            since = current.tick if isinstance(current, Aggregation) else since
            head = head_of(text, number, since)
            if current is not None:
                check_complete(current, number)
                yield current
            current = head if isinstance(head, (Show, Aggregation)) else None
            if head is not None and current is None:
                yield head
    if current is not None:
        check_complete(current, number + 1)
        yield current


def is_part(text: str, current: Snapshot | None) -> bool:
    """Takes a line about a slot into the snapshot that it belongs to; says whether it was one."""
    if isinstance(current, Aggregation):
        if match := APPLY.fullmatch(text):
            current.applied.append(Applied(int(match[1]), match[2], int(match[3]), int(match[4], 16), int(match[5], 16),
                                           int(match[6])))
        elif match := SLOT.fullmatch(text):
            current.active[int(match[1])] = match[5] is None
            if match[5] is None:
                current.choices[int(match[1])] = Choice(number_or_none(match[2]), int(match[3]), number_or_none(match[4]))
        return match is not None
    if current is not None and (match := SCHEME.fullmatch(text)):
        current.active[int(match[1])] = match[2] == "yes"
        return True
    return False


def number_or_none(text: str) -> int | None:
    return None if text == "none" else int(text)


def head_of(text: str, number: int, since: int) -> Event | None:
    """The event that a line begins; None for the end and for the header of exact counts. Raises ReportError."""
    if match := SNAPSHOT.fullmatch(text):
        kind: type[Show] | type[Aggregation] = Aggregation if match[1] == "aggregate" else Show
        return kind(int(match[2]), max(1, int(match[2]) - since), int(match[4]), threshold=int(match[3] or 0))
    if match := COMMIT.fullmatch(text):
        return Commit(int(match[1]), match[2])
    if match := MEMORY.fullmatch(text):
        return Memory(*map(int, match.groups()))
    if match := TUNED.fullmatch(text):
        return Tuned(int(match[1]), number_or_none(match[2]))
    if END.fullmatch(text) or number == 1 and text == EXACT_HEADER:
        return None
    raise ReportError(f"line {number}: not a line of a report: {ascii(text[:60])}")


def check_complete(found: Snapshot, number: int) -> None:
    """Raises ReportError if a snapshot has not as many rows as it says, or an aggregation a count above its passes."""
    if len(found.regions) != found.rows:
        name = "aggregation" if isinstance(found, Aggregation) else "show"
        raise ReportError(f"line {number}: the {name} before it says rows={found.rows} and has {len(found.regions)}")
    most = max(map(attrgetter("hits"), found.regions), default=0)
    if isinstance(found, Aggregation) and most > found.passes:
        raise ReportError(f"line {number}: the aggregation before it has count={most} in {found.passes} passes")


def json_events(lines: Iterable[str]) -> Iterator[Event]:
    since = 0
    for number, line in enumerate(lines, 1):
        try:
            event = json_event(json.loads(line), since)
        except (KeyError, TypeError, ValueError) as error:
            raise ReportError(f"line {number}: not a line of a report: {error}") from error
        if isinstance(event, Aggregation):
            since = event.tick
        if isinstance(event, Snapshot):
            check_complete(event, number + 1)
        if event is not None:
            yield event


def json_event(members: dict[str, Any], since: int) -> Event | None:
    """The event of one line; None for the end."""
    kind = members["kind"]
    if kind == "end":
        return None
    tick = members["tick"]
    if kind == "commit":
        return Commit(tick, members["answer"])
    if kind not in ("show", "aggregate"):
        raise ValueError(f"no such kind: {kind}")
    regions = [Region(row["target"], int(row["start"], 16), int(row["end"], 16), row["count"],
                      row["last"], row["age"]) for row in members["rows"]]
    slots = members["slots" if kind == "show" else "choices"]
    active = {slot["slot"]: slot["active"] for slot in slots}
    passes = max(1, tick - since)
    if kind == "show":
        return Show(tick, passes, len(regions), regions, active)
    applied = [Applied(run["slot"], run["action"], run["target"], int(run["start"], 16), int(run["end"], 16), run["score"])
               for run in members["applied"]]
    choices = {slot["slot"]: Choice(slot["left"], slot["taken"], slot["lowest"]) for slot in slots if slot["active"]}
    return Aggregation(tick, passes, len(regions), regions, active, applied, choices, members["threshold"])
