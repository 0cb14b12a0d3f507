"""What a picture shows of a report: the columns of time, the commits, and when slots were active."""
from __future__ import annotations

from dataclasses import dataclass, replace
from typing import Iterable, Sequence

from comparing.counts import accessed_in, applied_of, regions_of
from comparing.paging import PAGEOUT, Moment, Paging
from reports.events import Aggregation, Applied, Commit, Event, Show, Snapshot, Tuned
from reports.memory import Memory
from reports.pages import PageRuns, common, key, place, size, union, without
from scripts.reading import commits_in
from units import PAGE

from .grid import AGAIN


@dataclass(frozen=True)
class Change:
    """A commit, with its lines where the script is known."""

    tick: int
    answer: str
    accepted: bool
    parts: tuple[str, ...]
    is_of_script: bool
    """Whether it is known that no command put it in."""

    @property
    def has_metric(self) -> bool:
        return any(part.startswith("metric ") for part in self.parts)

    @property
    def has_more(self) -> bool:
        """Whether it was accepted and is more than a metric, as far as its lines are known."""
        return self.accepted and not (len(self.parts) == 1 and self.has_metric)

    @property
    def is_line(self) -> bool:
        """Whether it has a line through the picture."""
        return self.has_more and self.is_of_script


@dataclass(frozen=True)
class Span:
    """Ticks in which a slot was set, and active or not."""

    start: int
    end: int
    active: bool


@dataclass
class Slot:
    """What is known of a slot."""

    spans: list[Span]
    actions: list[str]
    """The actions with which it was applied to pages, in the order in which they came."""
    pages: PageRuns
    """The pages to which it was applied at least once."""

    @property
    def applied(self) -> int:
        return size(self.pages)

    @property
    def action(self) -> str:
        return self.actions[-1] if self.actions else ""


@dataclass(frozen=True)
class History:
    """A report as a picture needs it."""

    snapshots: list[Snapshot]
    """Aggregations, and shows that say what an accepted commit found; all shows if there is no aggregation. Ticks rise."""
    changes: list[Change]
    """The commits up to the last snapshot, but for those that `damon reclaim` puts in."""
    later: int
    """The number of commits after it."""
    slots: dict[int, Slot]
    memory: list[Memory]
    """Of a report of `damon reclaim`: what it says after each aggregation, and at the end."""
    tuned: list[Tuned]
    """Of a report of `damon tune`: what it says at the end of each slot with a goal."""
    start: int = 0
    """The tick at which the first snapshot begins."""
    has_all: bool = True
    """Whether all targets of the report are in it."""

    @property
    def ticks(self) -> list[int]:
        return [snapshot.tick for snapshot in self.snapshots]


@dataclass(frozen=True)
class Cut:
    """A part of a report."""

    since: int = 0
    until: int | None = None
    """The ticks between which it lies; None for the end."""
    targets: frozenset[int] | None = None
    """None for all."""

    def of(self, history: History) -> History:
        """This part of a history: whole snapshots, with what they have of these targets, and the commits among them."""
        starts = [0, *history.ticks[:-1]]
        kept = [(start, snapshot) for start, snapshot in zip(starts, history.snapshots)
                if snapshot.tick > self.since and (self.until is None or start < self.until)]
        start, end = (kept[0][0], kept[-1][1].tick) if kept else (0, 0)
        snapshots = [self.targets_of(snapshot) for _, snapshot in kept]
        changes = [change for change in history.changes if start <= change.tick <= end]
        later = history.later + sum(change.tick > end for change in history.changes)
        return replace(history, snapshots=snapshots, changes=changes, later=later, slots=slots_of(snapshots, start), start=start,
                       has_all=self.targets is None)

    def targets_of(self, snapshot: Snapshot) -> Snapshot:
        if self.targets is None:
            return snapshot
        return replace(snapshot, regions=[found for found in snapshot.regions if found.target in self.targets],
                       applied=[run for run in snapshot.applied if run.target in self.targets])


class ScriptError(Exception):
    """A script that is not the one of the report."""


def history_of(events: Iterable[Event], commits: Sequence[tuple[str, ...]] | None) -> History:
    """`commits` are the lines of each commit of the script, if that is known. Raises ScriptError."""
    snapshots: list[Snapshot] = []
    shows: list[Snapshot] = []
    answers: list[Commit] = []
    memory: list[Memory] = []
    tuned: list[Tuned] = []
    before: Event | None = None
    for event in events:
        if isinstance(event, Show):
            shows.append(event)
        elif isinstance(event, Aggregation):
            snapshots.append(event)
            shows = []
        elif isinstance(event, Memory):
            memory.append(event)
        elif isinstance(event, Tuned):
            tuned.append(event)
        elif not isinstance(before, Memory):
            # Directly after what `reclaim` says of the memory stands the commit of its metric, which it puts in.
            answers.append(event)
            if event.accepted:
                add_shows(snapshots, shows)
                shows = []
        before = event
    if not snapshots:
        add_shows(snapshots, shows)
    changes = changes_of(answers, commits, bool(tuned))
    drawn = [change for change in changes if snapshots and change.tick <= snapshots[-1].tick]
    return History(snapshots, drawn, len(changes) - len(drawn), slots_of(snapshots), memory, tuned)


def changes_of(answers: Sequence[Commit], commits: Sequence[tuple[str, ...]] | None, is_tuned: bool) -> list[Change]:
    """The commits, with their lines where they are known. Raises ScriptError."""
    if commits is not None and is_tuned:
        raise ScriptError("the report is one of `damon tune`, which does not say which commits are those of the script")
    if commits is not None and len(commits) != len(answers):
        raise ScriptError(f"the script has {len(commits)} commits and the report {len(answers)}: it is not of this script")
    parts = commits or [()] * len(answers)
    return [Change(answer.tick, answer.answer, answer.accepted, lines, not is_tuned) for answer, lines in zip(answers, parts)]


def again_marked(history: History, exact: Iterable[Aggregation]) -> History:
    """The same, where runs of pages to which `pageout` was applied although they were out already have the action AGAIN.

    Which pages were accessed is read from the aggregations of an exact report of the same run. Raises ScriptError.
    """
    paging, truths, snapshots = Paging(1, False), iter(exact), []
    for number, snapshot in enumerate(history.snapshots):
        if isinstance(snapshot, Aggregation):
            truth = next(truths, None)
            if truth is None or truth.tick != snapshot.tick:
                raise ScriptError(f"the exact report has no aggregation at tick {snapshot.tick}: it is not of the same run")
            paging.add(Moment(number, snapshot.tick), accessed_in(regions_of(truth, None)), applied_of(snapshot, None))
            snapshot = replace(snapshot, applied=[part for run in snapshot.applied for part in parts_of(run, paging.again.get(run.slot, []))])
        snapshots.append(snapshot)
    return replace(history, snapshots=snapshots, slots=slots_of(snapshots))


def parts_of(run: Applied, again: PageRuns) -> list[Applied]:
    """The run where none of it was out already, else its parts."""
    pages = [(key(run.target, run.start), key(run.target, run.end))]
    if run.action != PAGEOUT or not (out := common(pages, again)):
        return [run]
    parts = [(start, end, run.action) for start, end in without(pages, out)] + [(start, end, AGAIN) for start, end in out]
    return [Applied(run.slot, action, run.target, place(start)[1], place(start)[1] + (end - start) * PAGE) for start, end, action in sorted(parts)]


def add_shows(snapshots: list[Snapshot], shows: Iterable[Snapshot]) -> None:
    """Adds the shows that come later than what is there."""
    for show in shows:
        if show.tick > (snapshots[-1].tick if snapshots else 0):
            snapshots.append(show)


def slots_of(snapshots: Iterable[Snapshot], start: int = 0) -> dict[int, Slot]:
    """The slots that were set, by number. The first snapshot begins at `start`."""
    slots: dict[int, Slot] = {}
    before = start
    for found in snapshots:
        for slot, active in found.active.items():
            spans = slots.setdefault(slot, Slot([], [], [])).spans
            if spans and (spans[-1].end, spans[-1].active) == (before, active):
                spans[-1] = Span(spans[-1].start, found.tick, active)
            else:
                spans.append(Span(before, found.tick, active))
        note_applied(slots, found)
        before = found.tick
    return dict(sorted(slots.items()))


def note_applied(slots: dict[int, Slot], found: Snapshot) -> None:
    """Adds the pages that schemes were applied to."""
    runs: dict[int, PageRuns] = {}
    for run in found.applied:
        slot = slots.setdefault(run.slot, Slot([], [], []))
        if run.action not in (slot.action, AGAIN):
            slot.actions.append(run.action)
        runs.setdefault(run.slot, []).append((key(run.target, run.start), key(run.target, run.end)))
    for number, pages in runs.items():
        slots[number].pages = union(slots[number].pages, pages)


def commits_of(lines: Iterable[str]) -> list[tuple[str, ...]]:
    """The lines of each commit of a script, without `commit` and `apply`."""
    return [commit.parts for commit in commits_in(lines)]
