"""What a page has of a report: its rows and the runs of its schemes as columns, and what is small as it is."""
from __future__ import annotations

import math
from array import array
from dataclasses import asdict, dataclass
from itertools import chain
from typing import Any, Iterable, Mapping, Sequence

from drawing.charts import REFAULTS, memory_charts
from drawing.history import Change, History
from drawing.panels import spans_of
from reports.events import Aggregation, Applied, Region, Snapshot
from reports.names import NamedArea, names_by_target
from units import PAGE_BITS

from .block import Block

NAN = math.nan


@dataclass(frozen=True)
class Target:
    """A target, and the pages between which regions of it were reported, in any of the reports."""

    number: int
    name: str
    low: int
    high: int


@dataclass(frozen=True)
class Curve:
    """Values over time: a value holds since the tick before its own. What is not known is NaN."""

    name: str
    unit: str
    """`pages`, or the noun of what is counted."""
    ticks: Sequence[int]
    values: Sequence[float]


def targets_of(histories: Iterable[History], areas: Sequence[NamedArea], labels: Mapping[int, str]) -> list[Target]:
    """The targets of all reports, by number. A label comes before the name of an area."""
    spans: dict[int, tuple[int, int]] = {}
    for history in histories:
        runs = ((run.target, (run.start, run.end)) for snapshot in history.snapshots for run in snapshot.applied)
        for number, (low, high) in chain(spans_of(history).items(), runs):
            first, after = spans.get(number, (low, high))
            spans[number] = (min(first, low), max(after, high))
    names = {**names_by_target(areas, spans), **labels}
    return [Target(number, names.get(number, f"target {number}"), low >> PAGE_BITS, high >> PAGE_BITS)
            for number, (low, high) in sorted(spans.items())]


def kept_of(snapshots: Sequence[Snapshot], most: int) -> tuple[list[Snapshot], int]:
    """The last snapshot and each N-th before it, with the least N at which they have at most `most` rows; and that N."""
    rows = [len(snapshot.regions) for snapshot in snapshots]
    step = 1
    while step < len(rows) and sum(rows[::-step]) > most:
        step += 1
    return list(snapshots[::-step])[::-1], step


@dataclass(frozen=True)
class Shown:
    """A report that a page shows."""

    name: str
    history: History
    has_ages: bool
    """Whether its rows have a last count and an age; those of exact counts have not."""


def packed_report(block: Block, shown: Shown, targets: Sequence[Target], most: int) -> dict[str, Any]:
    """Puts the columns of a report into the block, of at most `most` rows; gives what the page has of it besides."""
    history = shown.history
    snapshots, step = kept_of(history.snapshots, most)
    places = {target.number: (place, target.low << PAGE_BITS) for place, target in enumerate(targets)}
    actions = sorted({run.action for snapshot in snapshots for run in snapshot.applied})
    return {
        "name": shown.name,
        "start": history.start,
        "step": step,
        "found": {"snapshots": len(history.snapshots), "rows": sum(len(snapshot.regions) for snapshot in history.snapshots)},
        "hasAges": shown.has_ages,
        "snapshots": packed_snapshots(block, snapshots),
        "rows": packed_rows(block, snapshots, places),
        "runs": packed_runs(block, snapshots, places, actions),
        "actions": actions,
        "slots": [{"number": number, "action": slot.action, "pages": slot.applied,
                   "spans": [[span.start, span.end, span.active] for span in slot.spans]}
                  for number, slot in history.slots.items()],
        "changes": [packed_change(change) for change in history.changes],
        "later": history.later,
        "curves": [{"name": curve.name, "unit": curve.unit, "ticks": block.put(curve.ticks), "values": block.put_floats(curve.values)}
                   for curve in curves_of(history)],
    }


def packed_snapshots(block: Block, snapshots: Sequence[Snapshot]) -> dict[str, Any]:
    """Of each snapshot the tick, the passes, how many rows and runs it has, and whether it is an aggregation."""
    return {
        "tick": block.put([snapshot.tick for snapshot in snapshots]),
        "passes": block.put([snapshot.passes for snapshot in snapshots]),
        "rows": block.put([len(snapshot.regions) for snapshot in snapshots]),
        "runs": block.put([len(snapshot.applied) for snapshot in snapshots]),
        "isAggregation": block.put([isinstance(snapshot, Aggregation) for snapshot in snapshots]),
    }


Places = Mapping[int, tuple[int, int]]
"""Of each target its place among the targets of the page, and the first address that it has there."""


def packed_rows(block: Block, snapshots: Sequence[Snapshot], places: Places) -> dict[str, Any]:
    """The regions of all snapshots, each snapshot's by target and address. Pages are counted from the first one of the target."""
    target, start, end, count, last, age = (array("Q") for _ in range(6))
    for snapshot in snapshots:
        found: list[Region] = sorted(snapshot.regions)
        if not found:
            continue
        numbers, starts, ends, hits, lasts, ages = zip(*found)
        of = [places[number] for number in numbers]
        target.extend([place for place, _ in of])
        start.extend([(address - first) >> PAGE_BITS for address, (_, first) in zip(starts, of)])
        end.extend([(address - first) >> PAGE_BITS for address, (_, first) in zip(ends, of)])
        count.extend(hits)
        last.extend(lasts)
        age.extend(ages)
    columns = {"target": target, "start": start, "end": end, "count": count, "last": last, "age": age}
    return {name: block.put(values) for name, values in columns.items()}


def packed_runs(block: Block, snapshots: Sequence[Snapshot], places: Places, actions: Sequence[str]) -> dict[str, Any]:
    """The pages that schemes were applied to, each snapshot's by target and address."""
    runs: list[Applied] = []
    for snapshot in snapshots:
        runs += sorted(snapshot.applied, key=lambda run: (run.target, run.start, run.slot))
    of = [places[run.target] for run in runs]
    return {
        "target": block.put([place for place, _ in of]),
        "start": block.put([(run.start - first) >> PAGE_BITS for run, (_, first) in zip(runs, of)]),
        "end": block.put([(run.end - first) >> PAGE_BITS for run, (_, first) in zip(runs, of)]),
        "slot": block.put([run.slot for run in runs]),
        "action": block.put([actions.index(run.action) for run in runs]),
        "score": block.put([run.score for run in runs]),
    }


def packed_change(change: Change) -> dict[str, Any]:
    """A commit, with the marks that it has."""
    return {**asdict(change), "has_metric": change.has_metric, "has_more": change.has_more, "is_line": change.is_line}


def curves_of(history: History) -> list[Curve]:
    """The working set and the regions, what is left of quotas, and what `damon reclaim` says of memory."""
    ticks, snapshots = history.ticks, history.snapshots
    curves = [Curve("working set", "pages", ticks, [snapshot.working_set >> PAGE_BITS for snapshot in snapshots]),
              Curve("regions", "regions", ticks, [len(snapshot.regions) for snapshot in snapshots])]
    for slot in sorted({slot for snapshot in snapshots for slot in snapshot.left}):
        left = [snapshot.left.get(slot, NAN) for snapshot in snapshots]
        curves.append(Curve(f"quota left, slot {slot}", "pages", ticks, left))
    for chart in memory_charts(history):
        curves.append(Curve(chart.name, "refaults" if chart.kind == REFAULTS else "pages", chart.ticks, chart.values))
    return curves
