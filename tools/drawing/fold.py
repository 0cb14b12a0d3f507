"""Quiet targets: which ones they are, and the one strip that stands for all of them."""
from __future__ import annotations

from reports.events import Snapshot
from wording import counted, size_words

from .canvas import LEFT, NAME, RIGHT, Canvas
from .grid import UNWATCHED, Cells, Columns, level, rectangles
from .history import History
from .panels import GAP, LEAST, applied_slots, draw_cells


def shares_of(history: History) -> dict[int, float]:
    """For each target in which share of the samples of its memory it was found accessed: the mean over bytes and ticks."""
    hits: dict[int, float] = {}
    samples: dict[int, int] = {}
    for found in history.snapshots:
        for region in found.regions:
            size = region.end - region.start
            hits[region.target] = hits.get(region.target, 0) + size * region.hits
            samples[region.target] = samples.get(region.target, 0) + size * found.passes
    return {target: hits[target] / samples[target] for target in sorted(hits)}


def quiet_of(history: History, share: float) -> list[int]:
    """The targets that were found accessed in a smaller share of their samples."""
    return [target for target, found in shares_of(history).items() if found < share]


def strip_of(history: History, quiet: list[int], columns: Columns) -> Cells:
    """One row for all of these targets: their mean heat, and where a scheme was applied to one of them."""
    chosen = frozenset(quiet)
    heat = [[column_level(history.snapshots[group], chosen)] for group in columns.groups]
    applied = {slot: rectangles([[int(is_applied(history.snapshots[group], chosen, slot))] for group in columns.groups]).get(1, [])
               for slot in applied_slots(history)}
    return Cells([0, 1], rectangles(heat), applied, {})


def column_level(group: list[Snapshot], chosen: frozenset[int]) -> int:
    """The level of some snapshots: the mean share of hits over these targets' bytes, as far as they are watched."""
    regions = [(region.end - region.start, region.hits / found.passes) for found in group for region in found.regions if region.target in chosen]
    size = sum(size for size, _ in regions)
    return level(sum(size * share for size, share in regions) / size) if size else UNWATCHED


def is_applied(group: list[Snapshot], chosen: frozenset[int], slot: int) -> bool:
    return any(run.slot == slot and run.target in chosen for found in group for run in found.applied)


def draw_strip(canvas: Canvas, history: History, spans: dict[int, tuple[int, int]], share: float, columns: Columns, bottom: float) -> float:
    """Draws the strip of the targets with these spans, and gives where it ends."""
    quiet = list(spans)
    top = bottom + GAP
    cells = strip_of(history, quiet, columns)
    draw_cells(canvas, cells, columns, [top + LEAST, top])
    sizes = size_words(sum(high - low for low, high in spans.values()))
    canvas.rect(LEFT, top, RIGHT - LEFT, LEAST, "frame", f"targets {', '.join(map(str, quiet))}")
    canvas.text(LEFT - 8, top + LEAST / 2 + 4, "quiet targets", "small right soft")
    canvas.text(NAME, top + LEAST / 2 - 2, f"{counted(len(quiet), 'target')}, {sizes}", "")
    canvas.text(NAME, top + LEAST / 2 + 11, f"each below {100 * share:g} %", "small soft")
    return top + LEAST
