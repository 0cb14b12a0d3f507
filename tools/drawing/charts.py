"""The curves beneath the panels, and the axis of time."""
from __future__ import annotations

from dataclasses import dataclass
from typing import Iterable, Sequence

from reports.events import Aggregation
from units import PAGE_BITS
from wording import size_words

from .canvas import LEFT, NAME, RIGHT, Canvas, short, x_of
from .grid import Columns
from .history import History

CHART, GAP = 64.0, 14.0
AXIS = 34.0
POINTS = 480
"""The most points of a curve."""


WORKING_SET, REGIONS, RESIDENT, REFAULTS, QUOTA, OFTEN = "working-set", "regions", "resident", "refaults", "quota", "often"
CHARTS = (WORKING_SET, REGIONS, RESIDENT, REFAULTS, QUOTA)
"""The kinds of charts of a report."""


@dataclass(frozen=True)
class Chart:
    """A curve in steps: a value holds since the tick before its own. All values are at least 0, and there is at least one."""

    kind: str
    name: str
    ticks: Sequence[int]
    values: Sequence[float]
    highest: str
    """What the top of the chart is in words."""
    most: float
    """What it is as a number."""
    note: str = ""
    """What stands beneath the name."""


def chart_of(kind: str, name: str, ticks: Sequence[int], values: Sequence[int], is_pages: bool, note: str = "") -> Chart:
    """A chart as high as its highest value."""
    most = max(values)
    return Chart(kind, name, ticks, values, pages_words(most) if is_pages else f"{most}", most or 1, note)


def pages_words(count: int) -> str:
    """A number of pages as a size."""
    return size_words(count << PAGE_BITS)


def charts_of(history: History, kinds: Iterable[str] = CHARTS) -> list[Chart]:
    """The working set and the number of regions, and what `damon reclaim` and `damon tune` add; of these the ones of some kinds."""
    sets = [snapshot.working_set >> PAGE_BITS for snapshot in history.snapshots]
    counts = [len(snapshot.regions) for snapshot in history.snapshots]
    charts = [chart_of(WORKING_SET, "working set", history.ticks, sets, True),
              chart_of(REGIONS, "regions", history.ticks, counts, False), *memory_charts(history), *quota_charts(history)]
    wanted = set(kinds)
    return [chart for chart in charts if chart.kind in wanted]


def memory_charts(history: History) -> list[Chart]:
    """Of a report of `damon reclaim` the resident pages, above which are those that are out, and the refaults.

    What is resident after an aggregation is drawn until the next one. All pages are resident at first. Both are of all
    targets, as the report does not say more.
    """
    if len(history.memory) < 2:
        return []
    *found, end = history.memory
    pages = end.resident + end.out
    whose = "" if history.has_all else ", all targets"
    shown = [(one.tick, before, one.refaults - since) for one, before, since in zip(
        found, [pages, *(one.resident for one in found)], [0, *(one.refaults for one in found)])
        if history.start < one.tick <= history.ticks[-1]]
    if not shown:
        return []
    ticks, resident, refaults = ([row[place] for row in shown] for place in range(3))
    return [Chart(RESIDENT, f"resident{whose}", ticks, resident, pages_words(pages), pages, f"{pages_words(end.out)} out at the end"),
            chart_of(REFAULTS, f"refaults{whose}", ticks, refaults, False, f"{end.refaults} in all")]


def quota_charts(history: History) -> list[Chart]:
    """Of a report of `damon tune` what was left of each quota with a goal before a choice: all of it where a window began."""
    found = [snapshot for snapshot in history.snapshots if isinstance(snapshot, Aggregation)]
    ticks = [one.tick for one in found]
    return [chart_of(QUOTA, f"quota left, slot {slot}", ticks, [one.left.get(slot, 0) for one in found], True,
                     f"{'none' if quota is None else size_words(quota)} at the end")
            for slot, quota in history.tuned if found]


def draw_charts(canvas: Canvas, charts: Sequence[Chart], columns: Columns, top: float) -> float:
    """Draws the charts, one beneath the other, and gives where they end."""
    for chart in charts:
        top += GAP
        draw_chart(canvas, chart, columns, top)
        top += CHART
    return top


def curve(chart: Chart, columns: Columns, top: float) -> list[tuple[float, float]]:
    """The corners of a curve in steps, thinned out to the highest of neighbours where it has too many."""
    values, ticks = chart.values, chart.ticks
    group = -(-len(values) // POINTS)
    points, since = [], columns.edges[0]
    for start in range(0, len(values), group):
        until = ticks[min(start + group, len(ticks)) - 1]
        y = top + CHART * (1 - max(values[start : start + group]) / chart.most)
        points += [(x_of(since, columns), y), (x_of(until, columns), y)]
        since = until
    return points


def draw_chart(canvas: Canvas, chart: Chart, columns: Columns, top: float) -> None:
    """A curve over time, with what its top is and 0 at the left, and its name at the right."""
    points = curve(chart, columns, top)
    line = "L".join(f"{short(x)} {short(y)}" for x, y in points)
    bottom, middle = top + CHART, top + CHART / 2
    canvas.rect(LEFT, top, RIGHT - LEFT, CHART, "panel")
    canvas.path(f"M{short(points[0][0])} {short(bottom)}L{line}L{short(points[-1][0])} {short(bottom)}z", "area")
    canvas.path(f"M{line}", "edge")
    canvas.rect(LEFT, top, RIGHT - LEFT, CHART, "frame")
    canvas.text(LEFT - 8, top + 9, chart.highest, "small right soft")
    canvas.text(LEFT - 8, bottom - 1, "0", "small right soft")
    canvas.text(NAME, middle - 2 if chart.note else middle + 4, chart.name)
    if chart.note:
        canvas.text(NAME, middle + 11, chart.note, "small soft")


def draw_time(canvas: Canvas, columns: Columns, top: float) -> None:
    """The axis of time: round numbers of ticks."""
    first, last = columns.edges[0], columns.edges[-1]
    step = round_step((last - first) / 6)
    for tick in range(-(-first // step) * step, last + 1, step):
        x = x_of(tick, columns)
        canvas.path(f"M{short(x)} {short(top)}v5", "frame")
        canvas.text(x, top + 17, f"{tick}", "small middle soft")
    canvas.text(RIGHT + 28, top + 17, "sampling intervals", "small soft")


def round_step(least: float) -> int:
    """The smallest of 1, 2, 5, 10, 20 and so on that is at least this."""
    power = 1
    while True:
        for factor in (1, 2, 5):
            if factor * power >= least:
                return factor * power
        power *= 10
