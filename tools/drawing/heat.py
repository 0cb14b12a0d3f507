"""Draws heat tables: a panel for each target, time against the columns of the target, and beneath them the working set.

Time goes to the right as in a picture of a report, so a column of a target is a strip that lies. The colour is the heat
for each page of the column and each pass, from 0 to 1: the mean of the counts of its pages, as a share of the passes since
the aggregation before. Heat tables do not say how many pages a column has. Without that the colour is the heat for each
pass, as a share of the greatest one of its target, whose columns have the same number of pages up to one.
"""
from __future__ import annotations

from dataclasses import dataclass
from typing import Sequence

from reports.heat import Heat
from reports.places import Place

from .canvas import LEFT, NAME, RIGHT, Canvas, scaled_path, x_of
from .charts import AXIS, OFTEN, WORKING_SET, chart_of, draw_charts, draw_time
from .grid import Columns, columns_of, level, rectangles
from .legend import ALWAYS, NEVER, NOTES, TITLE, draw_scale
from .panels import Panel, draw_labels, panels_of

TOP, SPACE = 94.0, 8.0
OFTEN_TENTHS = 5
"""In how many tenths of the passes a page was found accessed that counts as often accessed."""


@dataclass(frozen=True)
class TargetHeat:
    """The heat of one target over time."""

    heat: list[list[int]]
    """For each aggregation the heat of each column."""
    passes: list[int]
    """For each aggregation the passes since the one before."""
    place: Place | None

    @property
    def columns(self) -> int:
        return len(self.heat[0])

    @property
    def span(self) -> tuple[int, int]:
        """The first and the last address, or the numbers of columns where no address is known."""
        return (self.place.base, self.place.end) if self.place else (0, self.columns)

    @property
    def borders(self) -> list[int]:
        """Where columns begin and end: in pages, or all alike."""
        return self.place.borders(self.columns) if self.place else list(range(self.columns + 1))

    def most(self) -> list[float]:
        """For each column the heat in one pass that is a share of 1."""
        if self.place:
            return [float(high - low) for low, high in zip(self.borders, self.borders[1:])]
        most = max(max(heat) / passes for heat, passes in zip(self.heat, self.passes))
        return [most] * self.columns

    def levels(self, columns: Columns) -> list[list[int]]:
        """For each column of the picture the colours of the target's columns: the mean share of its aggregations."""
        most = self.most()
        return [[level(self.share(group, column, most[column])) for column in range(self.columns)] for group in columns.groups]

    def share(self, group: slice, column: int, most: float) -> float:
        """The mean share of a column in some aggregations; 0 if it has no page."""
        shares = [heat[column] / (passes * most) if most else 0.0 for heat, passes in zip(self.heat[group], self.passes[group])]
        return sum(shares) / len(shares)


def heat_picture(heats: Sequence[Heat], places: Sequence[Place] | None, title: str, labels: dict[int, str], theme: str) -> str:
    """The whole picture. There is at least one aggregation, and the places, if they are known, are those of its targets."""
    canvas = Canvas()
    columns = columns_of([found.tick for found in heats])
    passes = [found.passes for found in heats]
    tables = [TargetHeat([found.heat[target] for found in heats], passes, places[target] if places else None)
              for target in range(len(heats[0].heat))]
    panels = panels_of({target: table.span for target, table in enumerate(tables)}, labels, TOP)
    for panel in panels:
        draw_table(canvas, panel, tables[panel.target], columns)
    ticks = [found.tick for found in heats]
    charts = [chart_of(WORKING_SET, "working set", ticks, [found.working_set for found in heats], True),
              chart_of(OFTEN, "often accessed", ticks, [sum(found.freq[OFTEN_TENTHS:]) for found in heats], True)]
    bottom = draw_charts(canvas, charts, columns, panels[-1].bottom + SPACE)
    draw_heading(canvas, title, tables[0])
    draw_time(canvas, columns, bottom)
    return canvas.document(bottom + AXIS, title, theme)


def draw_heading(canvas: Canvas, title: str, table: TargetHeat) -> None:
    """The title, the scale of colours, and what a strip is."""
    canvas.text(LEFT, TITLE, title, "title")
    if table.place:
        draw_scale(canvas, "mean share of samples in which its pages were found accessed:", NEVER, ALWAYS)
    else:
        draw_scale(canvas, "heat beside the greatest one of its target:", "none", "as great")
    canvas.text(LEFT, NOTES + 9, f"a strip is one of the {table.columns} columns of a target", "small soft")
    canvas.text(LEFT - 8, TOP - 8, "addresses" if table.place else "columns", "small right soft")


def draw_table(canvas: Canvas, panel: Panel, table: TargetHeat, columns: Columns) -> None:
    """Draws the heat of a target, and its labels."""
    xs = [x_of(edge, columns) for edge in columns.edges]
    borders = table.borders
    ys = [panel.bottom - panel.height * border / borders[-1] for border in borders]
    canvas.rect(LEFT, panel.top, RIGHT - LEFT, panel.height, "panel")
    canvas.put('<g class="crisp">')
    for step, found in sorted(rectangles(table.levels(columns)).items()):
        canvas.path(scaled_path(found, xs, ys), f"h{step}")
    canvas.put("</g>")
    hover = f"target {panel.target}: " + (f"{panel.low:#x} to {panel.high:#x}" if table.place else f"{table.columns} columns")
    canvas.rect(LEFT, panel.top, RIGHT - LEFT, panel.height, "frame", hover)
    if table.place:
        draw_labels(canvas, panel)
    else:
        draw_numbers(canvas, panel)


def draw_numbers(canvas: Canvas, panel: Panel) -> None:
    """The numbers of the first and the last column at the left, and the number and the name of the target at the right."""
    canvas.text(LEFT - 8, panel.bottom - 1, f"column {panel.low}", "small right")
    canvas.text(LEFT - 8, panel.top + 9, f"column {panel.high - 1}", "small right soft")
    middle = panel.top + panel.height / 2
    canvas.text(NAME, middle - 2, panel.label or f"target {panel.target}")
    if panel.label:
        canvas.text(NAME, middle + 11, f"target {panel.target}", "small soft")
