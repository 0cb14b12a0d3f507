"""Lays a picture out and writes it as SVG."""
from __future__ import annotations

from dataclasses import dataclass, field
from typing import Iterable

from .canvas import Canvas
from .charts import AXIS, CHARTS, charts_of, draw_charts, draw_time
from .fold import draw_strip, quiet_of
from .grid import columns_of
from .history import History
from .legend import draw_legend, height_of_legend
from .panels import draw_panels, panels_of, spans_of
from .timeline import draw_lines, draw_timeline, height_of

SPACE = 8.0
"""Between the panels with their strips and the gap above the first curve."""


@dataclass(frozen=True)
class View:
    """What of a report is drawn, and how."""

    title: str
    labels: dict[int, str] = field(default_factory=dict)
    """The names of targets."""
    theme: str = "auto"
    charts: Iterable[str] = CHARTS
    busy: float = 0.0
    """Targets that were found accessed in a smaller share of their samples are folded into one strip."""


def picture(history: History, view: View) -> str:
    """The whole picture. The history has at least one snapshot."""
    canvas = Canvas()
    columns = columns_of(history.ticks, history.start)
    spans = spans_of(history)
    quiet = {target: spans.pop(target) for target in quiet_of(history, view.busy)}
    top = height_of_legend(history)
    bottom, unwatched = top, False
    if spans:
        panels = panels_of(spans, view.labels, top)
        unwatched = draw_panels(canvas, history, panels)
        bottom = panels[-1].bottom
    if quiet:
        bottom = draw_strip(canvas, history, quiet, view.busy, columns, bottom)
    draw_timeline(canvas, history, columns, bottom)
    bottom = draw_charts(canvas, charts_of(history, view.charts), columns, bottom + height_of(history) + SPACE)
    draw_lines(canvas, history, columns, top, bottom)
    draw_legend(canvas, history, view.title, unwatched, any(change.is_line for change in history.changes))
    draw_time(canvas, columns, bottom)
    return canvas.document(bottom + AXIS, view.title, view.theme)
