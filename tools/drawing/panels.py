"""The panels: one for each target, time against addresses, highest target first so that addresses rise upwards."""
from __future__ import annotations

from dataclasses import dataclass

from wording import size_words

from .canvas import LEFT, NAME, RIGHT, Canvas, scaled_path, x_of
from .grid import UNWATCHED, Cells, Columns, cells_of, columns_of, rows_of
from .history import History
from .style import SLOT_COLOURS

PANELS, ALONE = 480.0, 300.0
"""The height that several panels share, if none is too small, and that of a panel without others."""
LEAST, GAP = 26.0, 8.0
MOST_ROWS = 400
"""The most rows of all panels together."""


@dataclass(frozen=True)
class Panel:
    """A target, and the place of its panel."""

    target: int
    low: int
    high: int
    """The addresses between which regions were reported."""
    top: float
    height: float
    label: str

    @property
    def bottom(self) -> float:
        return self.top + self.height


def spans_of(history: History) -> dict[int, tuple[int, int]]:
    """Each target that was watched, with the first and the last address that regions had."""
    spans: dict[int, tuple[int, int]] = {}
    for snapshot in history.snapshots:
        for found in snapshot.regions:
            low, high = spans.get(found.target, (found.start, found.end))
            spans[found.target] = (min(low, found.start), max(high, found.end))
    return dict(sorted(spans.items()))


def panels_of(spans: dict[int, tuple[int, int]], labels: dict[int, str], top: float) -> list[Panel]:
    """The panels from top to bottom. A height grows with the square root of the pages, so that small targets can be read."""
    roots = {target: (high - low) ** 0.5 for target, (low, high) in spans.items()}
    shared = PANELS if len(spans) > 1 else ALONE
    panels = []
    for target, (low, high) in reversed(spans.items()):
        height = max(LEAST, round(shared * roots[target] / sum(roots.values())))
        panels.append(Panel(target, low, high, top, height, labels.get(target, "")))
        top += height + GAP
    return panels


def draw_panels(canvas: Canvas, history: History, panels: list[Panel]) -> bool:
    """Draws all panels, and says whether a cell of them is not watched."""
    columns = columns_of(history.ticks, history.start)
    shared = sum(panel.height for panel in panels)
    unwatched = False
    for panel in panels:
        most = max(8, round(MOST_ROWS * panel.height / shared))
        rows = rows_of(history.snapshots, panel.target, panel.low, panel.high, most)
        cells = cells_of(history.snapshots, columns, panel.target, rows, applied_slots(history))
        draw_panel(canvas, panel, cells, columns)
        unwatched = unwatched or UNWATCHED in cells.heat
    return unwatched


def applied_slots(history: History) -> list[int]:
    """The slots that were applied to pages; their order gives their colours."""
    return [number for number, slot in history.slots.items() if slot.pages]


def draw_panel(canvas: Canvas, panel: Panel, cells: Cells, columns: Columns) -> None:
    """Draws the cells of a target and its labels."""
    span = panel.high - panel.low
    ys = [panel.bottom - panel.height * (row - panel.low) / span for row in cells.rows]
    draw_cells(canvas, cells, columns, ys)
    canvas.rect(LEFT, panel.top, RIGHT - LEFT, panel.height, "frame",
                f"target {panel.target}: {panel.low:#x} to {panel.high:#x}")
    draw_labels(canvas, panel)


def draw_cells(canvas: Canvas, cells: Cells, columns: Columns, ys: list[float]) -> None:
    """Draws the heat, what is not watched, and the marks of schemes over it; `ys` are the edges of rows, from the lowest up."""
    xs = [x_of(edge, columns) for edge in columns.edges]
    canvas.rect(LEFT, ys[-1], RIGHT - LEFT, ys[0] - ys[-1], "panel")
    canvas.put('<g class="crisp">')
    for step, found in sorted(cells.heat.items()):
        path = scaled_path(found, xs, ys)
        canvas.put(f'<path fill="url(#unwatched)" d="{path}"/>' if step == UNWATCHED else f'<path class="h{step}" d="{path}"/>')
    canvas.put("</g>")
    for marks, kind, fill in ((cells.again, " faint", 'class="faint" fill'), (cells.applied, "", "fill")):
        for order, found in enumerate(marks.values()):
            if found:
                colour = order % SLOT_COLOURS
                path = scaled_path(found, xs, ys)
                canvas.put(f'<path {fill}="url(#hatch{colour})" d="{path}"/><path class="mark s{colour}{kind}" d="{path}"/>')


def draw_labels(canvas: Canvas, panel: Panel) -> None:
    """The addresses at the left, and the number, the size and the name of the target at the right."""
    canvas.text(LEFT - 8, panel.bottom - 1, f"{panel.low:#x}", "small right")
    canvas.text(LEFT - 8, panel.top + 9, f"{panel.high:#x}", "small right soft")
    middle = panel.top + panel.height / 2
    size = size_words(panel.high - panel.low)
    canvas.text(NAME, middle - 2, panel.label or f"target {panel.target}")
    canvas.text(NAME, middle + 11, f"target {panel.target}, {size}" if panel.label else size, "small soft")
