"""Draws small pictures beside each other that have the same axes: a panel for each program, with marks of several kinds."""
from __future__ import annotations

import math
from dataclasses import dataclass, field
from typing import Sequence

from .canvas import LETTER, WIDTH, Canvas, short
from .front import form

LEFT, TOP = 62.0, 84.0
COLUMNS, GAP, ACROSS, HEIGHT = 4, 16.0, 206.0, 150.0
HEAD, AXIS = 22.0, 40.0
"""Above a panel, for its name; and beneath the last one."""
TITLE, LEGEND = 26.0, 46.0
LINE = 17.0
SMALL, LARGE = 2.6, 4.6
MOST_FORMS = 4
"""Marks have this many forms, and as many colours beside them, so that none needs its colour."""


@dataclass(frozen=True)
class Axis:
    """What is drawn in a direction, with the numbers that stand at it."""

    words: str
    low: float
    high: float
    numbers: Sequence[tuple[float, str]]
    is_log: bool = False

    def part(self, number: float) -> float:
        """Where a number stands, as a part of the axis. What lies outside stands at the end."""
        low, high, held = (self.scaled(one) for one in (self.low, self.high, min(max(number, self.low), self.high)))
        return (held - low) / (high - low)

    def scaled(self, number: float) -> float:
        return math.log10(number) if self.is_log else number


@dataclass(frozen=True)
class Dot:
    """A mark, with the least and the greatest of both numbers."""

    x: tuple[float, float, float]
    y: tuple[float, float, float]
    hover: str
    is_large: bool = False


@dataclass(frozen=True)
class Series:
    """Marks of one kind, in the order in which a line goes through them."""

    name: str
    kind: int
    """Which form and which colour they have."""
    dots: Sequence[Dot] = field(default_factory=tuple)
    line: str = "solid"
    """`solid`, `dashed`, or nothing."""


@dataclass(frozen=True)
class Panel:
    """A small picture. The series have the same order in all panels."""

    name: str
    note: str
    series: Sequence[Series]


@dataclass(frozen=True)
class Multiples:
    """The whole picture."""

    title: str
    x: Axis
    y: Axis
    panels: Sequence[Panel]
    note: str = ""


@dataclass(frozen=True)
class Place:
    """Where a panel is."""

    left: float
    top: float
    picture: Multiples

    def at(self, x: float, y: float) -> tuple[float, float]:
        return self.left + ACROSS * self.picture.x.part(x), self.top + HEIGHT * (1 - self.picture.y.part(y))


def multiples(picture: Multiples, theme: str = "auto") -> str:
    """The picture as SVG. There is at least one panel."""
    canvas = Canvas()
    canvas.text(LEFT, TITLE, picture.title, "title")
    top = TOP + LINE * draw_legend(canvas, picture)
    rows = -(-len(picture.panels) // COLUMNS)
    for number, panel in enumerate(picture.panels):
        row, column = divmod(number, COLUMNS)
        place = Place(LEFT + column * (ACROSS + GAP), top + row * (HEIGHT + HEAD + GAP), picture)
        draw_panel(canvas, panel, place, column == 0, number + COLUMNS >= len(picture.panels))
    bottom = top + rows * (HEIGHT + HEAD + GAP) - HEAD - GAP
    canvas.text((LEFT + WIDTH) / 2, bottom + AXIS - 4, picture.x.words, "middle")
    canvas.upwards(13, (top + bottom) / 2, picture.y.words, "middle")
    return canvas.document(bottom + AXIS + 10, picture.title, theme)


def draw_legend(canvas: Canvas, picture: Multiples) -> int:
    """What the marks are, in lines beneath the title. Gives how many lines there are beyond the first."""
    left, line = LEFT, 0
    for series in picture.panels[0].series:
        width = 34 + LETTER * len(series.name) + 20
        if left + width > WIDTH:
            left, line = LEFT, line + 1
        y = LEGEND + LINE * line
        if series.line:
            canvas.path(f"M{short(left)} {short(y)}h24", line_class(series))
        canvas.path(f"M{short(left + 12)} {short(y)}{form(series.kind, LARGE if not series.line else SMALL + 1)}", f"m{colour_of(series.kind)}")
        canvas.text(left + 32, y + 4, series.name, "small")
        left += width
    if picture.note:
        line += 1
        canvas.text(LEFT, LEGEND + LINE * line + 4, picture.note, "small soft")
    return line


def draw_panel(canvas: Canvas, panel: Panel, place: Place, has_y: bool, has_x: bool) -> None:
    """The name, the axes and the marks of a panel; numbers stand only at the outer ones."""
    canvas.text(place.left, place.top - 6, panel.name)
    canvas.text(place.left + ACROSS, place.top - 6, panel.note, "small right soft")
    canvas.rect(place.left, place.top, ACROSS, HEIGHT, "panel")
    bottom = place.top + HEIGHT
    for number, words in place.picture.x.numbers:
        x, _ = place.at(number, place.picture.y.low)
        canvas.path(f"M{short(x)} {short(place.top)}V{short(bottom + 4)}", "frame")
        if has_x:
            canvas.text(x, bottom + 16, words, "small middle soft")
    for number, words in place.picture.y.numbers:
        _, y = place.at(place.picture.x.low, number)
        canvas.path(f"M{short(place.left - 4)} {short(y)}h{short(ACROSS + 4)}", "frame")
        if has_y:
            canvas.text(place.left - 8, y + 4, words, "small right soft")
    canvas.rect(place.left, place.top, ACROSS, HEIGHT, "frame")
    for series in panel.series:
        draw_series(canvas, series, place)


def draw_series(canvas: Canvas, series: Series, place: Place) -> None:
    """A line through the marks, the spread of each as a cross, and the marks."""
    points = [place.at(dot.x[0], dot.y[0]) for dot in series.dots]
    if series.line and len(points) > 1:
        canvas.path("M" + "L".join(f"{short(x)} {short(y)}" for x, y in points), line_class(series))
    for dot, (x, y) in zip(series.dots, points):
        (left, low), (right, high) = (place.at(dot.x[part], dot.y[part]) for part in (1, 2))
        if right - left >= 1 or low - high >= 1:
            canvas.path(f"M{short(left)} {short(y)}H{short(right)}M{short(x)} {short(low)}V{short(high)}", "waiting")
    for dot, (x, y) in zip(series.dots, points):
        canvas.path(f"M{short(x)} {short(y)}{form(series.kind, LARGE if dot.is_large else SMALL)}", f"m{colour_of(series.kind)}", dot.hover)


def line_class(series: Series) -> str:
    return f"{'commit' if series.line == 'dashed' else 'edge'} e{colour_of(series.kind)}"


def colour_of(kind: int) -> int:
    """The colours of kinds are far apart."""
    return (0, 5, 2, 7)[kind % MOST_FORMS]
