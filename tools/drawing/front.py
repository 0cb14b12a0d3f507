"""Draws the rows of a search: two measures as axes, and the front of the rows that no other one beats, one for each workload."""
from __future__ import annotations

import math
from dataclasses import dataclass
from typing import Iterable

from searching.marks import Axis, Mark, Table, front_of
from wording import counted

from .canvas import LEFT, NAME, RIGHT, Canvas, short
from .front_labels import FEW_STEPS, SEVERAL, STEPS, Label, Placed, draw_labels, label_of, labels_placed, names_of
from .legend import SCALE, TITLE
from .style import MARK_COLOURS

TOP, HEIGHT, AXIS = 70.0, 420.0, 56.0
BOTTOM = TOP + HEIGHT
MARGIN = 0.04
"""The room beside the outermost rows, as a share of the axis."""
CELL = 6.0
"""Of rows that are drawn so close together only one is drawn, if they are many."""
MOST_MARKS = 2000
MOST_NAMED = 6
"""The most rows whose settings a mark names."""
SMALL, LARGE = 2.5, 4.0
"""The sizes of marks."""
NUMBERS = 6
"""About how many numbers an axis has."""
LINE = 17.0
NAME_LETTERS = 23
"""The letters for which there is room beside a mark of the legend."""


@dataclass(frozen=True)
class Scale:
    """Numbers along an axis, and where they stand."""

    low: float
    high: float
    start: float
    end: float

    def place(self, number: float) -> float:
        return self.start + (self.end - self.start) * (number - self.low) / (self.high - self.low)

    def round_numbers(self) -> list[float]:
        """Numbers that are 1, 2 or 5 times a power of ten apart."""
        step = round_step((self.high - self.low) / NUMBERS)
        return [step * number for number in range(math.ceil(self.low / step), math.floor(self.high / step) + 1)]


@dataclass(frozen=True)
class Plane:
    """The axes of a picture."""

    x: Axis
    y: Axis
    across: Scale
    upwards: Scale

    def place(self, mark: Mark) -> tuple[float, float]:
        return self.across.place(mark.x), self.upwards.place(mark.y)


@dataclass(frozen=True)
class Series:
    """The rows of one workload."""

    name: str
    front: list[Mark]
    others: list[Mark]
    """Those that another one beats."""


@dataclass(frozen=True)
class Colours:
    """Which colour and which form a mark has: by the value of a setting, by its workload, or by whether it is in front."""

    setting: str
    """None is chosen where this is empty."""
    values: list[str]
    """The values of the setting, or the names of the series, in their order."""

    def number(self, series: Series, mark: Mark) -> int | None:
        """The place of its value; None where marks are told apart only by whether they are in front."""
        if self.setting:
            return self.values.index(mark.value(self.setting))
        return self.values.index(series.name) if len(self.values) > 1 else None

    def kind(self, number: int | None, is_front: bool, letter: str = "m") -> str:
        """The class of a mark with this place: of its inside, or with `e` of a line."""
        if number is None:
            return ("t0" if letter == "m" else "s0") if is_front else "soft"
        last = len(self.values) - 1
        return f"{letter}{number * (MARK_COLOURS - 1) // last if last else 0}{'' if is_front else ' faint'}"


class ColourError(Exception):
    """A setting that cannot be shown by colours."""


def colours_of(table: Table, setting: str) -> Colours:
    """The colours of a picture. Raises ColourError."""
    series = list(table.by_workload())
    if not setting:
        if len(series) > MARK_COLOURS:
            raise ColourError(f"the rows have {len(series) - 1} workloads, and at most {MARK_COLOURS - 1} are told apart: "
                              "choose some by --only workload=NAME")
        return Colours("", series)
    if len(series) > 1:
        raise ColourError("--colour shows a setting of one workload: choose it by --only workload=NAME")
    names = table.marks[0].names
    if setting not in names:
        raise ColourError(f"--colour names {setting!r}, and rows differ in {', '.join(names) or 'nothing'}")
    values = sorted({mark.value(setting) for mark in table.marks}, key=in_order)
    if len(values) > MARK_COLOURS:
        raise ColourError(f"--colour names {setting!r}, which has {len(values)} values, and at most {MARK_COLOURS} are told apart")
    return Colours(setting, values)


def in_order(value: str) -> tuple[float, str]:
    """Numbers by their size, and then texts."""
    try:
        return float(value), value
    except ValueError:
        return math.inf, value


def round_step(least: float) -> float:
    """The smallest of 1, 2 and 5 times a power of ten that is at least this."""
    power = math.floor(math.log10(least))
    return next(factor * 10.0**power for factor in (1, 2, 5, 10) if factor * 10.0**power >= least * (1 - 1e-9))


def scale_of(numbers: Iterable[float], start: float, end: float) -> Scale:
    found = list(numbers)
    low, high = min(found), max(found)
    room = (high - low) * MARGIN or abs(high) * MARGIN or 1.0
    return Scale(low - room, high + room, start, end)


def series_of(table: Table, x: Axis, y: Axis) -> list[Series]:
    """The rows of each workload, with its own front."""
    found = []
    for name, marks in table.by_workload().items():
        front = front_of(marks, x, y)
        best = {(mark.x, mark.y) for mark in front}
        if front:
            found.append(Series(name, front, [mark for mark in marks if (mark.x, mark.y) not in best]))
    return found


def front_picture(table: Table, x: Axis, y: Axis, title: str, theme: str, colours: Colours) -> str:
    """The whole picture. There is at least one mark."""
    canvas = Canvas()
    plane = Plane(x, y, scale_of((mark.x for mark in table.marks), LEFT, RIGHT), scale_of((mark.y for mark in table.marks), BOTTOM, TOP))
    all_series = series_of(table, x, y)
    canvas.rect(LEFT, TOP, RIGHT - LEFT, HEIGHT, "panel")
    draw_axes(canvas, plane)
    for series in all_series:
        for marks in thinned(series.others, plane):
            draw_marks(canvas, marks, plane, colours, series, False)
    names = names_of(table.marks, colours.setting)
    labels: list[Label] = []
    for series in all_series:
        draw_stairs(canvas, series, plane, colours)
        for marks in thinned(series.front, plane):
            draw_spread(canvas, marks[0], plane)
            draw_marks(canvas, marks, plane, colours, series, True)
            labels.append(label_of(marks, names, plane.place(marks[0]), -1 if x.less else 1, 1 if y.less else -1))
    others = [plane.place(marks[0]) for series in all_series for marks in thinned(series.others, plane)]
    placed = labels_placed(labels, others, (LEFT, TOP, RIGHT, BOTTOM), STEPS if len(all_series) == 1 else FEW_STEPS)
    draw_labels(canvas, placed)
    canvas.rect(LEFT, TOP, RIGHT - LEFT, HEIGHT, "frame")
    canvas.text(LEFT, TITLE, title, "title")
    if table.same:
        canvas.text(LEFT, SCALE + 9, f"the same in all rows: {table.same}", "small soft")
    bottom = draw_legend(canvas, all_series, colours)
    draw_notes(canvas, names, placed, len(labels) - len(placed), table.left_out, bottom)
    return canvas.document(BOTTOM + AXIS, title, theme)


def thinned(marks: list[Mark], plane: Plane) -> list[list[Mark]]:
    """The marks, those of one place together; of one cell where they are many, so that the size of a picture is bounded."""
    cells: dict[tuple[float, float], list[Mark]] = {}
    for mark in marks:
        place = plane.place(mark)
        cell = place if len(marks) <= MOST_MARKS else (place[0] // CELL, place[1] // CELL)
        cells.setdefault(cell, []).append(mark)
    return list(cells.values())


def form(number: int | None, size: float) -> str:
    """The outline of a mark around its place: diamonds, boxes and two triangles in turn, so that it needs no colour."""
    step, double = short(size), short(2 * size)
    return (f"m-{step} 0l{step} -{step}l{step} {step}l-{step} {step}z", f"m-{step} -{step}h{double}v{double}h-{double}z",
            f"m0 -{step}l{step} {double}h-{double}z", f"m0 {step}l{step} -{double}h-{double}z")[(number or 0) % 4]


def draw_marks(canvas: Canvas, marks: list[Mark], plane: Plane, colours: Colours, series: Series, is_front: bool) -> None:
    """A form at the place of the first mark; its hover text has the two numbers, and the settings of the marks."""
    mark = marks[0]
    left, top = plane.place(mark)
    lines = [f"{plane.x.name} {mark.x:g}, {plane.y.name} {mark.y:g}", *(one.settings for one in marks[:MOST_NAMED])]
    if len(marks) > MOST_NAMED:
        lines.append(f"and {len(marks) - MOST_NAMED} more")
    number = colours.number(series, mark)
    canvas.path(f"M{short(left)} {short(top)}{form(number, LARGE if is_front else SMALL)}", colours.kind(number, is_front), "\n".join(lines))


def draw_spread(canvas: Canvas, mark: Mark, plane: Plane) -> None:
    """A line in each direction, as long as the spread to either side, within the frame."""
    middle, height = plane.place(mark)
    left, right = (min(max(plane.across.place(mark.x + side * mark.spreads[0]), LEFT), RIGHT) for side in (-1, 1))
    low, high = (min(max(plane.upwards.place(mark.y + side * mark.spreads[1]), TOP), BOTTOM) for side in (-1, 1))
    if mark.spreads != (0.0, 0.0):
        canvas.path(f"M{short(left)} {short(height)}H{short(right)}M{short(middle)} {short(low)}V{short(high)}", "waiting")


def draw_stairs(canvas: Canvas, series: Series, plane: Plane, colours: Colours) -> None:
    """The border of what the front beats: stairs from mark to mark, and on to the frame at both ends."""
    front, x, y = series.front, plane.x, plane.y
    places = [plane.place(mark) for mark in front]
    steps = [f"M{short(places[0][0])} {short(TOP if y.less else BOTTOM)}V{short(places[0][1])}"]
    steps += [f"H{short(left)}V{short(top)}" for left, top in places[1:]]
    steps.append(f"H{short(RIGHT if x.less else LEFT)}")
    number = None if colours.setting else colours.number(series, front[0])
    whose = f" of {series.name}" if len(colours.values) > 1 and not colours.setting else ""
    canvas.path("".join(steps), f"stairs {colours.kind(number, True, 'e')}",
                f"the front{whose} of {counted(len(front), 'row')}, down to {y.name} {front[-1].y:g}")


def draw_axes(canvas: Canvas, plane: Plane) -> None:
    """The numbers of both axes, with lines through the picture, and what the axes are."""
    for number in plane.across.round_numbers():
        place = short(plane.across.place(number))
        canvas.path(f"M{place} {short(TOP)}V{short(BOTTOM + 5)}", "frame")
        canvas.text(plane.across.place(number), BOTTOM + 17, f"{number:.6g}", "small middle soft")
    for number in plane.upwards.round_numbers():
        canvas.path(f"M{short(LEFT - 5)} {short(plane.upwards.place(number))}H{short(RIGHT)}", "frame")
        canvas.text(LEFT - 8, plane.upwards.place(number) + 4, f"{number:.6g}", "small right soft")
    canvas.text((LEFT + RIGHT) / 2, BOTTOM + 38, plane.x.words, "middle")
    canvas.upwards(LEFT - 66, (TOP + BOTTOM) / 2, plane.y.words, "middle")


def draw_legend(canvas: Canvas, all_series: list[Series], colours: Colours) -> float:
    """What the marks are; gives where that ends."""
    y = TOP + 6
    for words, number, is_front in legend_of(all_series, colours):
        canvas.path(f"M{short(NAME + 4)} {short(y)}{form(number, LARGE if is_front else SMALL)}", colours.kind(number, is_front))
        canvas.text(NAME + 14, y + 4, words if len(words) <= NAME_LETTERS else f"{words[:NAME_LETTERS - 2]}..", "small")
        y += LINE
    return y


def draw_notes(canvas: Canvas, names: list[str], placed: list[Placed], without_label: int, left_out: int, y: float) -> None:
    """What labels have, and what is not drawn."""
    notes = [f"labels: {names[0]}", *(f"/ {name}" for name in names[1:])] if names else []
    if any(SEVERAL in one.label.words for one in placed):
        notes.append(f"{SEVERAL} several values")
    if names and without_label:
        notes.append(f"no room for {without_label} of them")
    if left_out:
        notes.append(f"{left_out} rows without numbers")
    for note in notes:
        canvas.text(NAME, y + 8, note, "small soft")
        y += LINE - 3


def legend_of(all_series: list[Series], colours: Colours) -> list[tuple[str, int | None, bool]]:
    """The words beside each mark of the legend, with its place among the colours, and whether it is as marks in front are."""
    fronts = [f"{counted(len(series.front), 'row')} in front" for series in all_series]
    if colours.setting:
        return [*((f"{colours.setting} {value}", number, True) for number, value in enumerate(colours.values)),
                (f"large: {fronts[0]}", None, True), (f"small: {len(all_series[0].others)} others", None, False)]
    if len(colours.values) == 1:
        return [(fronts[0], None, True), (f"{len(all_series[0].others)} others", None, False)]
    lines: list[tuple[str, int | None, bool]] = []
    for series, words in zip(all_series, fronts):
        number = colours.values.index(series.name)
        lines += [(series.name, number, True), (f"{words} of {len(series.front) + len(series.others)}", number, False)]
    return lines
