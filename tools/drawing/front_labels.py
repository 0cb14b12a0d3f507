"""Labels beside the marks of a front, with their settings: each where it covers no other one."""
from __future__ import annotations

from dataclasses import dataclass
from typing import Iterator, Sequence

from searching.marks import WORKLOAD, Mark, own_settings

from .canvas import LETTER, Canvas, short

SEVERAL = "*"
"""In place of a setting in which the rows of a mark differ."""
HEIGHT = 11.0
NEAR, AWAY = 7.0, 12.0
"""From a mark to its label, and from one place for it to the next one."""
DIRECTIONS = ((0.7, 1.0), (1.6, 0.4), (0.1, 1.3), (2.4, 1.0))
"""In which places follow each other: across, and up or down."""
STEPS, FEW_STEPS = 7, 3
"""How many of them there are on the side where no rows are; of several fronts, and on the other sides, fewer."""
MOST_LABELS = 80
"""The most marks that may have a label."""

Box = tuple[float, float, float, float]
"""Left, top, right and bottom."""


@dataclass(frozen=True)
class Label:
    """What stands beside a mark."""

    words: str
    x: float
    y: float
    """The place of the mark."""
    side: int
    up: int
    """Where no rows are: -1 to the left and 1 to the right, -1 upwards and 1 downwards."""


@dataclass(frozen=True)
class Placed:
    """A label and the box in which it stands."""

    label: Label
    box: Box


def names_of(marks: Sequence[Mark], shown: str) -> list[str]:
    """The settings that labels have: those in which rows differ, but for the workload and what goes with it, for what colours
    show, and for one that always goes with another, as `cap` with `max`."""
    names = [name for name in marks[0].names if name not in (WORKLOAD, shown) and name not in own_settings(marks)]
    columns = {name: tuple(mark.value(name) for mark in marks) for name in names}
    return [name for place, name in enumerate(names) if columns[name] not in [columns[other] for other in names[place + 1 :]]]


def label_of(marks: Sequence[Mark], names: Sequence[str], place: tuple[float, float], side: int, up: int) -> Label:
    """The label of the marks of one place: their values of these settings."""
    values = [{mark.value(name) for mark in marks} for name in names]
    return Label(" / ".join(found.pop() if len(found) == 1 else SEVERAL for found in values), place[0], place[1], side, up)


def labels_placed(labels: Sequence[Label], others: Sequence[tuple[float, float]], frame: Box, steps: int) -> list[Placed]:
    """The labels for which there is room: none covers another one, or a mark. The other marks are at these places."""
    every = -(-len(labels) // MOST_LABELS)
    taken = [box_around(x, y) for x, y in [*((label.x, label.y) for label in labels), *others]]
    placed = []
    for label in labels[:: every or 1]:
        boxes = boxes_of(label, steps)
        box = next((box for box in boxes if label.words and within(box, frame) and not any(cross(box, other) for other in taken)), None)
        if box:
            taken.append(box)
            placed.append(Placed(label, box))
    return placed


def box_around(x: float, y: float) -> Box:
    return x - 4, y - 4, x + 4, y + 4


def boxes_of(label: Label, steps: int) -> Iterator[Box]:
    """The places of a label: further and further away from what the front beats, and then on the other sides."""
    width = LETTER * len(label.words)
    sides = ((label.side, label.up, steps), (-label.side, -label.up, FEW_STEPS), (label.side, -label.up, FEW_STEPS), (-label.side, label.up,
        FEW_STEPS))
    for side, up, count in sides:
        for step in range(count):
            for across, away in DIRECTIONS:
                near, middle = label.x + side * (NEAR + AWAY * across * step), label.y + up * (5 + AWAY * away * step)
                left = near - width if side < 0 else near
                yield left, middle - HEIGHT / 2, left + width, middle + HEIGHT / 2


def within(box: Box, frame: Box) -> bool:
    return box[0] >= frame[0] and box[1] >= frame[1] and box[2] <= frame[2] and box[3] <= frame[3]


def cross(one: Box, other: Box) -> bool:
    return one[0] < other[2] and other[0] < one[2] and one[1] < other[3] and other[1] < one[3]


def draw_labels(canvas: Canvas, placed: Sequence[Placed]) -> None:
    """The words, and a line to the mark where they do not stand right beside it."""
    for one in placed:
        label, (left, top, right, bottom) = one.label, one.box
        is_left = right < label.x
        near, middle = right if is_left else left, (top + bottom) / 2
        if abs(near - label.x) > NEAR + 1 or abs(middle - label.y) > NEAR:
            canvas.path(f"M{short(label.x)} {short(label.y)}L{short(near)} {short(middle)}", "waiting")
        canvas.text(near, middle + 4, label.words, "small over right" if is_left else "small over")
