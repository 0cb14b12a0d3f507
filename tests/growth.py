#!/usr/bin/env python3
"""Draws the table of times by size that docs/PERFORMANCE.md has, of figures of `tests/measure.py`.

    tests/growth.py docs/PERFORMANCE.md > docs/pictures/growth.svg

Size and time are parts of those of the greatest size, on logarithmic scales, so what grows linearly is parallel to the
dashed line. The time of the row `start`, which is a run with nothing to do, is taken off first.
"""
from __future__ import annotations

import argparse
import re
import sys
from dataclasses import dataclass
from math import log10
from pathlib import Path

sys.path.insert(0, str(Path(__file__).resolve().parent.parent / "tools"))

from drawing.canvas import Canvas, short

HEAD = "| workload | the size is |"
START = "start"
SIZE = re.compile(r"[\d,]+")
TIME = re.compile(r"([\d.]+) ms")
LEFT, RIGHT, TOP, BOTTOM = 160.0, 860.0, 56.0, 500.0
POWERS = 2.4
"""How many powers of ten the axis of times has; that of sizes has two."""
LINE = 14.0
"""The least distance of two labels."""
COLOURS = 4


@dataclass(frozen=True)
class Growth:
    """The times of a workload, the greatest size first, as parts of it and of its time."""

    name: str
    places: list[tuple[float, float]]


def rows_of(page: str) -> list[list[str]]:
    """The cells of the rows of the table."""
    lines = page[page.index(HEAD):].splitlines()[2:]
    count = next((number for number, line in enumerate(lines) if not line.startswith("|")), len(lines))
    return [[cell.strip() for cell in line.strip("|").split("|")] for line in lines[:count]]


def growths_of(page: str) -> list[Growth]:
    """What the table of a page says, less the time of its row `start`; a workload that takes hardly longer than that is left out."""
    rows = rows_of(page)
    start = next(milliseconds(cell) for row in rows if row[0] == START for cell in row if TIME.fullmatch(cell))
    found = []
    for name, _, *cells in rows:
        pairs = [(int(size.replace(",", "")), milliseconds(time) - start) for size, time in zip(cells[::2], cells[1::2]) if SIZE.fullmatch(size)]
        if len(pairs) > 1 and all(time > 0 for _, time in pairs):
            most_size, most_time = pairs[0]
            found.append(Growth(name, [(size / most_size, time / most_time) for size, time in pairs]))
    return found


def milliseconds(cell: str) -> float:
    match = TIME.fullmatch(cell)
    if match is None:
        raise ValueError(f"not a time: {cell!r}")
    return float(match[1])


def x_of(size: float) -> float:
    return RIGHT + (RIGHT - LEFT) * log10(size) / 2


def y_of(time: float) -> float:
    return min(BOTTOM, TOP - (BOTTOM - TOP) * log10(time) / POWERS)


def picture(growths: list[Growth], theme: str) -> str:
    canvas = Canvas()
    title = "Time and size, as parts of those of the greatest size"
    canvas.text(LEFT, 32, title, "title")
    canvas.rect(LEFT, TOP, RIGHT - LEFT, BOTTOM - TOP, "panel")
    draw_axes(canvas)
    canvas.path(f"M{short(RIGHT)} {short(TOP)}L{short(LEFT)} {short(y_of(0.01))}", "commit", "linear growth")
    for number, found in enumerate(growths):
        points = [(x_of(size), y_of(time)) for size, time in found.places]
        steps = "L".join(f"{short(x)} {short(y)}" for x, y in points)
        canvas.path(f"M{steps}", f"mark s{number % COLOURS}", found.name)
    draw_names(canvas, growths)
    return canvas.document(BOTTOM + 56, title, theme)


def draw_axes(canvas: Canvas) -> None:
    for power, part in enumerate(("1", "1/10", "1/100")):
        x, y = x_of(10.0**-power), y_of(10.0**-power)
        canvas.path(f"M{short(LEFT)} {short(y)}H{short(RIGHT)}M{short(x)} {short(TOP)}V{short(BOTTOM + 5)}", "frame")
        canvas.text(RIGHT + 8, y + 4, part, "small soft")
        canvas.text(x, BOTTOM + 18, part, "small middle soft")
    canvas.text((LEFT + RIGHT) / 2, BOTTOM + 38, "size, as a part of the greatest", "small middle")
    canvas.upwards(RIGHT + 62, (TOP + BOTTOM) / 2, "time less the start, as a part of that of the greatest size", "small middle")


def draw_names(canvas: Canvas, growths: list[Growth]) -> None:
    """A name for the end of each line: left of the picture for those that end there, else beside the end."""
    ends = sorted((y_of(found.places[-1][1]), x_of(found.places[-1][0]), number) for number, found in enumerate(growths))
    below = TOP - LINE
    spare = LINE * len(ends)
    for y, x, number in ends:
        spare -= LINE
        below = max(below + LINE, min(y, BOTTOM - spare))
        canvas.path(f"M{short(x)} {short(y)}L{short(LEFT - 26)} {short(below)}", f"waiting s{number % COLOURS}")
        canvas.text(LEFT - 30, below + 4, growths[number].name, "small right")


def main() -> None:
    parser = argparse.ArgumentParser(description="Draws the table of times by size of a page.")
    parser.add_argument("page", help="the page, or what `tests/measure.py --growth` printed")
    parser.add_argument("--theme", choices=("auto", "light", "dark"), default="auto")
    words = parser.parse_args()
    sys.stdout.write(picture(growths_of(Path(words.page).read_text()), words.theme))


if __name__ == "__main__":
    main()
