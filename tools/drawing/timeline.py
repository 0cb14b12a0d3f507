"""The strip beneath the panels: when commits and metrics came, and when slots were active."""
from __future__ import annotations

from itertools import groupby

from .canvas import LEFT, LETTER, NAME, RIGHT, Canvas, short, x_of
from .grid import Columns
from .history import Change, History, Slot
from .panels import applied_slots
from .style import SLOT_COLOURS

ROW = 15.0
"""The height of the row of commits, and of the row of each slot."""
GAP = 10.0
BAR = 7.0


def height_of(history: History) -> float:
    """The height of the strip with its gap; 0 if there is nothing to say."""
    rows = bool(history.changes or history.later) + len(history.slots)
    return GAP + ROW * rows if rows else 0.0


def draw_timeline(canvas: Canvas, history: History, columns: Columns, top: float) -> None:
    """Draws the rows from top to bottom."""
    top += GAP
    if history.changes or history.later:
        draw_changes(canvas, history.changes, columns, top)
        if history.later:
            canvas.text(NAME + 40, top + 11, f"and {history.later} later", "small soft")
        top += ROW
    applied = applied_slots(history)
    for number, slot in history.slots.items():
        colour = applied.index(number) % SLOT_COLOURS if number in applied else None
        draw_slot(canvas, number, slot, columns, top, colour)
        top += ROW


def draw_lines(canvas: Canvas, history: History, columns: Columns, top: float, bottom: float) -> None:
    """A thin line through the picture at each commit that was accepted and is more than a metric."""
    places = {short(x_of(change.tick, columns)) for change in history.changes if change.is_line}
    for x in sorted(places, key=float):
        canvas.path(f"M{x} {short(top)}V{short(bottom)}", "commit")


def draw_changes(canvas: Canvas, changes: list[Change], columns: Columns, top: float) -> None:
    """A mark for each commit, with what it says where there is room for it."""
    canvas.text(LEFT - 8, top + 11, "commits", "small right soft")
    canvas.path(f"M{short(LEFT)} {short(top + ROW / 2)}H{short(RIGHT)}", "frame")
    groups = [(x_of(tick, columns), list(found)) for tick, found in groupby(changes, key=lambda change: change.tick)]
    for (x, found), after in zip(groups, [x for x, _ in groups[1:]] + [NAME + 40]):
        for change in found:
            draw_change(canvas, change, x, top + ROW / 2)
        if words := fitting([words for change in found for words in words_of(change)], after - x - 12):
            canvas.text(x + 6, top + 11, words, "small over")


def fitting(words: list[str], width: float) -> str:
    """As many of the words as fit between two marks, with two dots for those that do not."""
    for count in range(len(words), 0, -1):
        text = ", ".join(words[:count]) + " .." * (count < len(words))
        if LETTER * len(text) <= width:
            return text
    return ""


def draw_change(canvas: Canvas, change: Change, x: float, y: float) -> None:
    """A triangle for a metric, a bar for what else was accepted, and a cross for a commit that was refused."""
    hover = f"tick {change.tick}: {', '.join(change.parts) or 'commit'}: {change.answer}"
    if not change.accepted:
        canvas.path(f"M{short(x - 3)} {short(y - 3)}l6 6m0 -6l-6 6", "cross", hover)
        return
    if change.has_metric:
        canvas.path(f"M{short(x - 4)} {short(y - 5)}h8l-4 9z", "dot", hover)
    if change.has_more:
        canvas.rect(x - 1.5, y - 6, 3, 12, "dot", hover)


def words_of(change: Change) -> list[str]:
    """The parts of a commit by their first words, with the number of a slot or a metric."""
    words = []
    for part in change.parts:
        first, *rest = part.split()
        word = f"{first} {rest[0]}" if first in ("metric", "scheme", "drop") and rest else first
        if word not in words:
            words.append(word)
    if not change.accepted:
        words = [" + ".join(words) + " refused"]
    return words


def draw_slot(canvas: Canvas, number: int, slot: Slot, columns: Columns, top: float, colour: int | None) -> None:
    """A line while a slot is set, and a bar on it while it is active; the bar ends where it became inactive."""
    canvas.text(LEFT - 8, top + 11, f"slot {number} active", "small right soft")
    canvas.text(NAME, top + 11, slot.action, "small soft")
    middle = top + ROW / 2
    for span in slot.spans:
        start, end = x_of(span.start, columns), x_of(span.end, columns)
        hover = f"slot {number}: {'active' if span.active else 'inactive'} from tick {span.start} to {span.end}"
        if span.active:
            canvas.rect(start, middle - BAR / 2, end - start, BAR, "dot" if colour is None else f"t{colour}", hover)
        else:
            canvas.path(f"M{short(start)} {short(middle)}H{short(end)}", "waiting", hover)
