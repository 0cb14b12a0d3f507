"""The title, the scale of colours, and the marks of slots, of what is not watched and of commits."""
from __future__ import annotations

from wording import counted

from .canvas import LEFT, LETTER, RIGHT, Canvas, short
from .grid import AGAIN, LEVELS
from .history import History
from .panels import applied_slots
from .style import SLOT_COLOURS

TITLE, SCALE, NOTES = 26.0, 44.0, 62.0
"""The tops of the lines."""
STEP, HEIGHT = 20.0, 11.0
LINE = 16.0
"""From a line of marks to the next one."""
SPACE = 26.0
"""Between the lines of marks and what is beneath them, in which the addresses have their title."""
WIDTH = RIGHT + 140 - LEFT
"""The room of a line of marks."""
SHARE = "share of samples in which it was found accessed:"
NEVER, ALWAYS = "never", "always"
UNWATCHED, COMMIT, OUT = "not watched", "commit", "it was out already"


def height_of_legend(history: History) -> float:
    """Where the panels begin: beneath as many lines of marks as there may be."""
    widths = [width_of(words) for words in (OUT, UNWATCHED, COMMIT, *slot_words(history))]
    return NOTES + LINE * (1 + max(line for line, _ in places_of(widths))) + SPACE


def width_of(words: str) -> float:
    """The room of a mark with its words."""
    return 24 + LETTER * len(words) + 18


def places_of(widths: list[float]) -> list[tuple[int, float]]:
    """The line and the left side of each mark, one beside the other as far as a line has room."""
    places, line, left = [], 0, 0.0
    for width in widths:
        if left and left + width > WIDTH:
            line, left = line + 1, 0.0
        places.append((line, LEFT + left))
        left += width
    return places


def draw_legend(canvas: Canvas, history: History, title: str, unwatched: bool, lines: bool) -> None:
    """`unwatched` and `lines` say whether these marks occur."""
    canvas.text(LEFT, TITLE, title, "title")
    draw_scale(canvas, SHARE, NEVER, ALWAYS)
    again = any(run.action == AGAIN for snapshot in history.snapshots for run in snapshot.applied)
    words = [*slot_words(history), *[OUT] * again, *[UNWATCHED] * unwatched, *[COMMIT] * lines]
    for number, (text, (line, x)) in enumerate(zip(words, places_of([width_of(text) for text in words]))):
        y = NOTES + LINE * line
        if text == COMMIT:
            canvas.path(f"M{short(x + 9)} {short(y)}v{short(HEIGHT)}", "commit")
        else:
            pattern, kind = ("unwatched", "frame") if text == UNWATCHED else (f"hatch{number}", f"mark s{number}")
            fill = "fill"
            if text == OUT:
                pattern, kind, fill = "hatch0", "mark s0 faint", 'class="faint" fill'
            canvas.put(f'<rect x="{short(x)}" y="{short(y)}" width="18" height="{short(HEIGHT)}" {fill}="url(#{pattern})"/>')
            canvas.rect(x, y, 18, HEIGHT, kind)
        canvas.text(x + 24, y + 9, text, "small")
    canvas.text(LEFT - 8, height_of_legend(history) - 8, "addresses", "small right soft")


def draw_scale(canvas: Canvas, name: str, least: str, most: str) -> None:
    """The colours of what has this name, from the least to the most."""
    left = LEFT + LETTER * (len(name) + len(least) + 2)
    canvas.text(LEFT, SCALE + 9, f"{name}  {least}", "small soft")
    canvas.rect(left, SCALE, STEP, HEIGHT, "panel")
    for number in range(LEVELS):
        canvas.rect(left + STEP * (number + 1), SCALE, STEP, HEIGHT, f"h{number + 1} crisp",
                    f"{number / LEVELS:.2f} to {(number + 1) / LEVELS:.2f}")
    canvas.rect(left, SCALE, STEP * (LEVELS + 1), HEIGHT, "frame")
    canvas.text(left + STEP * (LEVELS + 1) + 6, SCALE + 9, most, "small soft")


def slot_words(history: History) -> list[str]:
    """What stands beside the marks of slots with their pages; slots that share a colour share an entry."""
    applied = applied_slots(history)
    found = []
    for colour in range(min(SLOT_COLOURS, len(applied))):
        same = applied[colour::SLOT_COLOURS]
        names = ", ".join(map(str, same)) if len(same) > 1 else f"{same[0]} {history.slots[same[0]].action}"
        counts = " and ".join(counted(history.slots[slot].applied, "page") for slot in same)
        found.append(f"slot{'s' * (len(same) > 1)} {names}: {counts}")
    return found
