"""Collects the elements of a picture. Lengths are in the picture's own units, 960 to its width."""
from __future__ import annotations

from xml.sax.saxutils import escape

from .grid import Columns, Rectangle
from .style import SLOT_COLOURS, style

WIDTH = 960.0
LEFT, RIGHT = 128.0, 806.0
"""Between these lies what is drawn over time; addresses stand left of them, sizes right of them."""
NAME = RIGHT + 10
"""Where the names at the right begin."""
LETTER = 5.6
"""About the width of a letter of small text."""


class Canvas:
    """The elements of a picture, in the order in which they are drawn."""

    def __init__(self) -> None:
        self.parts: list[str] = []

    def put(self, element: str) -> None:
        self.parts.append(element)

    def text(self, x: float, y: float, words: str, kind: str = "") -> None:
        self.put(f'<text x="{x:g}" y="{y:g}" class="{kind}">{escape(words)}</text>')

    def upwards(self, x: float, y: float, words: str, kind: str = "") -> None:
        """Text that reads from below."""
        self.put(f'<text x="{short(x)}" y="{short(y)}" class="{kind}" transform="rotate(-90 {short(x)} {short(y)})">{escape(words)}</text>')

    def rect(self, x: float, y: float, width: float, height: float, kind: str, hover: str = "") -> None:
        place = f'x="{short(x)}" y="{short(y)}" width="{short(width)}" height="{short(height)}" class="{kind}"'
        self.put(f"<rect {place}>{hover_of(hover)}</rect>" if hover else f"<rect {place}/>")

    def path(self, steps: str, kind: str, hover: str = "") -> None:
        place = f'class="{kind}" d="{steps}"'
        self.put(f"<path {place}>{hover_of(hover)}</path>" if hover else f"<path {place}/>")

    def document(self, height: float, title: str, theme: str) -> str:
        """The whole picture."""
        head = (
            f'<svg xmlns="http://www.w3.org/2000/svg" width="{WIDTH:g}" height="{height:g}" '
            f'viewBox="0 0 {WIDTH:g} {height:g}" role="img"><title>{escape(title)}</title>'
            f"<style>{style(theme)}</style><defs>{hatches()}</defs>"
            f'<rect class="paper" width="{WIDTH:g}" height="{height:g}"/>'
        )
        return head + "\n".join(self.parts) + "</svg>\n"


def hover_of(words: str) -> str:
    return f"<title>{escape(words)}</title>"


def hatches() -> str:
    """The patterns of what is not watched, and of the marks of schemes."""
    unwatched = (
        '<pattern id="unwatched" width="5" height="5" patternUnits="userSpaceOnUse" patternTransform="rotate(45)">'
        '<rect class="paper" width="5" height="5"/><rect class="blind" width="1.2" height="5"/></pattern>'
    )
    return unwatched + "".join(
        f'<pattern id="hatch{number}" width="6" height="6" patternUnits="userSpaceOnUse" '
        f'patternTransform="rotate({45 + 90 * (number % 2)})"><rect class="t{number}" width="1.6" height="6"/></pattern>'
        for number in range(SLOT_COLOURS)
    )


def x_of(tick: float, columns: Columns) -> float:
    """The place of a tick."""
    first, last = columns.edges[0], columns.edges[-1]
    return LEFT + (RIGHT - LEFT) * (tick - first) / (last - first)


def short(value: float) -> str:
    return f"{value:.1f}".removesuffix(".0")


def scaled_path(rectangles: list[Rectangle], xs: list[float], ys: list[float]) -> str:
    """Rectangles as one path, in units of the picture."""
    parts = []
    for column, row, width, height in rectangles:
        x, y = xs[column], ys[row + height]
        parts.append(f"M{short(x)} {short(y)}H{short(xs[column + width])}V{short(ys[row])}H{short(x)}z")
    return "".join(parts)
