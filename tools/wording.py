"""Words for sentences, and lines for tables."""
from __future__ import annotations

from typing import Collection, Iterable, Sequence


def counted(number: int, noun: str) -> str:
    """A number with its noun: 1 page, 2 pages."""
    return f"{number} {noun}{'' if number == 1 else 's'}"


def listed(words: tuple[str, ...]) -> str:
    """Words as a list: a, b or c."""
    return words[0] if len(words) == 1 else ", ".join(words[:-1]) + " or " + words[-1]


def size_words(count: int) -> str:
    """A number of bytes in words."""
    for unit, name in ((1 << 30, "GiB"), (1 << 20, "MiB"), (1 << 10, "KiB")):
        if count >= unit:
            return f"{count / unit:.3g} {name}" if count < 1000 * unit else f"{count // unit} {name}"
    return f"{count} bytes"


def aligned(rows: Iterable[Sequence[str]], words: Collection[int] = (0,)) -> list[str]:
    """Rows as lines: the columns of words to the left, and all others to the right."""
    table = list(rows)
    widths = [max(map(len, column)) for column in zip(*table)]
    return ["  ".join(cell.ljust(width) if number in words else cell.rjust(width)
                      for number, (cell, width) in enumerate(zip(row, widths))).rstrip() for row in table]
