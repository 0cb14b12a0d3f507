"""Finds the shortest sampling interval for which a script holds its limits."""
from __future__ import annotations

from typing import Callable, Iterator

from scripts.grammar import MOST_BYTES, MOST_WORK

from .areas import Area
from .intervals import Recording, Runs, joined
from .script import LimitError, Settings, Writer, pass_work, write_script

FINER = 4
"""How many times more than fits in a script is collected, so that the interval can be chosen finely."""
RUN_BYTES = len("touch 0 0x1000\n")


def too_much_to_fit(cap: int) -> Callable[[Recording], bool]:
    """Says of a recording that it has more than is needed to choose the interval."""

    def too_much(recording: Recording) -> bool:
        return (
            len(recording.intervals) * pass_work(cap) > FINER * MOST_WORK
            or recording.runs * RUN_BYTES > FINER * MOST_BYTES
        )

    return too_much


def too_much_at_all(cap: int, length: int) -> Callable[[Recording], bool]:
    """Raises LimitError as soon as `arm` and `finish` alone break the limit of the work."""

    def too_much(recording: Recording) -> bool:
        if len(recording.intervals) * pass_work(cap) > MOST_WORK:
            raise LimitError(
                f"the work of a script is at most {MOST_WORK}, and {len(recording.intervals)} intervals of {length} "
                "need more: use --fit, a larger --interval or a smaller --cap"
            )
        return False

    return too_much


def fitted(areas: list[Area], recording: Recording, settings: Settings) -> tuple[int, Writer]:
    """The shortest interval that fits, as a multiple of the recording's, and its script."""

    def attempt(count: int) -> Writer | None:
        intervals: Iterator[Runs] = joined(recording.intervals, count)
        try:
            return write_script(areas, intervals, settings)
        except LimitError:
            return None

    high, best = 1, attempt(1)
    while best is None:
        if high >= len(recording.intervals):
            raise LimitError("no interval fits the limits of a script: use a smaller --cap, or fewer --at and --metric")
        high *= 2
        best = attempt(high)
    low = high // 2
    while high - low > 1:
        middle = (low + high) // 2
        if tried := attempt(middle):
            high, best = middle, tried
        else:
            low = middle
    return high * recording.length, best
