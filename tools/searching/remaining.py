"""Says how far a search is, and how long it still takes."""
from __future__ import annotations

import time
from typing import Callable, TextIO

from tracing.progress import Progress


class Remaining:
    """Is told what rows there are to make, and how many were made. The time left is that of as many rows as it has seen."""

    def __init__(self, stream: TextIO, clock: Callable[[], float] = time.monotonic) -> None:
        self.progress = Progress(stream, clock)
        self.clock = clock
        self.since = clock()
        self.all = self.made = 0

    def begin(self, runs: int) -> None:
        """So many more have to be made."""
        self.all += runs

    def __call__(self, rows: int) -> None:
        """So many more were made."""
        self.made += rows
        left = (self.clock() - self.since) / self.made * (self.all - self.made)
        self.progress.say(f"{self.made} of {self.all} runs, {100 * self.made // self.all} %; {in_words(left)} left")

    def end(self) -> None:
        self.progress.end()


def in_words(seconds: float) -> str:
    """A time in the unit that fits it."""
    if seconds < 90:
        return f"{seconds:.0f} s"
    if seconds < 90 * 60:
        return f"{seconds / 60:.0f} min"
    return f"{seconds / 3600:.1f} h"
