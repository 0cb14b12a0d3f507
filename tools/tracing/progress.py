"""Says during long work how far it is."""
from __future__ import annotations

import time
from typing import Callable, TextIO

SECONDS_ON_TERMINAL = 1.0
SECONDS_IN_LOG = 30.0
BACK_TO_START = "\r\x1b[K"
"""Moves to the start of a terminal's line and clears it."""


class Progress:
    """On a terminal one line that changes; elsewhere a plain line every half minute."""

    def __init__(self, stream: TextIO, clock: Callable[[], float] = time.monotonic) -> None:
        self.stream = stream
        self.clock = clock
        self.on_terminal = stream.isatty()
        self.seconds = SECONDS_ON_TERMINAL if self.on_terminal else SECONDS_IN_LOG
        self.said_at = clock()
        self.is_shown = False

    def __call__(self, lines: int) -> None:
        """Is told how many lines were read so far."""
        self.say(f"{lines / 1e6:.1f} million lines read")

    def say(self, text: str) -> None:
        """Says this if the last word is long enough ago."""
        now = self.clock()
        if now - self.said_at < self.seconds:
            return
        self.said_at = now
        self.stream.write(BACK_TO_START + text if self.on_terminal else f"note: {text}\n")
        self.stream.flush()
        self.is_shown = self.on_terminal

    def end(self) -> None:
        """Clears the line of a terminal, so that other messages stand alone."""
        if self.is_shown:
            self.stream.write(BACK_TO_START)
            self.stream.flush()
