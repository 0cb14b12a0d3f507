"""The bytes of a trace, which may come from a program that still runs, or from an archive that ends early."""
from __future__ import annotations

import hashlib
import io
import os
import select
import signal
from types import FrameType
from typing import BinaryIO, Self

CHUNK = 1 << 20
INTERRUPTED = "the reading was stopped by an interrupt; the program that writes the trace may go on until it is ended by its number"
CUT_ARCHIVE = "the archive of the trace is cut off: what it has was taken"


class Interrupt:
    """While it is entered, the first interrupt of the user ends the reading, and not the tool. The next one ends the tool."""

    def __init__(self) -> None:
        self.came = False

    def __enter__(self) -> Self:
        self.woken, self.waking = os.pipe()
        os.set_blocking(self.waking, False)
        self.heard_before = signal.set_wakeup_fd(self.waking, warn_on_full_buffer=False)
        self.handler = signal.getsignal(signal.SIGINT)
        # Where a shell in the background has the signal ignored, it stays so.
        if self.handler is signal.default_int_handler:
            signal.signal(signal.SIGINT, self.come)
        return self

    def __exit__(self, *error: object) -> None:
        signal.signal(signal.SIGINT, self.handler)
        signal.set_wakeup_fd(self.heard_before)
        os.close(self.waking)
        os.close(self.woken)

    def come(self, number: int, frame: FrameType | None) -> None:
        self.came = True
        signal.signal(signal.SIGINT, signal.default_int_handler)

    def waits_for(self, stream: BinaryIO) -> bool:
        """Waits until the stream can be read or an interrupt comes. Says whether none has come."""
        while not self.came and stream not in (ready := select.select([stream, self.woken], [], [])[0]):
            if self.woken in ready:
                os.read(self.woken, 1)
        return not self.came


class Source(io.RawIOBase):
    """What a stream gives until it ends, is cut off, or an interrupt comes."""

    def __init__(self, stream: BinaryIO, interrupt: Interrupt | None) -> None:
        super().__init__()
        self.stream = stream
        self.interrupt = interrupt
        self.hash = hashlib.sha256()
        self.ended = ""
        """Why the trace is not whole; empty if it is."""

    def readable(self) -> bool:
        return True

    def readinto(self, buffer: memoryview) -> int:  # type: ignore[override]
        if self.interrupt and not self.interrupt.waits_for(self.stream):
            self.ended = INTERRUPTED
            return 0
        try:
            some: bytes = self.stream.read1(len(buffer))  # type: ignore[attr-defined]
        except EOFError:
            self.ended = CUT_ARCHIVE
            return 0
        buffer[: len(some)] = some
        self.hash.update(some)
        return len(some)

    def lines(self) -> io.BufferedReader:
        return io.BufferedReader(self, CHUNK)
