"""What all forms of traces share: accesses as numbers of pages, and the reading of lines."""
from __future__ import annotations

from itertools import islice
from typing import Callable, Iterable, Iterator, NamedTuple

BATCH = 1 << 16

Pages = tuple[int, ...]
"""The pages of an access. Where a clock needs more, that stands before them: a mark, or a time."""


class TraceError(Exception):
    """A line of the trace that is no access."""


def shown(line: bytes) -> str:
    """The line as one short text for a message."""
    return ascii(line[:60].decode("latin-1").rstrip("\r\n"))


class Origin(NamedTuple):
    """How a trace was read, and what is not in its intervals."""

    form: str
    clock: str
    """What is counted: `accesses`, `instructions` or `microseconds`."""
    kinds: list[str]
    """Which accesses were taken; empty where the form does not say it."""
    hash: str
    """The SHA-256 of the file of the trace, or of what came on standard input."""
    beyond: int
    without_address: int
    cut: str | None
    ended: str
    """Why the trace is not whole; empty if it is."""


class Trace:
    """The pages of each chosen access of a trace, in order, and what was left out of it."""

    form = ""
    """What the form of the trace is called."""

    def __init__(self, stream: Iterable[bytes], progress: Callable[[int], None] = lambda lines: None) -> None:
        """`progress` is told the lines read so far, now and then."""
        self.stream = iter(stream)
        self.progress = progress
        self.lines = 0
        self.cut: str | None = None
        """The last line, if it was cut off and is no access."""

    @property
    def beyond(self) -> int:
        """The chosen accesses at addresses that are not below 2^47; they are left out."""
        return 0

    @property
    def without_address(self) -> int:
        """The samples that say no address; they are left out."""
        return 0

    def __iter__(self) -> Iterator[Pages]:
        """Raises TraceError with the number of the line, counted from 1, for the first malformed one."""
        while batch := list(islice(self.stream, BATCH)):
            self.leave_out_cut_line(batch)
            yield from self.accesses_of(batch)
            self.lines += len(batch)
            self.progress(self.lines)

    def accesses_of(self, batch: list[bytes]) -> Iterator[Pages]:
        """Those of some lines; `lines` counts the lines before them. Raises TraceError."""
        raise NotImplementedError

    def is_malformed(self, line: bytes) -> bool:
        raise NotImplementedError

    def leave_out_cut_line(self, batch: list[bytes]) -> None:
        """Only the last line of a trace can lack its LF; a program that was killed leaves such a line."""
        if not batch[-1].endswith(b"\n") and self.is_malformed(batch[-1]):
            self.cut = shown(batch.pop())
