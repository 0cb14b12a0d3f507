"""Reads the trace that `valgrind --tool=lackey --trace-mem=yes` writes.

A line of it is one access: `I  04016d80,3` fetches an instruction of 3 bytes, ` L` is a load, ` S` a
store, and ` M` a modify, which is a load and a store of the same bytes. Lines of valgrind itself begin
with `==`, `--` or `**`. The fetch of an instruction comes before its loads and stores.
"""
from __future__ import annotations

import re
from typing import Callable, Iterable, Iterator

from units import PAGE_BITS, USER_END

from .accesses import Pages, Trace, TraceError, shown

LONGEST_ACCESS = 1 << 20
"""The most bytes of one access; lackey itself writes at most some hundred."""

LINE = re.compile(rb"(I | [LSM]) ([0-9a-fA-F]{1,16}),([0-9]{1,7})\r?\n?")
FETCH = b"I"
OWN_LINES = (b"==", b"--", b"**")
MOST_KEPT = 1 << 20

KINDS = {"loads": b"LM", "stores": b"SM", "fetches": FETCH}
"""The letters of the lines that belong to each choice. A modify is both a load and a store."""

INSTRUCTION = -1
"""Stands before the pages of a line that fetches an instruction, where instructions are counted."""


class BeyondError(TraceError):
    """An access at an address that is not below 2^47, such as one of the kernel's vsyscall page."""


class Decoder(dict[bytes, Pages]):
    """Gives for a line the numbers of the pages that its access touches; none if it is not chosen.

    It keeps the answers, because the loops of a program repeat their lines.
    """

    def __init__(self, letters: bytes, instructions: bool) -> None:
        super().__init__()
        self.letters = letters
        self.instructions = instructions
        self.beyond = 0

    def __missing__(self, line: bytes) -> Pages:
        mark = (INSTRUCTION,) if self.instructions and line.startswith(FETCH) else ()
        try:
            pages = mark + decode(line, self.letters)
        except BeyondError:
            # It is not kept, so that each such access is counted.
            self.beyond += 1
            return mark
        self[line] = pages
        return pages


def decode(line: bytes, letters: bytes) -> Pages:
    """The pages of one line, by number; none if its letter is not in `letters`.

    Raises TraceError if the line is neither an access nor one of valgrind's own, and BeyondError if the
    access is chosen and beyond the end of user space.
    """
    match = LINE.fullmatch(line)
    if not match:
        if line.startswith(OWN_LINES):
            return ()
        raise TraceError(f"not a line of lackey: {shown(line)}")
    letter, first, size = match[1].strip(), int(match[2], 16), int(match[3])
    if not 1 <= size <= LONGEST_ACCESS:
        raise TraceError(f"an access of {size} bytes: {shown(line)}")
    return pages_of(line, first, size) if letter in letters else ()


def pages_of(line: bytes, first: int, size: int) -> Pages:
    """The pages of an access of `size` bytes, by number. Raises TraceError, and BeyondError as `decode` does."""
    if not 1 <= size <= LONGEST_ACCESS:
        raise TraceError(f"an access of {size} bytes: {shown(line)}")
    if first + size > USER_END:
        raise BeyondError(f"an address that is not below 2^47: {shown(line)}")
    return tuple(range(first >> PAGE_BITS, ((first + size - 1) >> PAGE_BITS) + 1))


class LackeyTrace(Trace):
    """The accesses of the chosen kinds."""

    form = "lackey"

    def __init__(
        self,
        stream: Iterable[bytes],
        letters: bytes,
        *,
        instructions: bool = False,
        progress: Callable[[int], None] = lambda lines: None,
    ) -> None:
        """With `instructions` each fetch also gives a mark."""
        super().__init__(stream, progress)
        self.decoder = Decoder(letters, instructions)

    @property
    def beyond(self) -> int:
        return self.decoder.beyond

    def accesses_of(self, batch: list[bytes]) -> Iterator[Pages]:
        try:
            yield from filter(None, map(self.decoder.__getitem__, batch))
        except TraceError as error:
            raise TraceError(f"line {self.lines + self.faulty_line(batch)}: {error}") from None
        if len(self.decoder) > MOST_KEPT:
            self.decoder.clear()

    def faulty_line(self, batch: list[bytes]) -> int:
        """The number of the first malformed line of a batch, counted from 1."""
        return 1 + next(number for number, line in enumerate(batch) if self.is_malformed(line))

    def is_malformed(self, line: bytes) -> bool:
        try:
            decode(line, b"")
        except TraceError:
            return True
        return False
