"""Reads what two other tools print of each access of a program.

DynamoRIO's view of a memtrace has a line for each record: its number, that of its instruction, the thread, and

    read         8 byte(s) @ 0x00007ffef4ad1ea8 by PC 0x00007f8c4c9e7103

or `write`, or `ifetch` for an instruction, which comes before its loads and stores. Older versions have `T` and the
thread alone before that. Records in `<` and `>`, and the lines before and behind all records, are no accesses.

Pin's pinatrace has the address of the instruction, R or W, and the address: `0x40001ee0: R 0xbfffe798`. It says no size,
so an access is one of the byte there. Its last line is `#eof`.
"""
from __future__ import annotations

import re
from typing import Callable, Iterable, Iterator, NamedTuple

from .accesses import Pages, Trace, TraceError, shown
from .lackey import FETCH, INSTRUCTION, BeyondError, pages_of

MEMTRACE, PINATRACE = "memtrace", "pinatrace"
RECORD = re.compile(rb"(?:T?[0-9]+|[0-9]+\s+[0-9]+:\s+[0-9]+)\s+([a-z][a-zA-Z0-9_-]*)\s+([0-9]{1,7}) byte\(s\) @ 0x([0-9a-f]{1,16})(?:\s.*)?")
OTHER_RECORD = re.compile(rb"(?:T?[0-9]+|[0-9]+\s+[0-9]+:\s+[0-9]+)\s+<.*>")
AROUND = re.compile(rb"Output format:|<--record#->.*|-+|View tool results:|[0-9]+ : total .*")
"""The lines before and behind all records."""
PIN_LINE = re.compile(rb"0x[0-9a-f]{1,16}: ([RW]) 0x([0-9a-f]{1,16})\s*")
LETTERS = {b"read": b"L", b"write": b"S", b"ifetch": FETCH, b"R": b"L", b"W": b"S"}
"""The kinds of records that are accesses, as lackey names them. Others, such as prefetches, touch nothing."""


class Access(NamedTuple):
    """The bytes that a line touches."""

    letter: bytes
    first: int
    size: int


def memtrace_access(line: bytes) -> Access | None:
    """That of a line of a memtrace view, if it is one. Raises TraceError."""
    text = line.strip()
    if match := RECORD.fullmatch(text):
        letter = LETTERS.get(match[1])
        return Access(letter, int(match[3], 16), int(match[2])) if letter else None
    if OTHER_RECORD.fullmatch(text) or AROUND.fullmatch(text):
        return None
    raise TraceError(f"not a line of a memtrace view: {shown(line)}")


def pinatrace_access(line: bytes) -> Access | None:
    """That of a line of pinatrace, if it is one. Raises TraceError."""
    if match := PIN_LINE.fullmatch(line):
        return Access(LETTERS[match[1]], int(match[2], 16), 1)
    if line.startswith(b"#"):
        return None
    raise TraceError(f"not a line of pinatrace: {shown(line)}")


INSTRUMENTED: dict[str, Callable[[bytes], Access | None]] = {MEMTRACE: memtrace_access, PINATRACE: pinatrace_access}
"""What reads a line of each form."""


class InstrumentedTrace(Trace):
    """The accesses of the chosen kinds."""

    def __init__(
        self,
        stream: Iterable[bytes],
        form: str,
        letters: bytes,
        *,
        instructions: bool = False,
        progress: Callable[[int], None] = lambda lines: None,
    ) -> None:
        """With `instructions` each one also gives a mark."""
        super().__init__(stream, progress)
        self.form = form
        self.decode = INSTRUMENTED[form]
        self.letters = letters
        self.instructions = instructions
        self.beyond_end = 0

    @property
    def beyond(self) -> int:
        return self.beyond_end

    def accesses_of(self, batch: list[bytes]) -> Iterator[Pages]:
        for number, line in enumerate(batch, self.lines + 1):
            try:
                access = self.decode(line)
                if access is None:
                    continue
                mark = (INSTRUCTION,) if self.instructions and access.letter == FETCH else ()
                try:
                    pages = mark + (pages_of(line, access.first, access.size) if access.letter in self.letters else ())
                except BeyondError:
                    self.beyond_end += 1
                    pages = mark
            except TraceError as error:
                raise TraceError(f"line {number}: {error}") from None
            if pages:
                yield pages

    def is_malformed(self, line: bytes) -> bool:
        try:
            self.decode(line)
        except TraceError:
            return True
        return False
