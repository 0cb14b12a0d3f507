"""Reads traces of samples: what `perf script` writes of sampled addresses, and the plain form.

A line is one access, of the byte at its address. In the plain form it is `SECONDS ADDRESS`, such as
`12.000350 0x7f0000001000`. A line of `perf script` has a time with a colon, the name of the event with
a colon, and the address:

    sqlite3  4711   12.000350: cpu/mem-loads/P:     7f0000001000

What stands before the time, and a number before the event, do not matter. The time may be missing, and
the event too if the address ends the line. Lines that begin with `#` are no samples in either form.
"""
from __future__ import annotations

import re
from typing import Callable, Iterable, Iterator, NamedTuple

from units import PAGE_BITS, USER_END

from .accesses import Pages, Trace, TraceError, shown

NANOSECONDS = 9
"""The digits of a second that are kept."""
COMMENT = b"#"
PLAIN = re.compile(rb"([0-9]{1,10})(?:\.([0-9]{1,9}))?[ \t]+0x([0-9a-fA-F]{1,16})[ \t\r]*\n?")
PERF_TIME = re.compile(rb"(?:^|\s)([0-9]{1,10})\.([0-9]{6}|[0-9]{9}):(?=\s)")
PERF_EVENT = re.compile(rb"(?:^|\s)(?![0-9.]+:)\S+:\s+([0-9a-f]{1,16})(?=\s|$)\s*(\S*)")
PERF_ADDRESS = re.compile(rb"\s+([0-9a-f]{1,16})\s*")
BEHIND_ADDRESS = re.compile(rb"(?:[0-9a-f]+|\|.*)?")
"""What may follow the address: a number, or what perf says of the data. A name follows that of an instruction."""
FIELDS = "perf script -F comm,tid,time,event,addr"


class Sample(NamedTuple):
    """An access at an address."""

    time: int | None
    """In nanoseconds."""
    address: int


def plain_sample(line: bytes) -> Sample:
    """The sample of a line of the plain form. Raises TraceError."""
    if not (match := PLAIN.fullmatch(line)):
        raise TraceError(f"not SECONDS ADDRESS, such as 12.000350 0x7f0000001000: {shown(line)}")
    return Sample(nanoseconds(match[1], match[2] or b""), int(match[3], 16))


def perf_sample(line: bytes) -> Sample:
    """The sample of a line of `perf script`. Raises TraceError."""
    time = PERF_TIME.search(line)
    rest = line[time.end() :] if time else line
    event = PERF_EVENT.search(rest)
    address = event or (PERF_ADDRESS.fullmatch(rest) if time else None)
    if not address:
        raise TraceError(f"not a line of perf script with an event and an address (use {FIELDS}): {shown(line)}")
    if event and not BEHIND_ADDRESS.fullmatch(event[2]):
        raise TraceError(f"a name follows the address, which may be that of an instruction (use {FIELDS}): {shown(line)}")
    return Sample(nanoseconds(time[1], time[2]) if time else None, int(address[1], 16))


def nanoseconds(seconds: bytes, part: bytes) -> int:
    return int(seconds + part.ljust(NANOSECONDS, b"0"))


class Samples(Trace):
    """The accesses of a trace of samples."""

    def __init__(
        self,
        stream: Iterable[bytes],
        form: str,
        *,
        timed: bool = False,
        progress: Callable[[int], None] = lambda lines: None,
    ) -> None:
        """With `timed` the time of each access, in nanoseconds, stands before its page."""
        super().__init__(stream, progress)
        self.form = form
        self.decode = SAMPLES[form]
        self.timed = timed
        self.latest = 0
        self.beyond_end = 0
        self.unknown = 0

    @property
    def beyond(self) -> int:
        return self.beyond_end

    @property
    def without_address(self) -> int:
        return self.unknown

    def accesses_of(self, batch: list[bytes]) -> Iterator[Pages]:
        for number, line in enumerate(batch, self.lines + 1):
            if line.startswith(COMMENT):
                continue
            try:
                sample = self.decode(line)
                self.check_time(sample)
            except TraceError as error:
                raise TraceError(f"line {number}: {error}") from None
            if sample.address == 0:
                self.unknown += 1
            elif sample.address >= USER_END:
                self.beyond_end += 1
            else:
                page = sample.address >> PAGE_BITS
                yield (self.latest, page) if self.timed else (page,)

    def check_time(self, sample: Sample) -> None:
        """Raises TraceError if times are needed and there is none, or if it is before that of the sample before."""
        if sample.time is None:
            if self.timed:
                raise TraceError(f"no time: use --clock accesses, or {FIELDS}")
            return
        if sample.time < self.latest:
            raise TraceError(f"its time is before {in_seconds(self.latest)}, that of the sample before: sort the trace by time")
        self.latest = sample.time

    def is_malformed(self, line: bytes) -> bool:
        try:
            return not line.startswith(COMMENT) and not self.decode(line)
        except TraceError:
            return True


def in_seconds(time: int) -> str:
    return f"{time // 10**NANOSECONDS}.{time % 10**NANOSECONDS:09}"


SAMPLES: dict[str, Callable[[bytes], Sample]] = {"perf": perf_sample, "plain": plain_sample}
"""What reads a line of each form."""
