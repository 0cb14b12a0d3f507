"""A trace that was read once: its intervals and pages in a small file, which tools take in place of the trace.

The first line is `damon trace 2`, the second the SHA-256 of all behind it. Then come a line of JSON, which says how the
trace was read, and numbers of 64 bits, the lowest byte first, in one block of xz: the runs of each interval; their
first pages and the pages after them; the pages with accesses; the accesses of each; the pages that only the end of an
access touched.
"""
from __future__ import annotations

import hashlib
import json
import lzma
import sys
from array import array
from collections import Counter
from itertools import accumulate, pairwise
from pathlib import Path
from typing import Any, NamedTuple

from common import UsageError, whole_file

from .accesses import Origin
from .intervals import Recording, Runs

START = b"damon trace "
HEADER = START + b"2\n"
NUMBER = "Q"
BYTES = 8


class Kept(NamedTuple):
    """A trace as it was read."""

    origin: Origin
    recording: Recording


def is_kept(path: str | Path) -> bool:
    """Whether a file is a kept trace, perhaps of an older version. What cannot be read is none."""
    try:
        with open(path, "rb") as stream:
            return stream.read(len(START)) == START
    except OSError:
        return False


def keep(path: str | Path, kept: Kept) -> None:
    """Writes a kept trace."""
    recording = kept.recording
    lists = [array(NUMBER, [len(runs) // 2 for runs in recording.intervals])]
    lists.append(array(NUMBER, [page for runs in recording.intervals for page in runs]))
    lists += [array(NUMBER, recording.uses.keys()), array(NUMBER, recording.uses.values()), array(NUMBER, sorted(recording.more_pages))]
    said = {**kept.origin._asdict(), "length": recording.length, "accesses": recording.accesses,
            "duration": recording.duration, "lists": list(map(len, lists))}
    rest = json.dumps(said).encode() + b"\n" + lzma.compress(b"".join(map(bytes_of, lists)))
    with whole_file(Path(path)) as stream:
        stream.write(HEADER + hashlib.sha256(rest).hexdigest().encode() + b"\n" + rest)


def kept_at(path: str | Path) -> Kept:
    """A kept trace. Raises UsageError if it is damaged."""
    try:
        with open(path, "rb") as stream:
            first, hash, rest = stream.read().split(b"\n", 2)
        if first + b"\n" != HEADER or hashlib.sha256(rest).hexdigest().encode() != hash:
            raise ValueError
        line, block = rest.split(b"\n", 1)
        said = json.loads(line)
        return Kept(Origin(**{name: said[name] for name in Origin._fields}), recording_of(said, lzma.decompress(block)))
    except (ValueError, KeyError, lzma.LZMAError):
        raise UsageError(f"{path}: this kept trace is damaged or of an older version: keep it again with --keep") from None


def interval_of(kept: Kept, passes: int) -> int:
    """The interval with which a kept trace has about this number of passes."""
    length, count = kept.recording.length, len(kept.recording.intervals)
    return length * max(1, (2 * count + passes) // (2 * passes))


def recording_of(said: dict[str, Any], block: bytes) -> Recording:
    lists = []
    for number in said["lists"]:
        lists.append(numbers_of(block[: BYTES * number]))
        block = block[BYTES * number :]
    counts, pages, used, uses, more = lists
    result = Recording(said["length"])
    result.intervals = [pages[2 * first : 2 * after] for first, after in pairwise(accumulate(counts, initial=0))]
    result.uses = Counter(dict(zip(used, uses, strict=True)))
    result.more_pages = set(more)
    result.accesses, result.duration, result.runs = said["accesses"], said["duration"], len(pages) // 2
    return result


def bytes_of(numbers: Runs) -> bytes:
    return in_order(numbers).tobytes()


def numbers_of(some: bytes) -> Runs:
    result = array(NUMBER)
    result.frombytes(some)
    return in_order(result)


def in_order(numbers: Runs) -> Runs:
    """The same, with the lowest byte first where this machine has it last."""
    if sys.byteorder == "big":
        numbers.byteswap()
    return numbers
