"""Runs a program on a script, within a limit of time."""
from __future__ import annotations

import os
import select
import subprocess
from typing import BinaryIO, NamedTuple, Sequence

MOST_SECONDS = 1e6
"""Longer ones cannot be waited for."""


class Ended(NamedTuple):
    """What a run comes to."""

    status: int
    """That of the process; the number of a signal that ended it is negative."""
    report: str
    errors: str


def ran(words: Sequence[str], script: bytes, seconds: float) -> Ended | None:
    """Runs a command; None if it takes too long. Raises OSError if there is no such program.

    Its streams are files in memory, so nobody has to read while it writes, and what it started may write on.
    """
    with memory_file(script) as source, memory_file(b"") as report, memory_file(b"") as errors:
        with subprocess.Popen(words, stdin=source, stdout=report, stderr=errors) as process:
            is_in_time = False
            try:
                is_in_time = ends_within(process, seconds)
            finally:
                if not is_in_time:
                    process.kill()
            status = process.wait()
        return Ended(status, text_in(report), text_in(errors)) if is_in_time else None


def ends_within(process: subprocess.Popen[bytes], seconds: float) -> bool:
    """Waits for the end of a process. `wait` with a limit would look again and again, which takes longer than many runs."""
    end = os.pidfd_open(process.pid)
    try:
        return bool(select.select([end], [], [], min(seconds, MOST_SECONDS))[0])
    finally:
        os.close(end)


def memory_file(content: bytes) -> BinaryIO:
    file = open(os.memfd_create("run"), "w+b", buffering=0)
    file.write(content)
    file.seek(0)
    return file


def text_in(file: BinaryIO) -> str:
    file.seek(0)
    return file.read().decode("latin-1")
