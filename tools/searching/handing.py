"""Hands runs out in chunks and takes their rows back in the order of the plan."""
from __future__ import annotations

from collections import deque
from typing import Callable, Iterator, NamedTuple, Protocol, Sequence

from .table import Row

MOST_OF_CHUNK = 32
CHUNKS = 16
"""Of few runs a process gets this number of chunks, so that all processes end at about the same time."""
AHEAD = 4
"""How many chunks are handed out for each process, so that none of them waits."""


class Answer(Protocol):
    """The rows of a chunk, some time."""

    def result(self) -> list[Row]: ...


class Pool(NamedTuple):
    """What makes runs."""

    submit: Callable[[Sequence[int]], Answer]
    processes: Callable[[], int]
    """How many runs are made at once; on a cluster that may change."""


def in_order(pool: Pool, numbers: Sequence[int]) -> Iterator[list[Row]]:
    """The rows of these runs, chunk by chunk, in their order."""
    size = max(1, min(MOST_OF_CHUNK, len(numbers) // (CHUNKS * pool.processes())))
    waiting: deque[Answer] = deque()
    for start in range(0, len(numbers), size):
        waiting.append(pool.submit(numbers[start : start + size]))
        if len(waiting) > AHEAD * pool.processes():
            yield waiting.popleft().result()
    while waiting:
        yield waiting.popleft().result()
