"""Runs on this machine: some processes, which have the workloads from the start."""
from __future__ import annotations

import os
import signal
import threading
import time
from concurrent.futures import ProcessPoolExecutor
from concurrent.futures.process import BrokenProcessPool
from contextlib import contextmanager
from multiprocessing import get_context
from typing import Iterator, Sequence

from common import UsageError

from .handing import Pool
from .runs import Inputs, row_of
from .table import Row

SECONDS_OF_WATCH = 1.0


class Shared:
    """What a process has from the one that started it: it is set before that happens, and nothing is sent."""

    inputs: Inputs


def make(numbers: Sequence[int]) -> list[Row]:
    """The rows of a chunk, in a process of its own."""
    return [row_of(Shared.inputs, number) for number in numbers]


def begin(parent: int) -> None:
    """A process leaves it to its parent to be interrupted, and ends where that has ended."""
    signal.signal(signal.SIGINT, signal.SIG_IGN)
    # Where this is ignored the system forgets how a run ended.
    signal.signal(signal.SIGCHLD, signal.SIG_DFL)

    def watch() -> None:
        while os.getppid() == parent:
            time.sleep(SECONDS_OF_WATCH)
        os._exit(1)

    threading.Thread(target=watch, daemon=True).start()


@contextmanager
def local_pool(inputs: Inputs, jobs: int) -> Iterator[Pool]:
    """What is under way at the end is given up."""
    Shared.inputs = inputs
    pool = ProcessPoolExecutor(jobs, mp_context=get_context("fork"), initializer=begin, initargs=(os.getpid(),))
    try:
        yield Pool(lambda numbers: pool.submit(make, numbers), lambda: jobs)
    except BrokenProcessPool:
        raise UsageError("a process of the search was ended from outside: the same command goes on") from None
    finally:
        pool.shutdown(cancel_futures=True)
