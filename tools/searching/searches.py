"""A whole search: the runs of a plan that are needed and not there, and the answer to its question."""
from __future__ import annotations

import signal
import sys
from collections import deque
from contextlib import ExitStack
from pathlib import Path
from types import FrameType
from typing import Iterator, NamedTuple, Sequence

from scripts.judge import program

from .asking import Asked
from .cluster import cluster_pool
from .finding import answers
from .handing import Pool, in_order
from .limits import check_limits
from .local import local_pool
from .plan import Plan, Reading
from .points import Points
from .remaining import Remaining
from .runs import Inputs, first_cells
from .table import DONE, STATUS, Row, RunsFile
from .traces import trace_workloads
from .workloads import Key, Workload, script_workload


Known = dict[Reading, dict[Key, Workload]]
"""The workloads of traces that were read already, for each way of reading: plans of a study share them."""


class Machine(NamedTuple):
    """What makes the runs."""

    jobs: int
    """The processes on this machine."""
    cluster: str | None
    """The address of a scheduler whose workers make the runs in place of this machine."""
    timeout: float
    """The most seconds that a run may take."""


class Made(NamedTuple):
    """What came of a search."""

    answer: list[str]
    there: int
    """The rows that were needed and were in the file."""
    new: int
    failed: int
    """Those of the new ones that have another status than ok."""


def workloads_of(plan: Plan, points: Points, folder: Path, known: Known) -> dict[Key, Workload]:
    """The workloads of all points, each made once and then known. Raises UsageError."""
    found: dict[Key, Workload] = {}
    for name, keys in points.keys(plan.are_traces).items():
        if plan.are_traces:
            read = known.setdefault(plan.reading, {})
            if unread := [key for key in keys if key not in read]:
                read.update(trace_workloads(plan, name, unread, folder))
            found.update((key, read[key]) for key in keys)
        else:
            found.update(dict.fromkeys(keys, script_workload(plan, name)))
    return found


class Runs:
    """Gives the rows of runs: those that are in the file, and then those that are made and added to it."""

    def __init__(self, machine: Machine, inputs: Inputs, file: RunsFile, stack: ExitStack) -> None:
        """What makes the runs is opened when the first of them is needed, and closed with the stack."""
        self.machine = machine
        self.inputs = inputs
        self.file = file
        self.stack = stack
        self.pool: Pool | None = None
        self.there = self.made = self.failed = 0
        self.remaining = Remaining(sys.stderr)

    def __call__(self, numbers: Sequence[int]) -> Iterator[Row]:
        """The rows of these runs, in their order."""
        place = 0
        while place < len(numbers) and (row := self.file.kept(self.first(numbers[place]))):
            place += 1
            self.there += 1
            yield row
        if place < len(numbers):
            yield from self.made_now(numbers[place:])

    def made_now(self, numbers: Sequence[int]) -> Iterator[Row]:
        if not self.pool:
            inputs, machine = self.inputs, self.machine
            self.pool = self.stack.enter_context(
                cluster_pool(inputs, machine.cluster) if machine.cluster else local_pool(inputs, machine.jobs))
        self.remaining.begin(len(numbers))
        for rows in in_order(self.pool, numbers):
            self.file.add(rows)
            self.made += len(rows)
            self.failed += sum(row[-1] != DONE for row in rows)
            self.remaining(len(rows))
            yield from rows

    def first(self, number: int) -> Row:
        """The cells with which the row of a run begins."""
        point, seed = self.inputs.points.run(number)
        return first_cells(point, seed, self.inputs.workloads[point.key(self.inputs.plan.are_traces)])


def searched(plan: Plan, points: Points, path: Path, machine: Machine, known: Known) -> Made:
    """Makes all rows that are needed and not in the file of runs. Raises UsageError."""
    workloads = workloads_of(plan, points, path.parent, known)
    check_limits(plan, points, workloads)
    inputs = Inputs(plan, points, workloads, str(program().resolve()), machine.timeout)
    answer: list[str] = []
    with ExitStack() as stack:
        file = stack.enter_context(RunsFile(path, [*plan.columns, *plan.measures, STATUS]))
        runs = Runs(machine, inputs, file, stack)
        stack.callback(runs.remaining.end)
        if plan.question.is_asked:
            answer = list(answers(Asked(plan, points, workloads, runs)))
        else:
            deque(runs(range(points.runs)), maxlen=0)
        file.end()
    return Made(answer, runs.there, runs.made, runs.failed)


def interrupt_once() -> None:
    """The first interrupt ends the search. Those after it, which would come while it ends, are ignored."""

    def end(number: int, frame: FrameType | None) -> None:
        signal.signal(signal.SIGINT, signal.SIG_IGN)
        raise KeyboardInterrupt

    # Where a shell in the background has the signal ignored, it stays so.
    if signal.getsignal(signal.SIGINT) is signal.default_int_handler:
        signal.signal(signal.SIGINT, end)
