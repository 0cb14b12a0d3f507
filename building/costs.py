"""What the proofs of the crates took when they were measured, and how long a build will take.

`costs.csv` beside this file has the seconds of processor time and the greatest memory of each crate's proof with one
process. `tests/gate_times.py --costs building/costs.csv` writes it.
"""
import csv
from pathlib import Path
from typing import Callable, Dict, Iterable, List, NamedTuple

COSTS = Path(__file__).resolve().parent / "costs.csv"
GIGABYTE = 1_000_000_000
# A proof may take this much more memory than was measured.
MARGIN = 1.25
# A crate that was not measured is estimated: seconds for a line of it, at least this memory in bytes, ..
SECONDS_OF_LINE = 0.03
LEAST_MEMORY = 1_000_000_000
# .. and more for each line of its code, of its proofs, and of the code below it.
LINE_OF_CODE = 800_000
LINE_OF_PROOF = 100_000
LINE_BELOW = 100_000
# Several processes share what a crate itself has, about these seconds for a line of its code and its proofs. All
# else each of them does for itself, above all reading what stands below: that is nearly all the time of a program of
# a few lines. docs/PERFORMANCE.md has what proofs took with one process and with four.
SHARED_SECONDS_OF_LINE = 0.015
# A process more is worth its memory if the proof ends sooner by this part of the time.
LEAST_GAIN = 0.1


class Cost(NamedTuple):
    """What the proof of a crate takes with one process: seconds of processor time, and bytes."""

    seconds: float
    memory: float


class Lines(NamedTuple):
    """The size of a crate: lines of its code, of its proofs, and of the code of all crates below it."""

    code: int
    proofs: int
    below: int


def measured(table: Path = COSTS) -> Dict[str, Cost]:
    """The costs that were measured. Without a table none was."""
    if not table.exists():
        return {}
    with table.open() as rows:
        return {
            row["crate"]: Cost(float(row["seconds"]), MARGIN * GIGABYTE * float(row["gigabytes"]))
            for row in csv.DictReader(rows)
        }


def estimated(lines: Lines) -> Cost:
    """The cost of a crate that was not measured, by its size."""
    memory = LEAST_MEMORY + LINE_OF_CODE * lines.code + LINE_OF_PROOF * lines.proofs + LINE_BELOW * lines.below
    return Cost(SECONDS_OF_LINE * (lines.code + lines.proofs), memory)


def worth(seconds: float, lines: int, most: int) -> int:
    """How many processes, at most this number, a proof is worth that takes these seconds with one."""
    shared = min(seconds, SHARED_SECONDS_OF_LINE * lines)
    processes = 1
    while processes < most and _wait(seconds, shared, processes + 1) <= (1 - LEAST_GAIN) * _wait(seconds, shared, processes):
        processes += 1
    return processes


def _wait(seconds: float, shared: float, processes: int) -> float:
    """How long a proof takes, of whose seconds with one process some are shared."""
    return seconds - shared + shared / processes


def expected_seconds(order: Iterable[str], uses: Callable[[str], List[str]], seconds: Dict[str, float], processors: int) -> float:
    """How long it takes to prove crates in this order with this number of processors.

    A crate begins as soon as those that it uses are done and a processor is idle, and has one processor. Crates
    that are not in `order` are done at the start.
    """
    idle = [0.0] * processors
    done: Dict[str, float] = {}
    for name in order:
        ready = max((done.get(used, 0.0) for used in uses(name)), default=0.0)
        done[name] = max(ready, min(idle)) + seconds[name]
        idle.remove(min(idle))
        idle.append(done[name])
    return max(done.values(), default=0.0)
