"""What the machine bounds: the least that a run of a workload asks of it, and how long loops take that do only that.

A run reads its input and writes its output. Its passes draw a random word for each row, and clear and load the mark of a page of
each; its aggregations draw `2 * max` words. These numbers come from the settings of the run and the last lines of its report.
Passes that became void or did not end are not counted, nor are the marks of touches: of a sweep not each needs to be stored.
The loops are those of baseline/src/bin/bounds.rs, each less its own start: the same loop with nothing to do.
"""
import csv
import os
import re
import subprocess
import sys
from pathlib import Path
from typing import Callable, Dict, Iterable, List, NamedTuple, Sequence

TOP = Path(__file__).resolve().parent.parent
sys.path.insert(0, str(TOP / "tools"))

from blocks import with_blocks
from figures import OURS, START, Measured, Subject
from speed_workloads import Workload

LOOPS = os.environ.get("BOUNDS") or f"{TOP}/baseline/target/release/bounds"
# The setup of a generated run, which docs/FORMATS.md gives, and after which comes no `aggregate` line.
GENERATED = b"attrs 10 100 20\ntarget 0x0 1024\n"
ATTRS = re.compile(rb"^(?:[0-7] )?attrs \d+ (\d+) (\d+)$", re.MULTILINE)
TARGET = re.compile(rb"^(?:[0-7] )?target \S+ (\d+)$", re.MULTILINE)
TICKS, CHECKS = (re.compile(rb'\b%s"?[=:](\d+)' % name) for name in (b"ticks", b"checks"))
# The marks of `damon` are the bits of words; `damond` has a word for each page.
PAGES_OF_A_WORD = {"damon": 64, "damond": 1}
# A bound below this many milliseconds is noise, and no ratio is made of it.
LEAST = 0.1

# The best time of a command with this input, in milliseconds.
Timer = Callable[[Sequence[str], Path], float]


class Bound(NamedTuple):
    """What a run of a workload asks for, and the milliseconds of the loops."""

    read: int
    written: int
    words: int
    checks: int
    # The rows of a pass, and the words of the table that has the marks; no row where no mark is cleared or loaded.
    rows: int
    table: int
    read_ms: float = 0.0
    write_ms: float = 0.0
    draw_ms: float = 0.0
    access_ms: float = 0.0

    def milliseconds(self) -> float:
        return self.read_ms + self.write_ms + self.draw_ms + self.access_ms


Bounds = Dict[str, Bound]


class Report(NamedTuple):
    """What is counted in the lines of a report or a journal."""

    length: int
    aggregations: int
    ticks: int
    checks: int


def counted(lines: Iterable[bytes]) -> Report:
    length = aggregations = ticks = checks = 0
    for line in lines:
        length += len(line)
        aggregations += line.startswith(b"aggregate ") or b'"kind":"aggregate"' in line
        if b"ticks" in line:
            ticks += sum(map(int, TICKS.findall(line)))
            checks += sum(map(int, CHECKS.findall(line)))
    return Report(length, aggregations, ticks, checks)


def asked(workload: Workload, command: Sequence[str], source: Path) -> Bound:
    """What one run asks for. That of `verify` and `heat` draws the words of the run that its journal is of, and has no marks."""
    with source.open("rb") as text, subprocess.Popen(command, stdin=text, stdout=subprocess.PIPE) as run:
        assert run.stdout is not None
        output = counted(run.stdout)
    if run.returncode != 0:
        raise RuntimeError(f"{' '.join(command)} ended with status {run.returncode}")
    text_read = source.read_bytes()
    settings = text_read or GENERATED
    rows_most, passes = map(int, ATTRS.findall(settings)[0])
    is_journal = workload.words[0] in ("verify", "heat")
    report = counted(text_read.splitlines(keepends=True)) if is_journal else output
    aggregations = report.aggregations if text_read else report.ticks // passes
    rows = 0 if is_journal or not report.ticks else -(-report.checks // report.ticks)
    pages = sum(map(int, TARGET.findall(settings)))
    return Bound(len(text_read), output.length, report.checks + 2 * rows_most * aggregations, report.checks if rows else 0, rows,
                 -(-pages // PAGES_OF_A_WORD[workload.program]))


def timed(bound: Bound, source: Path, timer: Timer) -> Bound:
    """The bound with the times of its loops."""
    nothing = Path(os.devnull)

    def beyond(amount: int, words: Sequence[object], idle: Sequence[object], read: Path = nothing) -> float:
        """The time of a loop beyond that of its start, none where nothing is asked of it."""
        if not amount:
            return 0.0
        busy, start = (timer([LOOPS, *map(str, it)], path) for it, path in ((words, read), (idle, nothing)))
        return max(0.0, busy - start)

    table = (bound.rows, bound.table)
    return bound._replace(
        read_ms=beyond(bound.read, ["read"], ["read"], source),
        write_ms=beyond(bound.written, ["write", bound.written], ["write", 0]),
        draw_ms=beyond(bound.words, ["draw", bound.words], ["draw", 0]),
        access_ms=beyond(bound.checks, ["access", bound.checks, *table], ["access", 0, *table]),
    )


# ---- the file


def load_bounds(path: Path) -> Bounds:
    """The bounds in a file, none where there is no file."""
    if not path.exists():
        return {}
    with path.open(newline="", encoding="ascii") as source:
        return {row.pop("workload"): bound_of(row) for row in csv.DictReader(source)}


def bound_of(row: Dict[str, str]) -> Bound:
    numbers, times = ([row[name] for name in Bound._fields if name.endswith("_ms") == is_time] for is_time in (False, True))
    return Bound(*map(int, numbers), *map(float, times))


def save_bounds(path: Path, bounds: Bounds) -> None:
    with path.open("w", newline="", encoding="ascii") as out:
        writer = csv.writer(out, lineterminator="\n")
        writer.writerow(["workload", *Bound._fields])
        for name, it in bounds.items():
            writer.writerow([name, *it[:6], *(f"{time:.3f}" for time in it[6:])])


# ---- what is printed, and the table of the page


def lines_of_bounds(bounds: Bounds) -> List[str]:
    """A line for each workload: what it asks for, and the milliseconds of each loop."""
    rows = [f"{'workload':24}" + "".join(f"{name:>12}" for name in Bound._fields)]
    return rows + [f"{name:24}" + "".join(f"{it:>12,}" for it in bound[:6]) + "".join(f"{it:12.2f}" for it in bound[6:])
                   for name, bound in bounds.items()]


def with_bounds(page: str, bounds: Bounds, measured: Measured, workloads: Iterable[Workload]) -> str:
    """The page with its table of bounds made of these figures."""
    return with_blocks(page, {"bounds": bounds_table(bounds, measured, workloads)})


def bounds_table(bounds: Bounds, measured: Measured, workloads: Iterable[Workload]) -> List[str]:
    """A row for each workload whose bound and whose times were measured."""
    rows = ["| workload | bytes read | bytes written | words drawn | accesses | bound | time | times the bound |",
            "|---|---|---|---|---|---|---|---|"]
    start = measured.get(Subject(START, 1, OURS))
    if not start or not start.milliseconds:
        return rows
    for it in workloads:
        ours = measured.get(Subject(it.name, it.sizes[0], OURS))
        if it.name != START and it.name in bounds and ours and ours.milliseconds:
            rows.append(bounds_row(it.says, bounds[it.name], ours.best() - start.best()))
    return rows


def bounds_row(says: str, bound: Bound, time: float) -> str:
    amounts = [bound.read, bound.written, bound.words, 2 * bound.checks]
    least = bound.milliseconds()
    ratio = f"{time / least:.1f}" if least >= LEAST else ""
    return "| " + " | ".join([says, *(f"{it:,}" if it else "" for it in amounts), f"{least:.1f} ms", f"{time:.1f} ms", ratio]) + " |"
