#!/usr/bin/env python3
"""Measures programs side by side: wall times from the start of a process to its exit, peaks of memory, and instructions.

    tests/measure.py TURNS [PROGRAM ...] [--only NAME] [--sizes] [--seed N] [--csv FILE]
    tests/measure.py --instructions [PROGRAM ...] [--only NAME] [--csv FILE]
    tests/measure.py TURNS [PROGRAM] --bounds [--only NAME] [--csv FILE]
    tests/measure.py --write | --check [--csv FILE]

Each PROGRAM is run TURNS times on each workload (`speed_workloads.py`). In each turn the pairs of a program and a workload come
in another order, which depends on the seed and the number of the turn alone. A PROGRAM is `NAME=DAMON` or `NAME=DAMON,DAMOND`.
Without one they are the built programs of this checkout, `proved`, and those of the baseline, `plain`. To build these:

    (cd baseline && cargo build --release)

All times are kept, and each line that is printed has of a program on a workload its best time, its median between the quartiles,
the number of its turns, and its greatest resident set. The ratios are to the last program. With `--csv` the figures are added to
those in FILE, which may come from other turns, and the lines are about all of them. `--only` takes the workloads whose names
begin with NAME, and `--sizes` all sizes of a workload in place of the greatest.

With `--instructions` each program is run once on each workload of `damon` by valgrind's callgrind. Other work on the machine
does not change these numbers. Threads take other turns each time, so those of `damond` are not counted.

With `--bounds` the first program is run once on each workload to see what that asks of the machine, and the best of TURNS times is
taken of loops that do only that (`speed_bounds.py`). FILE is docs/bounds.csv where no other is named, and its other rows stay. The
loops are built with the baseline, or those that BOUNDS in the environment names.

With `--write` the tables of docs/PERFORMANCE.md are made from FILE, which is docs/performance.csv where no other is named, and from
bounds.csv beside it, where it is there; with `--check` the exit status is 1 where that would change the page. So all figures of
the page are made by these commands, on a machine with nothing else to do:

    rm -f docs/performance.csv
    tests/measure.py 50 --sizes --csv docs/performance.csv
    tests/measure.py --instructions --csv docs/performance.csv
    tests/measure.py 20 --bounds
    tests/measure.py --write
    tests/growth.py docs/PERFORMANCE.md > docs/pictures/growth.svg
"""
import argparse
import os
import random
import shutil
import subprocess
import sys
import tempfile
import time
from pathlib import Path
from typing import Dict, List, NamedTuple, Optional, Sequence

from figures import Figures, Measured, Subject, joined, lines_of, load, save, written
from speed_bounds import LOOPS, Bounds, asked, lines_of_bounds, load_bounds, save_bounds, timed, with_bounds
from speed_workloads import WORKLOADS, Workload

TOP = Path(__file__).resolve().parent.parent
PAGE = TOP / "docs/PERFORMANCE.md"
KEPT = TOP / "docs/performance.csv"
BOUNDS = "bounds.csv"
PROGRAMS = (
    f"proved={TOP}/crates/damon/out/damon,{TOP}/crates/damond/out/damond",
    f"plain={TOP}/baseline/target/release/damon,{TOP}/baseline/target/release/damond",
)
HOW_BUILT = "`rt ci` builds the proved programs, and (cd baseline && cargo build --release) the plain ones"
TIMER = "/usr/bin/time"
COUNTER = "valgrind"
COUNTED = "Collected :"


class Program(NamedTuple):
    name: str
    # The files by the names of the programs.
    files: Dict[str, Path]


class Job(NamedTuple):
    program: Program
    workload: Workload
    size: int

    def subject(self) -> Subject:
        return Subject(self.workload.name, self.size, self.program.name)

    def command(self) -> List[str]:
        return [str(self.program.files[self.workload.program]), *self.workload.words]


class Inputs:
    """The inputs of workloads, as files of a folder, each made once."""

    def __init__(self, folder: str) -> None:
        self.folder = Path(folder)

    def path(self, job: Job) -> Path:
        path = self.folder / f"{job.workload.name}.{job.size}"
        if not path.exists():
            path.write_bytes(job.workload.text(job.size))
        return path


# ---- one run


def milliseconds(command: Sequence[str], source: Path) -> float:
    with source.open("rb") as text:
        start = time.perf_counter()
        run = subprocess.run(command, stdin=text, stdout=subprocess.DEVNULL)
        end = time.perf_counter()
    if run.returncode != 0:
        sys.exit(f"{' '.join(command)} ended with status {run.returncode}")
    return 1000 * (end - start)


def peak_kib(job: Job, source: Path) -> int:
    """The greatest resident set. A small program starts the one that is measured, whose figure would else be at least that of
    this interpreter."""
    with source.open("rb") as text:
        run = subprocess.run([TIMER, "-f", "%M", *job.command()], stdin=text, stdout=subprocess.DEVNULL, stderr=subprocess.PIPE, check=True)
    return int(run.stderr.split()[-1])


def instructions(job: Job, source: Path) -> int:
    command = [COUNTER, "--tool=callgrind", "--callgrind-out-file=/dev/null", *job.command()]
    with source.open("rb") as text:
        run = subprocess.run(command, stdin=text, stdout=subprocess.DEVNULL, stderr=subprocess.PIPE, text=True, check=True)
    return int(run.stderr.rpartition(COUNTED)[2].split()[0])


# ---- all runs


def measure(turns: int, jobs: Sequence[Job], seed: int, inputs: Inputs) -> Measured:
    """The times of all turns, and the peaks of memory."""
    found = {job.subject(): Figures(peak_kib=peak_kib(job, inputs.path(job))) for job in jobs}
    for turn in range(turns):
        for job in order_of(jobs, seed, turn):
            found[job.subject()].milliseconds.append(milliseconds(job.command(), inputs.path(job)))
    return found


def order_of(jobs: Sequence[Job], seed: int, turn: int) -> List[Job]:
    """All jobs in an order of its own for each turn."""
    return random.Random(f"{seed} {turn}").sample(list(jobs), len(jobs))


def count(jobs: Sequence[Job], inputs: Inputs) -> Measured:
    counted = [job for job in jobs if job.workload.program == "damon"]
    return {job.subject(): Figures(instructions=instructions(job, inputs.path(job))) for job in counted}


def bound(turns: int, jobs: Sequence[Job], inputs: Inputs) -> Bounds:
    """What the workloads ask of the machine, in the runs of the first program, with the best times of loops that do only that."""
    def best(command: Sequence[str], source: Path) -> float:
        return min(milliseconds(command, source) for _ in range(turns))

    first = [job for job in jobs if job.program == jobs[0].program]
    return {job.workload.name: timed(asked(job.workload, job.command(), inputs.path(job)), inputs.path(job), best) for job in first}


# ---- the words of the command line


def program_of(word: str) -> Program:
    """The program of a word `NAME=DAMON` or `NAME=DAMON,DAMOND`."""
    name, _, files = word.partition("=")
    if not files:
        raise argparse.ArgumentTypeError(f"{word} is not NAME=DAMON or NAME=DAMON,DAMOND")
    named = dict(zip(("damon", "damond"), map(Path, files.split(","))))
    lacking = [str(path) for path in named.values() if not path.is_file()]
    if lacking:
        raise argparse.ArgumentTypeError(f"there is no {' and no '.join(lacking)}: {HOW_BUILT}")
    return Program(name, named)


def parse_words(words: Optional[Sequence[str]] = None) -> argparse.Namespace:
    parser = argparse.ArgumentParser(description=__doc__, formatter_class=argparse.RawDescriptionHelpFormatter)
    parser.add_argument("words", nargs="*", metavar="[TURNS] [PROGRAM ...]",
                        help="how often each program is run on each workload, and the programs: the others are compared with the last one")
    parser.add_argument("--only", default="", metavar="NAME", help="the workloads whose names begin with NAME")
    parser.add_argument("--sizes", action="store_true", help="all sizes of the workloads")
    parser.add_argument("--seed", type=int, default=1, help="what the orders depend on")
    parser.add_argument("--csv", type=Path, metavar="FILE", help="where figures are kept")
    kinds = parser.add_mutually_exclusive_group()
    kinds.add_argument("--instructions", action="store_true", help="count instructions")
    kinds.add_argument("--bounds", action="store_true", help="measure what the machine bounds")
    kinds.add_argument("--write", action="store_true", help="make the tables of the page")
    kinds.add_argument("--check", action="store_true", help="tell whether the tables of the page are those of the file")
    given = parser.parse_intermixed_args(words)
    has_turns = bool(given.words) and given.words[0].isdigit()
    given.turns, given.programs = (int(given.words[0]), given.words[1:]) if has_turns else (0, given.words)
    if given.turns < 1 and not (given.instructions or given.write or given.check):
        parser.error("TURNS is at least 1")
    return given


def main(words: Optional[Sequence[str]] = None) -> int:
    given = parse_words(words)
    if given.write or given.check:
        return keep_page(given.csv or KEPT, given.check)
    try:
        programs = [program_of(word) for word in given.programs or PROGRAMS]
    except argparse.ArgumentTypeError as error:
        sys.exit(f"tests/measure.py: {error}")
    jobs = jobs_of(programs, given.only, given.sizes and not given.bounds)
    tool = COUNTER if given.instructions else LOOPS if given.bounds else TIMER
    if shutil.which(tool) is None:
        sys.exit(f"tests/measure.py: there is no {tool}")
    # Journals are made by one of the programs that are measured.
    os.environ.setdefault("DAMOND", str(programs[0].files.get("damond", "")))
    with tempfile.TemporaryDirectory() as folder:
        inputs = Inputs(folder)
        if given.bounds:
            return keep_bounds(given.csv or KEPT.with_name(BOUNDS), bound(given.turns, jobs, inputs))
        found = count(jobs, inputs) if given.instructions else measure(given.turns, jobs, given.seed, inputs)
    if given.csv:
        found = joined(load(given.csv), found)
        save(given.csv, found)
    print(*lines_of(found, [it.name for it in programs]), sep="\n")
    return 0


def jobs_of(programs: Sequence[Program], only: str, has_sizes: bool) -> List[Job]:
    """A job for each program on each workload that it has, at the greatest size, or at all of them for the first program."""
    jobs = []
    for workload in WORKLOADS:
        if not workload.name.startswith(only):
            continue
        for number, program in enumerate(programs):
            sizes = workload.sizes if has_sizes and number == 0 else workload.sizes[:1]
            jobs += [Job(program, workload, size) for size in sizes if workload.program in program.files]
    if not jobs:
        sys.exit(f"no workload begins with {only}: there are {', '.join(it.name for it in WORKLOADS)}")
    return jobs


def keep_bounds(path: Path, found: Bounds) -> int:
    """Puts bounds in the place of those that a file has of the same workloads."""
    save_bounds(path, {**load_bounds(path), **found})
    print(*lines_of_bounds(found), sep="\n")
    return 0


def keep_page(path: Path, only_checks: bool) -> int:
    """Makes the tables of the page from a file of figures, or tells whether they are those of the file."""
    if not path.exists():
        sys.exit(f"there is no {path}: tests/measure.py TURNS --csv {path} makes it")
    old = PAGE.read_text()
    figures, bounds = load(path), path.with_name(BOUNDS)
    new = written(old, figures, WORKLOADS)
    if bounds.exists():
        new = with_bounds(new, load_bounds(bounds), figures, WORKLOADS)
    if not only_checks:
        PAGE.write_text(new)
    elif new != old:
        print(f"{PAGE.relative_to(TOP)} is stale: run tests/measure.py --write")
        return 1
    return 0


if __name__ == "__main__":
    sys.exit(main())
