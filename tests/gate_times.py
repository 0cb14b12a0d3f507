#!/usr/bin/env python3
"""Runs the gate, or another command that proves crates, and prints where its processor time went.

    tests/gate_times.py [--costs FILE] [COMMAND WORD ...]

Without words it runs `rt ci` at the top of the checkout, which proves everything from nothing: with `--anew`, if
this version of the toolchain has that option, and as it is, if it does so by itself. The processes of the prover
below this one are looked at twice a second, and the time of each is counted for its crate and its kind:

    proof    the proof of the crate
    tests    the proof of the crate with its tests
    base     the crate as it stands, proved once more for its must-fail edits, each of which begins with what
             this has proved; some versions of the toolchain do without it
    edits    the must-fail edits themselves

A kind of which nothing was seen has no column. What a process did after the last look at it is not counted, so
each number is a little low. The last column is the greatest memory that all processes of one kind of a crate held
at one look.

With --costs the time and the memory of each crate's proof are also written to FILE, as `build.py` reads them to
plan a build: `tests/gate_times.py --costs building/costs.csv`.

The output of the command goes to standard error, the table to standard output. The exit status is that of
the command.
"""
import argparse
import os
import subprocess
import sys
import time
from collections import defaultdict
from pathlib import Path
from typing import Dict, Iterator, List, NamedTuple, Optional, Tuple

TOP = Path(__file__).resolve().parent.parent
KINDS = ("proof", "tests", "base", "edits")
TICKS = os.sysconf("SC_CLK_TCK")
PAGE = os.sysconf("SC_PAGE_SIZE")


class Job(NamedTuple):
    crate: str
    kind: str


class Process(NamedTuple):
    """What is known of a process while it runs."""

    parent: int
    # When it began, in ticks since the system did. A later process may get its number, but not both.
    begun: int
    # Of processor time.
    seconds: float
    # Bytes that it holds.
    memory: int = 0


# For each crate and kind, the seconds of processor time.
Table = Dict[str, Dict[str, float]]


class Times(NamedTuple):
    """What was seen of a command: its exit status, the seconds of processor time, and the greatest memory of each kind in bytes."""

    status: int
    seconds: Table
    memory: Table


def gate() -> List[str]:
    """The command that proves everything from nothing, as this version of the toolchain spells it."""
    # Some versions print their help as an error.
    said = subprocess.run(["rt", "help"], stdout=subprocess.PIPE, stderr=subprocess.STDOUT, text=True).stdout
    return ["rt", "ci", "--anew"] if "--anew" in said else ["rt", "ci"]


def process_of(pid: int) -> Process:
    # The name in parentheses may hold spaces.
    fields = Path(f"/proc/{pid}/stat").read_text().rpartition(")")[2].split()
    return Process(int(fields[1]), int(fields[19]), (int(fields[11]) + int(fields[12])) / TICKS, int(fields[21]) * PAGE)


def job_of(words: List[str], folder: str) -> Optional[Job]:
    """The crate and the kind of what a process does, by its words and its folder; None if it proves nothing."""
    if not words[0].endswith("/rattle") or "--crate-name" not in words[:-1]:
        return None
    crate = words[words.index("--crate-name") + 1]
    if "--test" in words:
        return Job(crate, "tests")
    # Each edit is tried on a copy of the crate in a folder of its own, and so is what they begin with.
    if "rt-edit" not in folder:
        return Job(crate, "proof")
    kept = words[words.index("--incremental") + 1] if "--incremental" in words[:-1] else ""
    return Job(crate, "base" if Path(kept).name == "seed" else "edits")


def processes() -> Iterator[Tuple[int, Process, Optional[Job]]]:
    for entry in os.listdir("/proc"):
        if entry.isdigit():
            try:
                words = Path(f"/proc/{entry}/cmdline").read_bytes().decode(errors="replace").split("\0")
                yield int(entry), process_of(int(entry)), job_of(words, os.readlink(f"/proc/{entry}/cwd"))
            except (OSError, IndexError, ValueError):
                continue  # It ended while it was looked at, or belongs to somebody else.


def is_below(pid: int, top: int, parents: Dict[int, int]) -> bool:
    while pid in parents:
        if pid == top:
            return True
        pid = parents[pid]
    return False


def times_of(command: List[str]) -> Times:
    """Runs a command, and gives its exit status and what was seen of the prover below it."""
    seconds: Dict[Tuple[int, int], Tuple[Job, float]] = {}
    memory: Table = defaultdict(lambda: defaultdict(float))
    with subprocess.Popen(command, cwd=TOP, stdout=sys.stderr) as run:
        while run.poll() is None:
            seen = list(processes())
            parents = {pid: process.parent for pid, process, _ in seen}
            held: Dict[Job, int] = defaultdict(int)
            for pid, process, job in seen:
                if job and is_below(pid, run.pid, parents):
                    seconds[pid, process.begun] = (job, process.seconds)
                    held[job] += process.memory
            for job, much in held.items():
                memory[job.crate][job.kind] = max(memory[job.crate][job.kind], much)
            time.sleep(0.5)
    table: Table = defaultdict(lambda: defaultdict(float))
    for job, used in seconds.values():
        table[job.crate][job.kind] += used
    return Times(run.returncode, table, memory)


def lines_of(table: Table, memory: Table) -> Iterator[str]:
    """The table as lines, the crate that took longest first."""
    sums = {kind: sum(kinds.get(kind, 0) for kinds in table.values()) for kind in KINDS}
    shown = [kind for kind in KINDS if sums[kind]] or [KINDS[0]]
    most = {crate: max(kinds.values(), default=0) / 1e9 for crate, kinds in memory.items()}
    yield f"{'crate':16}" + "".join(f"{kind:>8}" for kind in shown) + f"{'all':>8}{'GB':>6}   (seconds of processor time, greatest memory)"
    for crate, kinds in sorted(table.items(), key=lambda item: -sum(item[1].values())):
        row = "".join(f"{kinds.get(kind, 0):8.0f}" for kind in shown)
        yield f"{crate:16}{row}{sum(kinds.values()):8.0f}{most.get(crate, 0):6.1f}"
    row = "".join(f"{sums[kind]:8.0f}" for kind in shown)
    yield f"{'all crates':16}{row}{sum(sums.values()):8.0f}{max(most.values(), default=0):6.1f}"


def costs_of(table: Table, memory: Table) -> Iterator[str]:
    """The lines of the file of costs: a crate's name, the seconds of its proof, and the gigabytes that it held."""
    yield "crate,seconds,gigabytes"
    for crate in sorted(table):
        if table[crate].get("proof"):
            yield f"{crate},{table[crate]['proof']:.0f},{memory[crate].get('proof', 0) / 1e9:.1f}"


def main(words: List[str]) -> int:
    parser = argparse.ArgumentParser(description="Runs the gate, and prints where its processor time and memory went.")
    parser.add_argument("--costs", type=Path, help="write the costs of the proofs to this file, as build.py reads them")
    parser.add_argument("command", nargs=argparse.REMAINDER, help="a command that proves crates (rt ci)")
    given = parser.parse_args(words)
    begun = time.monotonic()
    times = times_of(given.command or gate())
    print(*lines_of(times.seconds, times.memory), sep="\n")
    print(f"{(time.monotonic() - begun) / 60:.1f} minutes on {os.cpu_count()} processors")
    if given.costs:
        given.costs.write_text("".join(f"{line}\n" for line in costs_of(times.seconds, times.memory)))
    return times.status


if __name__ == "__main__":
    sys.exit(main(sys.argv[1:]))
