#!/usr/bin/env python3
"""Where instructions go: the functions that take most of them, in runs of this program and of the baseline, by callgrind.

    tests/speed_profile.py [--only NAME] [--csv FILE]
    tests/speed_profile.py --write | --check [--csv FILE]

The workloads are those for which this program takes more time or more instructions than the baseline by the figures of
docs/performance.csv, by more than the noise; `--only` takes those whose names begin with NAME. A run has the second size of its
workload, where it has two. The figures are kept in FILE, which is docs/profile.csv where no other is named. `--write` makes the
table of docs/PERFORMANCE.md from it, and with `--check` the exit status is 1 where that would change the page.
"""
import argparse
import csv
import os
import re
import subprocess
import sys
import tempfile
from pathlib import Path
from typing import Dict, List, NamedTuple, Optional, Sequence

TOP = Path(__file__).resolve().parent.parent
sys.path.insert(0, str(TOP / "tools"))

from blocks import with_blocks
from figures import OTHER, OURS, Measured, Subject, load
from measure import COUNTER, KEPT, PAGE, PROGRAMS, Inputs, Job, program_of
from speed_workloads import WORKLOADS, Workload

PROFILE = "profile.csv"
COLUMNS = ["workload", "size", "program", "instructions", "functions"]
# Less than this many times what the other program takes is noise.
NOISE = 1.02
# How many functions are shown of a run.
SHOWN = 3
TOTALS = "PROGRAM TOTALS"
# A line of callgrind_annotate: instructions, their share, and the file and the name of a function.
LINE = re.compile(r"^\s*([\d,]+) \(\s*([\d.]+)%\)\s+(.*?)(?: \[[^\]]*\])?$")
# What compilers add to the name of a function to tell its instances.
INSTANCE = re.compile(r"(::<#\w+>|'\d+)$")


class Profile(NamedTuple):
    """All instructions of a run, and the shares in per cent of the functions that took most of them."""

    instructions: int
    shares: Dict[str, int]


Profiles = Dict[Subject, Profile]


def profile_of(text: str) -> Profile:
    """What callgrind_annotate says."""
    found = [match for match in map(LINE.match, text.splitlines()) if match]
    total = next(match for match in found if match[3] == TOTALS)
    functions = [match for match in found if match[3] != TOTALS]
    return Profile(int(total[1].replace(",", "")), {name_of(it[3]): round(float(it[2])) for it in functions[:SHOWN]})


def name_of(place: str) -> str:
    """The name of a function, without its file."""
    return INSTANCE.sub("", place.partition(":")[2])


def run(job: Job, source: Path, folder: str) -> Profile:
    out = f"{folder}/callgrind"
    with source.open("rb") as text:
        command = [COUNTER, "--tool=callgrind", f"--callgrind-out-file={out}", *job.command()]
        subprocess.run(command, stdin=text, stdout=subprocess.DEVNULL, stderr=subprocess.DEVNULL, check=True)
    return profile_of(subprocess.run(["callgrind_annotate", out], capture_output=True, text=True, check=True).stdout)


def are_slower(measured: Measured, workloads: Sequence[Workload]) -> List[Workload]:
    """The workloads of `damon` for which this program takes more than the other one."""
    found = []
    for it in workloads:
        ours, other = (measured.get(Subject(it.name, it.sizes[0], program)) for program in (OURS, OTHER))
        if it.program != "damon" or not ours or not other:
            continue
        has_more = (ours.instructions or 0) > NOISE * (other.instructions or 0)
        if has_more or (ours.milliseconds and other.milliseconds and ours.median() > NOISE * other.median()):
            found.append(it)
    return found


def load_profiles(path: Path) -> Profiles:
    if not path.exists():
        return {}
    with path.open(newline="", encoding="ascii") as source:
        return {Subject(row["workload"], int(row["size"]), row["program"]): Profile(int(row["instructions"]), shares_of(row["functions"]))
                for row in csv.DictReader(source)}


def shares_of(words: str) -> Dict[str, int]:
    return {name: int(share) for name, _, share in (part.rpartition("=") for part in words.split("; "))}


def save_profiles(path: Path, profiles: Profiles) -> None:
    with path.open("w", newline="", encoding="ascii") as out:
        writer = csv.writer(out, lineterminator="\n")
        writer.writerow(COLUMNS)
        for subject, it in profiles.items():
            writer.writerow([*subject, it.instructions, "; ".join(f"{name}={share}" for name, share in it.shares.items())])


def table(profiles: Profiles) -> List[str]:
    """A row for each workload, with both programs."""
    rows = ["| workload | size | million instructions | where | plain | where |", "|---|---|---|---|---|---|"]
    for subject, ours in profiles.items():
        other = profiles.get(subject._replace(program=OTHER))
        if subject.program == OURS and other:
            cells = [subject.workload, f"{subject.size:,}"]
            for it in (ours, other):
                cells += [f"{it.instructions / 1e6:.1f}", ", ".join(f"`{name}` {share} %" for name, share in it.shares.items())]
            rows.append("| " + " | ".join(cells) + " |")
    return rows


def main(words: Optional[Sequence[str]] = None) -> int:
    parser = argparse.ArgumentParser(description=__doc__, formatter_class=argparse.RawDescriptionHelpFormatter)
    parser.add_argument("--only", default="", metavar="NAME", help="the workloads whose names begin with NAME")
    parser.add_argument("--csv", type=Path, default=KEPT.with_name(PROFILE), metavar="FILE", help="where figures are kept")
    kinds = parser.add_mutually_exclusive_group()
    kinds.add_argument("--write", action="store_true", help="make the table of the page")
    kinds.add_argument("--check", action="store_true", help="tell whether the table of the page is that of the file")
    given = parser.parse_args(words)
    if given.write or given.check:
        old = PAGE.read_text()
        new = with_blocks(old, {"profile": table(load_profiles(given.csv))})
        if given.write:
            PAGE.write_text(new)
        return 1 if given.check and new != old else 0
    programs = [program_of(word) for word in PROGRAMS]
    os.environ.setdefault("DAMOND", str(programs[0].files["damond"]))
    found: Profiles = {}
    with tempfile.TemporaryDirectory() as folder:
        inputs = Inputs(folder)
        for workload in are_slower(load(KEPT), WORKLOADS):
            for program in programs if workload.name.startswith(given.only) else ():
                job = Job(program, workload, workload.sizes[min(1, len(workload.sizes) - 1)])
                found[job.subject()] = run(job, inputs.path(job), folder)
    save_profiles(given.csv, {**load_profiles(given.csv), **found})
    print(*table(found), sep="\n")
    return 0


if __name__ == "__main__":
    sys.exit(main())
