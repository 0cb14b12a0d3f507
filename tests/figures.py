"""Figures of measured programs: the file that keeps them, what is printed of them, and the tables of docs/PERFORMANCE.md.

The file is CSV. A row has all times of one program on one workload at one size, in milliseconds with a space between them, its
greatest resident set in KiB, and the instructions of a run where they were counted.
"""
import csv
import sys
from dataclasses import dataclass, field
from pathlib import Path
from statistics import median, quantiles
from typing import Dict, Iterable, List, NamedTuple, Optional, Sequence, Tuple

sys.path.insert(0, str(Path(__file__).resolve().parent.parent / "tools"))

from blocks import with_blocks
from speed_workloads import Workload

COLUMNS = ["workload", "size", "program", "turns", "peak_kib", "instructions", "milliseconds"]
# The names that the page's tables are made of: this program, and the one that it is compared with.
OURS, OTHER = "proved", "plain"
# The workload that has nothing to do: its time is that of the start of a process.
START = "start"


class Subject(NamedTuple):
    """What was run."""

    workload: str
    size: int
    program: str


@dataclass
class Figures:
    """What was measured of one program on one workload at one size."""

    milliseconds: List[float] = field(default_factory=list)
    peak_kib: int = 0
    instructions: Optional[int] = None

    def best(self) -> float:
        return min(self.milliseconds)

    def median(self) -> float:
        return median(self.milliseconds)

    def quartiles(self) -> Tuple[float, float]:
        """The lower and the upper quartile; of one time that time itself."""
        if len(self.milliseconds) == 1:
            return self.milliseconds[0], self.milliseconds[0]
        lower, _, upper = quantiles(self.milliseconds, n=4, method="inclusive")
        return lower, upper


Measured = Dict[Subject, Figures]


# ---- the file


def load(path: Path) -> Measured:
    """The figures in a file, none where there is no file."""
    if not path.exists():
        return {}
    with path.open(newline="", encoding="ascii") as source:
        return {subject_of(row): figures_of(row) for row in csv.DictReader(source)}


def subject_of(row: Dict[str, str]) -> Subject:
    return Subject(row["workload"], int(row["size"]), row["program"])


def figures_of(row: Dict[str, str]) -> Figures:
    times = [float(it) for it in row["milliseconds"].split()]
    if len(times) != int(row["turns"]):
        raise ValueError(f"{row['workload']} of {row['program']} has {len(times)} times in {row['turns']} turns")
    return Figures(times, int(row["peak_kib"]), int(row["instructions"]) if row["instructions"] else None)


def save(path: Path, measured: Measured) -> None:
    with path.open("w", newline="", encoding="ascii") as out:
        writer = csv.writer(out, lineterminator="\n")
        writer.writerow(COLUMNS)
        for subject, it in measured.items():
            times = " ".join(f"{time:.3f}" for time in it.milliseconds)
            instructions = "" if it.instructions is None else it.instructions
            writer.writerow([*subject, len(it.milliseconds), it.peak_kib, instructions, times])


def joined(old: Measured, new: Measured) -> Measured:
    """Both together: times are added to times, the greater peak counts, and the later instructions."""
    both = dict(old)
    for subject, it in new.items():
        before = old.get(subject, Figures())
        instructions = before.instructions if it.instructions is None else it.instructions
        both[subject] = Figures(before.milliseconds + it.milliseconds, max(before.peak_kib, it.peak_kib), instructions)
    return both


# ---- what is printed


def lines_of(measured: Measured, programs: Sequence[str]) -> List[str]:
    """A line for each workload, size and program, with the ratios to the last program behind the others."""
    lines = [f"{'workload':24}{'size':>10} {'program':10}{'best':>10}{'quartile':>10}{'median':>10}{'quartile':>10} ms{'turns':>6}"
             f"{'peak':>9} MiB{'instructions':>14} M  ratios of best, median, instructions"]
    for subject, it in measured.items():
        other = measured.get(subject._replace(program=programs[-1]))
        lines.append(line_of(subject, it, other if subject.program != programs[-1] else None))
    return lines


def line_of(subject: Subject, it: Figures, other: Optional[Figures]) -> str:
    front = f"{subject.workload:24}{subject.size:>10} {subject.program:10}"
    times = f"{'':43}{len(it.milliseconds):>6}"
    if it.milliseconds:
        lower, upper = it.quartiles()
        times = f"{it.best():10.2f}{lower:10.2f}{it.median():10.2f}{upper:10.2f}   {len(it.milliseconds):>6}"
    peak = f"{it.peak_kib / 1024:9.1f}" if it.peak_kib else f"{'':9}"
    counted = "" if it.instructions is None else f"{it.instructions / 1e6:.1f}"
    ratios = " ".join(ratios_of(it, other)) if other else ""
    return f"{front}{times}{peak}    {counted:>14}    {ratios}".rstrip()


def ratios_of(it: Figures, other: Figures) -> List[str]:
    """The ratios of the best times, the medians and the instructions, those that were measured of both."""
    ratios = []
    if it.milliseconds and other.milliseconds:
        ratios += [f"{it.best() / other.best():.2f}", f"{it.median() / other.median():.2f}"]
    if it.instructions is not None and other.instructions is not None:
        ratios.append(f"{it.instructions / other.instructions:.2f}")
    return ratios


# ---- the tables of the page


def written(page: str, measured: Measured, workloads: Iterable[Workload]) -> str:
    """The page with its tables made of these figures."""
    listed = list(workloads)
    return with_blocks(page, {"figures": figures_table(measured, listed), "growth": growth_table(measured, listed)})


def figures_table(measured: Measured, workloads: Sequence[Workload]) -> List[str]:
    rows = ["| workload | best | plain | ratio | median | quartiles | plain | quartiles | ratio | turns | instructions | memory | plain |",
            "|---|---|---|---|---|---|---|---|---|---|---|---|---|"]
    for it in workloads:
        ours, other = (measured.get(Subject(it.name, it.sizes[0], program)) for program in (OURS, OTHER))
        if ours and other and ours.milliseconds and other.milliseconds:
            rows.append(figures_row(it.says, ours, other))
    return rows


def figures_row(says: str, ours: Figures, other: Figures) -> str:
    counted = [it.instructions for it in (ours, other) if it.instructions is not None]
    turns = sorted({len(ours.milliseconds), len(other.milliseconds)})
    cells = [says, *(f"{it.best():.1f} ms" for it in (ours, other)), f"{ours.best() / other.best():.2f}"]
    for it in (ours, other):
        lower, upper = it.quartiles()
        cells += [f"{it.median():.1f} ms", f"{lower:.1f} to {upper:.1f}"]
    cells += [f"{ours.median() / other.median():.2f}", " and ".join(map(str, turns))]
    cells += [f"{counted[0] / counted[1]:.2f}" if len(counted) == 2 else "", *(f"{it.peak_kib / 1024:.1f} MiB" for it in (ours, other))]
    return "| " + " | ".join(cells) + " |"


def growth_table(measured: Measured, workloads: Sequence[Workload]) -> List[str]:
    rows = ["| workload | the size is | size | time | size | time | size | time |", "|---|---|---|---|---|---|---|---|"]
    for it in workloads:
        points = points_of(measured, it)
        if len(points) > 1 or (points and it.name == START):
            cells = [cell for size, time in points for cell in (f"{size:,}", f"{time:.2f} ms")]
            rows.append("| " + " | ".join([it.name, it.unit, *cells, *[""] * (6 - len(cells))]) + " |")
    return rows


def points_of(measured: Measured, workload: Workload) -> List[Tuple[int, float]]:
    """The sizes at which this program was measured, from the greatest on, with the best time of each."""
    found = [(size, measured.get(Subject(workload.name, size, OURS))) for size in workload.sizes]
    return [(size, it.best()) for size, it in found if it and it.milliseconds]
