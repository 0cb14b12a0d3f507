"""The programs of a study: kept traces, and what is known of each before anything is sampled."""
from __future__ import annotations

import re
from pathlib import Path
from typing import Iterable, Iterator, NamedTuple

from common import UsageError
from measuring.truth import HOT
from searching.plan import Plan, interval_at
from searching.points import Points
from searching.searches import Known, workloads_of
from tracing.kept import is_kept, kept_at

SUFFIX = ".cut"
HOT_RUN = re.compile(re.escape(HOT) + b"+")
FACTS_PASSES, FACTS_AGGR = 2000, 20
"""The passes and the aggregations by which it is said how much of a program is hot: those of most plans."""


class Program(NamedTuple):
    """A kept trace."""

    name: str
    path: Path
    length: int
    """The accesses of an interval of the trace."""
    intervals: int
    pages: int
    """All that are watched."""

    def passes(self, interval: int) -> int:
        """The passes of a run with this interval."""
        return -(-self.intervals // (interval // self.length))


class Facts(NamedTuple):
    """What a program is, by its trace alone."""

    accesses: int
    targets: int
    interval: int
    accessed: float
    """The share of the page-aggregations that were accessed."""
    hot: float
    """The share of those that were hot."""
    run: float
    """How many hot pages lie beside each other, on average over all such runs."""


def programs_of(paths: Iterable[Path]) -> list[Path]:
    """The kept traces among these files and in these folders, by name. Raises UsageError."""
    found: list[Path] = []
    for path in paths:
        inside = sorted(path.glob(f"*{SUFFIX}")) if path.is_dir() else [path]
        if not inside:
            raise UsageError(f"{path} has no kept trace: no file is named *{SUFFIX}")
        found += inside
    for path in found:
        if not is_kept(path):
            raise UsageError(f"{path} is no kept trace: tools/trace_to_script.py --keep {path.stem}{SUFFIX} TRACE writes one")
    names = [name_of(path) for path in found]
    for name in names:
        if names.count(name) > 1:
            raise UsageError(f"two traces are named {name}")
    return sorted(found, key=name_of)


def name_of(path: Path) -> str:
    """The name of a program: that of its file up to the first dot."""
    return path.name.partition(".")[0]


def program_of(path: Path, plan: Plan, known: Known) -> tuple[Program, Facts]:
    """A program, as plans with these ways of reading watch it. Its workload is then known to them."""
    kept = kept_at(path)
    interval = interval_at(path, FACTS_PASSES)
    plan = plan._replace(settings={**plan.settings, "interval": (interval,), "unit": (1,)}, intervals={}, target=None)
    (workload,) = workloads_of(plan, Points(plan, None, 1), path.parent, known).values()
    ends = range(FACTS_AGGR, len(workload.passes) + 1, FACTS_AGGR)
    truths = [workload.truths.between(end - FACTS_AGGR, end) for end in ends]
    pages, hot = max(1, workload.pages * len(truths)), sum(truth.hot for truth in truths)
    runs = sum(len(HOT_RUN.findall(truth.kinds)) for truth in truths)
    facts = Facts(kept.recording.accesses, sum(line.startswith("target ") for line in workload.places), interval,
                  sum(truth.accessed for truth in truths) / pages, hot / pages, hot / max(1, runs))
    return Program(name_of(path), path, kept.recording.length, len(kept.recording.intervals), workload.pages), facts


def fact_rows(programs: Iterable[tuple[Program, Facts]]) -> Iterator[list[str]]:
    """The rows of what programs are."""
    yield ["program", "accesses", "interval", "passes", "targets", "pages", "accessed", "hot", "hot_run"]
    for program, facts in programs:
        yield [program.name, str(facts.accesses), str(facts.interval), str(program.passes(facts.interval)), str(facts.targets),
               str(program.pages), f"{facts.accessed:.4f}", f"{facts.hot:.4f}", f"{facts.run:.2f}"]
