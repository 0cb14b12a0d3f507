#!/usr/bin/env python3
"""Runs damon with many settings over many workloads, and writes one row of measures for each run.

docs/SEARCH.md shows its use.
"""
from __future__ import annotations

import argparse
import os
import sys
from pathlib import Path

sys.path.insert(0, str(Path(__file__).resolve().parent))

from common import UsageError, parser, run
from scripts.judge import VARIABLE, is_there, program
from searching.cluster import distributed
from searching.plan import plan_of
from searching.points import Points
from searching.searches import Machine, interrupt_once, searched
from searching.table import rows_there, write_points
from wording import counted

TOOL = "search.py"
EXAMPLE = """\
example:
  tools/search.py examples/search.toml out/search.csv --points out/points.csv
  tools/picture.py --front --x checks --y hot_found out/points.csv > out/front.svg

A plan is a text in TOML: traces or scripts, the command of damon that runs them, values for settings
and for placeholders of schemes and commits, and what is measured. docs/SEARCH.md has one, line by line.

The rows come in the order of the plan. If the file of runs is there already, a search goes on behind
its last whole row, so one that was stopped is not lost. That the program and the traces are still the
same is not checked: remove the file if they changed.

What a search reads of a trace it keeps beside the file of runs, as `NAME.cut`. Later searches with runs
in the same folder take that, if the trace has the same hash and is read in the same way.

A plan with `conditions` and an `aim` is a question. Its answer comes on standard output:

  tools/search.py examples/quota.toml out/quota.csv

Damon judges each script. A run that it rejects, or that ends in another way, is a row with its status.
DAMON in the environment names the program; without it, that is the one that ./damon builds.
"""


def options_of() -> argparse.Namespace:
    """The options of this run. Raises UsageError."""
    result = parser(TOOL, "Runs damon with many settings and writes one row of measures for each run, as CSV.", EXAMPLE)
    add = result.add_argument
    add("plan", help="the plan, in TOML")
    add("runs", help="the file of runs, as CSV; a search goes on where it ends")
    add("--points", metavar="FILE", help="also write a row for each point, with means and spreads over its seeds")
    add("--trace", type=Path, metavar="FILE", help="a trace in place of those of the plan")
    add("--random", type=int, metavar="N", help="draw N points, and do not run all")
    add("--draw", type=int, default=1, metavar="SEED", help="with which number the drawing starts (1)")
    add("--jobs", type=int, default=os.cpu_count() or 1, metavar="N", help="processes on this machine (one for each processor)")
    add("--cluster", metavar="ADDRESS", help="the address of a scheduler of dask.distributed, whose workers make the runs")
    add("--timeout", type=float, default=60.0, metavar="SECONDS", help="the most that a run may take (60)")
    options = result.parse_args()
    for name, least in (("random", 1), ("jobs", 1), ("timeout", 0.001)):
        if getattr(options, name) is not None and not getattr(options, name) >= least:
            raise UsageError(f"--{name} must be at least {least:g}")
    if options.points and Path(options.points).resolve() in (Path(options.runs).resolve(), Path(options.plan).resolve()):
        raise UsageError("--points needs a file of its own, beside the plan and the runs")
    if not is_there():
        raise UsageError(f"there is no program {program()}: ./damon builds it, or {VARIABLE} in the environment names another")
    if options.cluster:
        # Said before the traces are read, which takes some time.
        distributed()
    return options


def search(options: argparse.Namespace) -> list[str]:
    """Makes all rows that are needed and not there. Gives the answer to the plan's question, and writes a note. Raises UsageError."""
    plan, path = plan_of(options.plan, options.trace), Path(options.runs)
    points = Points(plan, options.random, options.draw)
    try:
        made = searched(plan, points, path, Machine(options.jobs, options.cluster, options.timeout), {})
    except KeyboardInterrupt:
        # The file tells how many rows there are: the interrupt may have come between a row and its count.
        if path.exists():
            print(f"note: stopped with {rows_there(path)} of {counted(points.runs, 'run')}: the same command goes on", file=sys.stderr)
        raise
    if options.points:
        write_points(path, Path(options.points), plan.columns, plan.measures, len(points.seeds))
    needed = "" if plan.question.axis is None else f"{made.there + made.new} of them needed, "
    print(f"note: {counted(len(points), 'point')} with {counted(points.runs, 'run')}, {needed}{made.there} of them there before; "
          f"{made.failed} of the others have another status than ok", file=sys.stderr)
    return made.answer


def work() -> None:
    interrupt_once()
    for line in search(options_of()):
        print(line)


if __name__ == "__main__":
    run(TOOL, work)
