#!/usr/bin/env python3
"""Runs the plans of a study over many programs, and makes its tables and pictures.

docs/STUDY.md shows what came of it.
"""
from __future__ import annotations

import argparse
import os
import sys
from pathlib import Path

sys.path.insert(0, str(Path(__file__).resolve().parent))

from common import UsageError, parser, run
from scripts.judge import VARIABLE, is_there, program
from searching.cluster import distributed
from searching.searches import Machine, interrupt_once
from studying.study import Study, results_of, runs_of, write_page, write_pictures

TOOL = "study.py"
TOP = Path(__file__).resolve().parent.parent
EXAMPLE = """\
example:
  tools/study.py
  tools/trace_to_script.py --interval 10000 --grain 1000 --keep out/mine.cut TRACE > out/mine.damon
  tools/study.py --programs out/mine.cut --out out/mine

The first command repeats the whole study of docs/STUDY.md: the plans in study/plans over the programs in
study/traces. The other two do the same with a trace of your own: out/mine/pictures has its panels.

A trace of less than four million accesses needs a smaller --grain, since plans have up to 4,000 passes.

The folder gets `runs`, with a file of runs for each plan and program; `results`, with the mean, the least
and the greatest of each measure over the seeds; and `pictures`. A study can be stopped at any moment, and
the same command goes on. That the program and the traces are the same is not checked: remove the folder
if they changed.

With --write the results go to study/results, the pictures to docs/pictures, and the tables into
docs/STUDY.md. With --draw nothing is run: results that are there are read, and tables and pictures made.
"""


def options_of() -> argparse.Namespace:
    """The options of this run. Raises UsageError."""
    result = parser(TOOL, "Runs the plans of a study over many programs, and makes its tables and pictures.", EXAMPLE)
    add = result.add_argument
    add("--programs", nargs="+", type=Path, default=[TOP / "study/traces"], metavar="FILE",
        help="kept traces, or folders of them (study/traces)")
    add("--plan", action="append", default=[], metavar="NAME", help="this plan of study/plans alone; may be repeated")
    add("--only", action="append", default=[], metavar="NAME=VALUE",
        help="the points with this value of a setting alone, such as max=100; may be repeated")
    add("--out", type=Path, default=Path("out/study"), metavar="FOLDER", help="where runs, results and pictures go (out/study)")
    add("--write", action="store_true", help="write results, tables and pictures of the page in place of those in the folder")
    add("--draw", action="store_true", help="run nothing: make tables and pictures of the results that are there")
    add("--jobs", type=int, default=os.cpu_count() or 1, metavar="N", help="processes on this machine (one for each processor)")
    add("--cluster", metavar="ADDRESS", help="the address of a scheduler of dask.distributed, whose workers make the runs")
    add("--timeout", type=float, default=60.0, metavar="SECONDS", help="the most that a run may take (60)")
    options = result.parse_args()
    for name, least in (("jobs", 1), ("timeout", 0.001)):
        if not getattr(options, name) >= least:
            raise UsageError(f"--{name} must be at least {least:g}")
    if options.write and (options.plan or options.only or options.programs != [TOP / "study/traces"]):
        raise UsageError("--write is for the whole study, without --programs, --plan and --only")
    if not options.draw and not is_there():
        raise UsageError(f"there is no program {program()}: ./damon builds it, or {VARIABLE} in the environment names another")
    if options.cluster:
        # Said before the traces are read, which takes some time.
        distributed()
    return options


def work() -> None:
    interrupt_once()
    options = options_of()
    study = Study(TOP, options.out, options.write, tuple(options.plan), tuple(options.only))
    if not options.draw:
        for path in runs_of(study, options.programs, Machine(options.jobs, options.cluster, options.timeout)):
            print(f"note: {path}", file=sys.stderr)
    if options.plan or options.only:
        return
    for path in results_of(study):
        print(f"note: {path}", file=sys.stderr)
    for path in write_pictures(study):
        print(f"note: {path}", file=sys.stderr)
    if options.write:
        write_page(study)


if __name__ == "__main__":
    run(TOOL, work)
