#!/usr/bin/env python3
"""Measures the tools: each command of docs/TUTORIAL.md, and searches beside their runs alone.

    tests/measure_tools.py TURNS

goes through the page TURNS times and makes two searches as often. Numbers are seconds of processor time, of a command and of all
that it started: other work on the machine changes them less than times by the clock. The least of the turns is taken. The first
command of the page reads the trace and keeps it, and those after it take what was kept. Left out are the commands that the tests
of the page leave out. A search has one process, and reads a kept trace; its runs alone are `damon` on the same scripts, which
stand in files, one after another. With `checks` as its one measure a search reads the last line of each report, so this is what
the pool takes; the rest of the whole search is the reading of rows.
"""
from __future__ import annotations

import os
import re
import resource
import subprocess
import sys
import tempfile
from pathlib import Path
from typing import Iterator, NamedTuple

from pages import BLOCK, UNTRIED, is_a_command
from tool_runs import KEPT, PROGRAM, TOOLS, TOP, need_program

from searching.plan import plan_of
from searching.points import Points
from searching.runs import script_of
from searching.searches import workloads_of

PAGE = TOP / "docs/TUTORIAL.md"
PLAN = TOP / "examples/search.toml"
SMALL_RUNS = 2000
SMALL = 'scripts = ["{path}"]\n[settings]\nseed = {{ from = 1, to = {runs} }}\n'
"""A plan of runs that take about a millisecond each."""
CHECKS = '\n[measure]\ncolumns = ["checks"]\n'
HIDDEN = re.compile(r"^<!--$.*?^-->$", re.MULTILINE | re.DOTALL)
"""What a reader does not see: blocks whose commands print the numbers of a paragraph."""


class Search(NamedTuple):
    """A search beside its runs."""

    runs: int
    whole: float
    alone: float


def spent() -> float:
    """What all processes that have ended took."""
    usage = resource.getrusage(resource.RUSAGE_CHILDREN)
    return usage.ru_utime + usage.ru_stime


def seconds(words: str, folder: Path) -> float:
    """What a command of a page takes, whose folder `out` is another one."""
    line = words.replace("out/", f"{folder}/").replace("./damon", str(PROGRAM))
    before = spent()
    status = subprocess.call(line, shell=True, cwd=TOP, stdout=subprocess.DEVNULL, stderr=subprocess.DEVNULL,
                             env={**os.environ, "DAMON": str(PROGRAM)})
    if status and not words.startswith("tools/explain.py"):
        raise RuntimeError(f"{words}: status {status}")
    return spent() - before


def commands_of(page: str) -> list[str]:
    """The commands that a page shows and that run anywhere."""
    shown = HIDDEN.sub("", page)
    blocks = [block for block in BLOCK.findall(shown) if not any(word in block for word in UNTRIED)]
    return [line for block in blocks for line in block.splitlines() if is_a_command(line)]


def tutorial(commands: list[str]) -> list[float]:
    """What each command takes, one after another."""
    with tempfile.TemporaryDirectory() as folder:
        return [seconds(line, Path(folder)) for line in commands]


def scripts_of(path: Path, folder: Path) -> tuple[str, list[bytes]]:
    """The command of a plan, and the scripts of all its runs."""
    plan = plan_of(str(path))
    points = Points(plan, None, 1)
    workloads = workloads_of(plan, points, folder, {})
    runs = map(points.run, range(points.runs))
    return plan.command, [script_of(plan, workloads[point.key(plan.are_traces)], point, seed) for point, seed in runs]


def alone(command: str, scripts: list[bytes], folder: Path) -> float:
    """What runs take without a search."""
    source, report = folder / "script", folder / "report"
    before = spent()
    for script in scripts:
        source.write_bytes(script)
        with source.open("rb") as text, report.open("wb") as out:
            subprocess.run([PROGRAM, command], stdin=text, stdout=out, stderr=subprocess.DEVNULL, check=True)
    return spent() - before


def searched(plan: Path, turns: int) -> Search:
    with tempfile.TemporaryDirectory() as name:
        folder = Path(name)
        command, scripts = scripts_of(plan, folder)
        whole, own = [], []
        for turn in range(turns):
            whole.append(seconds(f"{TOOLS}/search.py --jobs 1 {plan} {folder}/runs{turn}.csv", folder))
            own.append(alone(command, scripts, folder))
        return Search(len(scripts), min(whole), min(own))


def plans(text: str) -> Iterator[tuple[str, str]]:
    """The plans of the searches, by what they are called."""
    whole = text.replace(f'"{KEPT.name}"', f'"{KEPT}"')
    yield "`examples/search.toml`", whole
    yield "the same with `checks` alone measured", whole + CHECKS
    yield "seeds of `examples/cold.damon`", SMALL.format(path=TOP / "examples/cold.damon", runs=SMALL_RUNS)


def main() -> None:
    need_program()
    turns, commands = int(sys.argv[1]), commands_of(PAGE.read_text())
    print("| command | seconds |\n|---|---|", flush=True)
    for line, times in zip(commands, zip(*(tutorial(commands) for _ in range(turns)))):
        print(f"| `{line}` | {min(times):.2f} |")
    print("\n| search | runs | seconds | runs alone | ratio |\n|---|---|---|---|---|", flush=True)
    with tempfile.TemporaryDirectory() as folder:
        for name, text in plans(PLAN.read_text()):
            plan = Path(folder) / "plan.toml"
            plan.write_text(text)
            found = searched(plan, turns)
            print(f"| {name} | {found.runs} | {found.whole:.1f} | {found.alone:.1f} | {found.whole / found.alone:.2f} |", flush=True)


if __name__ == "__main__":
    main()
