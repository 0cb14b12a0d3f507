#!/usr/bin/env python3
"""Tests of what plans of a study need: numbers of passes, regions that stay, a trace of one's own, and what goals put out."""
from __future__ import annotations

import csv
import re
import tempfile
import unittest
from pathlib import Path
from typing import Any, Callable
from unittest import mock

from tool_runs import PROGRAM, Refusals, need_program, random_trace, report_of, run

from searching import runs
from searching.fixed import shares
from searching.plan import plan_of
from searching.points import Points
from searching.running import Ended, ran
from searching.runs import Inputs, outcome_of, script_of
from searching.table import PointError
from searching.traces import trace_workloads
from searching.workloads import Workload

TOOL = "search.py"
ROWS = re.compile(r"^aggregate .*? rows=([0-9]+)$", re.MULTILINE)
REGION = re.compile(r"^row ([0-9]+ 0x[0-9a-f]+-0x[0-9a-f]+) ", re.MULTILINE)
ENDED = re.compile(r"end ticks=([0-9]+) .* checks=([0-9]+)")
GOALS = """\
command = "tune"
traces = ["a.cut"]
goals = ["0:cold:{cold}:4096:409600", "0:hot:{hot}:8192:409600", "3:hot:500:4096:4096"]
schemes = ["scheme 0 pageout count=0,1 quota=204800,4 prefer=cold", "scheme 3 stat quota=40960,7", "scheme 4 pageout age=9,9"]
[settings]
passes = 90
max = 30
aggr = 4
seed = { from = 1, to = 3 }
[values]
cold = [300, 700, 900]
hot = [100, 800]
[measure]
columns = ["refaults", "tuned", "out", "pageouts"]
"""


def setUpModule() -> None:
    need_program()


class Kept(Refusals):
    """Each test has a folder with a kept trace of 150 intervals of 10 accesses."""

    def setUp(self) -> None:
        folder = tempfile.TemporaryDirectory()
        self.addCleanup(folder.cleanup)
        self.folder = Path(folder.name)
        made = run("trace_to_script.py", "--interval", "10", "--keep", str(self.folder / "a.cut"), text=random_trace(1, 1500))
        self.assertEqual(made.returncode, 0, made.stderr)

    def plan(self, text: str) -> str:
        path = self.folder / "plan.toml"
        path.write_text(text)
        return str(path)

    def rows(self, text: str, *words: str) -> list[dict[str, str]]:
        """The rows of a search, which must end well."""
        path = self.folder / "runs.csv"
        path.unlink(missing_ok=True)
        made = run(TOOL, self.plan(text), str(path), "--jobs", "1", *words)
        self.assertEqual(made.returncode, 0, made.stderr)
        return list(csv.DictReader(path.read_text().splitlines()))

    def inputs(self, text: str) -> tuple[Inputs, Workload]:
        plan = plan_of(self.plan(text))
        points = Points(plan, None, 1)
        found = dict(trace_workloads(plan, "a.cut", points.keys(True)["a.cut"]))
        return Inputs(plan, points, found, str(PROGRAM), 60), next(iter(found.values()))


class Passes(Kept):
    def test_the_nearest_multiple_of_an_interval(self) -> None:
        intervals = len(self.inputs('traces = ["a.cut"]\n[settings]\ninterval = 10\n')[1].passes)
        for passes in (1, 7, 50, 60, 100, 110, intervals, 5000):
            (row,) = self.rows(f'traces = ["a.cut"]\n[settings]\npasses = {passes}\nmax = 30\naggr = 5\n[measure]\ncolumns = ["checks"]\n')
            joined = int(row["interval"]) // 10
            nearest = min(range(1, intervals + 1), key=lambda count: (abs(intervals / passes - count), -count))
            self.assertEqual(joined, nearest, passes)

    def test_each_trace_has_its_own_interval(self) -> None:
        made = run("trace_to_script.py", "--interval", "10", "--keep", str(self.folder / "b.cut"), text=random_trace(2, 3000))
        self.assertEqual(made.returncode, 0, made.stderr)
        rows = self.rows('traces = ["a.cut", "b.cut"]\n[settings]\npasses = [50, 25]\nmax = 40\naggr = 5\n[measure]\ncolumns = ["checks"]\n')
        self.assertEqual([(row["workload"], row["interval"]) for row in rows],
                         [("a.cut", "20"), ("a.cut", "50"), ("b.cut", "50"), ("b.cut", "90")])

    def test_refusals(self) -> None:
        (self.folder / "raw.trace").write_bytes(random_trace(1, 100))
        for text, part in (('traces = ["raw.trace"]\n[settings]\npasses = 9\n', "is no kept trace"),
                           ('traces = ["a.cut"]\n[settings]\npasses = 9\ninterval = 10\n', "one of interval and passes"),
                           ('traces = ["a.cut"]\n[settings]\npasses = 0\n', "passes must be at least 1"),
                           ('scripts = ["a.damon"]\n[settings]\npasses = 9\n', "passes is for traces"),
                           ('scripts = ["a.damon"]\nfixed = true\n', "fixed is for traces"),
                           ('traces = ["a.cut"]\nfixed = 1\n', "fixed of the plan must be true or false")):
            self.refused(TOOL, [part], b"", self.plan(text), str(self.folder / "runs.csv"))


class Trace(Kept):
    def test_a_trace_in_place_of_those_of_a_plan(self) -> None:
        text = '[settings]\ninterval = 20\nmax = 30\naggr = 5\n'
        wanted = self.rows(f'traces = ["a.cut"]\n{text}')
        for own in ('traces = ["no.cut", "none.cut"]\n', 'scripts = ["no.damon"]\n'):
            if own.startswith("traces"):
                self.assertEqual(self.rows(own + text, "--trace", str(self.folder / "a.cut")), wanted)
            else:
                self.refused(TOOL, ["one of `traces` and `scripts`"], b"", self.plan(own + text), str(self.folder / "x.csv"),
                             "--trace", str(self.folder / "a.cut"))


class Fixed(Kept):
    def test_no_region_is_merged_or_split(self) -> None:
        """All aggregations have the same regions, as many as wanted, and each is checked in each pass."""
        text = 'traces = ["a.cut"]\nfixed = true\n[settings]\ninterval = 10\nmin = 3\nmax = [5, 6, 9, 20, 77, 400]\naggr = 3\n'
        inputs, workload = self.inputs(text)
        for number in range(inputs.points.runs):
            point, seed = inputs.points.run(number)
            script = script_of(inputs.plan, workload, point, seed).decode()
            regions = min(int(point.chosen["max"] or 0), workload.pages)
            self.assertEqual(script.count("\nrange "), regions)
            report = report_of(script)
            self.assertEqual({int(rows) for rows in ROWS.findall(report)}, {regions})
            blocks = report.split("\naggregate ")
            self.assertGreater(len(blocks), 20)
            self.assertEqual(len({tuple(REGION.findall(block.partition("\nshow ")[0])) for block in blocks}), 1)
            found = ENDED.search(report)
            assert found
            self.assertEqual(int(found[2]), regions * int(found[1]))

    def test_too_few(self) -> None:
        text = 'traces = ["a.cut"]\nfixed = true\n[settings]\ninterval = 10\nmin = 3\nmax = [4, 5]\naggr = 3\n[measure]\ncolumns = ["checks"]\n'
        few, enough = self.rows(text)
        self.assertEqual((few["status"], few["checks"], enough["status"]), ("4 fixed regions are too few for 5 targets", "", "ok"))

    def test_shares(self) -> None:
        self.assertEqual(shares([1, 10, 100], 3, 1), [1, 1, 1])
        self.assertEqual(shares([1, 10, 100], 14, 1), [1, 2, 11])
        self.assertEqual(shares([1, 10, 100], 500, 1), [1, 10, 100])
        self.assertEqual(shares([1, 10, 100], 500, 4), [1, 2, 25])
        with self.assertRaises(PointError):
            shares([1, 10, 100], 2, 1)


class Goals(Kept):
    def test_the_second_run_is_that_of_the_tuner(self) -> None:
        """Its aggregations are the same, line by line, so its quotas are those that the tuner chose."""
        rows = self.rows(GOALS)
        inputs, workload = self.inputs(GOALS)
        self.assertEqual({row["status"] for row in rows}, {"ok"})
        self.assertGreater(len({row["tuned"] for row in rows}), 3)
        self.assertGreater(len({row["out"] for row in rows}), 3)
        for number in (0, 4, 8, 17):
            point, seed = inputs.points.run(number)
            tuned = outcome_of(inputs, point, seed, workload).report or ""
            seen: list[str] = []
            with mock.patch.object(runs, "ran", self.seeing(seen)):
                self.assertEqual(runs.row_of(inputs, number), list(rows[number].values()))
            first, again = seen
            self.assertEqual(first, tuned)
            self.assertEqual(self.aggregations(again), self.aggregations(tuned))
            self.assertEqual(int(rows[number]["refaults"]), int(re.findall(r"refaults=([0-9]+)", again)[-1]))

    def seeing(self, seen: list[str]) -> Callable[..., Ended | None]:
        """What runs a program, and keeps its reports."""
        def seeing(*words: Any) -> Ended | None:
            ended = ran(*words)
            seen.append(ended.report if ended else "")
            return ended

        return seeing

    def aggregations(self, report: str) -> list[str]:
        """The lines of rows, slots and schemes of aggregations."""
        return re.findall(r"^(?:aggregate|row|slot|apply) .*$", report.partition("\nshow ")[0], re.MULTILINE)

    def test_refusals(self) -> None:
        for old, new in (('0:hot:{hot}', '0:metric:{hot}'), ('[settings]', 'commits = ["9:metric 4"]\n[settings]')):
            self.refused(TOOL, ["plans of traces without commits"], b"", self.plan(GOALS.replace(old, new, 1)), str(self.folder / "runs.csv"))


if __name__ == "__main__":
    unittest.main()
