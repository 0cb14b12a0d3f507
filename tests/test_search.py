#!/usr/bin/env python3
"""Tests of tools/search.py on one machine: its scripts, measures, rows and points, and how it goes on."""
from __future__ import annotations

import csv
import io
import os
import re
import signal
import statistics
import subprocess
import sys
import tempfile
import time
import unittest
from functools import partial
from pathlib import Path

from page_counts import Page, PageCounts, accuracy_of, aggregations_of
from tool_runs import PROGRAM, SECONDS, TOOLS, TOP, Refusals, need_program, random_trace, report_of, run, script_of

from reports.events import Report
from reports.memory import Memory
from searching.measures import RECLAIM, REPLAY, measured, measures_by, ratio
from searching.plan import Plan, plan_of
from searching.points import Points
from searching.runs import script_of as script_of_run
from searching.traces import trace_workloads
from searching.workloads import Workload, script_workload

TOOL = "search.py"
SCHEME = "scheme 0 pageout count=0,{most} age={age},4294967295 prefer=cold"
PLAN = """\
command = "reclaim"
traces = ["a.trace", "b.trace"]
gap = 4
schemes = ["scheme 0 pageout count=0,{most} age={age},4294967295 prefer=cold", "scheme 3 stat"]
commits = ["{when}:scheme 3 cold", "40:attrs 5 30 7", "40:metric 7", "5000:drop 3"]

[settings]
interval = [9, 20]
max = [30, 60]
aggr = { from = 3, to = 9, step = 3 }
seed = [5, 9]

[values]
age = [1, 4]
most = 1
when = 10
"""
SMALL = """\
traces = ["a.trace"]
[settings]
interval = 10
min = { from = 3, to = 14 }
max = 12
aggr = [2, 5]
seed = { from = 1, to = 3 }
"""


def setUpModule() -> None:
    need_program()


class Searches(unittest.TestCase):
    """Each test has a folder with two traces and the plans."""

    def setUp(self) -> None:
        folder = tempfile.TemporaryDirectory()
        self.addCleanup(folder.cleanup)
        self.folder = Path(folder.name)
        for name, seed in (("a", 1), ("b", 2)):
            (self.folder / f"{name}.trace").write_bytes(random_trace(seed, 1500))
        (self.folder / "plan.toml").write_text(PLAN)
        (self.folder / "small.toml").write_text(SMALL)

    def search(self, plan: str, name: str, *words: str, program: Path = PROGRAM) -> tuple[bytes, str]:
        """The file of runs, and what the tool says."""
        ran = run(TOOL, str(self.folder / plan), str(self.folder / name), *words, program=program)
        self.assertEqual((ran.returncode, ran.stdout), (0, b""), ran.stderr)
        return (self.folder / name).read_bytes(), ran.stderr.decode()

    def rows(self, text: bytes) -> list[dict[str, str]]:
        return list(csv.DictReader(io.StringIO(text.decode())))

    def program(self, body: str) -> Path:
        """A stand-in for damon."""
        path = self.folder / "program"
        path.write_text(f"#!/bin/sh\n{body}\n")
        path.chmod(0o755)
        return path


class Scripts(Searches):
    def test_the_scripts_are_those_of_trace_to_script(self) -> None:
        plan = plan_of(str(self.folder / "plan.toml"))
        points = Points(plan, None, 1)
        self.assertEqual(points.runs, 2 * 2 * 2 * 3 * 2 * 2)
        found = workloads(plan, points)
        for number in range(0, points.runs, 7):
            point, seed = points.run(number)
            chosen = point.settings(found[point.key(True)])
            words = [f"--{name}={chosen[name]}" for name in ("interval", "unit", "cap", "min", "max", "aggr")]
            words += [f"--seed={seed}", "--gap=4", "--scheme", SCHEME.format(**chosen), "--scheme", "scheme 3 stat",
                      "--at", "10:scheme 3 cold", "--at", "40:attrs 5 30 7", "--at", "40:metric 7"]
            wanted = script_of((self.folder / point.workload).read_bytes(), *words)
            given = script_of_run(plan, found[point.key(True)], point, seed).decode()
            self.assertEqual(given, wanted)
            self.assertEqual(given.count("commit"), 2)

    def test_the_scripts_of_scripts_are_those_of_settings(self) -> None:
        text = script_of(random_trace(3, 900), "--interval", "10", "--scheme", "scheme 0 stat", "--scheme", "scheme 1 cold")
        (self.folder / "a.damon").write_text(text)
        (self.folder / "own.toml").write_text('scripts = ["a.damon"]\nschemes = ["scheme 1 pageout age={age},9"]\n'
                                              "[settings]\nmax = [20, 400]\naggr = 4\n[values]\nage = [2, 3]\n")
        plan = plan_of(str(self.folder / "own.toml"))
        points = Points(plan, None, 1)
        workload = script_workload(plan, "a.damon")
        for number in range(points.runs):
            point, seed = points.run(number)
            chosen = point.settings(workload)
            ran = run("settings.py", f"--max={chosen['max']}", "--aggr=4", "--scheme", f"scheme 1 pageout age={chosen['age']},9",
                      text=text.encode())
            self.assertEqual(script_of_run(plan, workload, point, seed), ran.stdout, ran.stderr)
        runs = self.rows(self.search("own.toml", "own.csv")[0])
        self.assertEqual([(row["cap"], row["max"], row["interval"], row["seed"]) for row in runs],
                         [("100", "20", "", "1")] * 2 + [("400", "400", "", "1")] * 2)


def workloads(plan: Plan, points: Points) -> dict[object, Workload]:
    return {key: made for name, keys in points.keys(True).items() for key, made in trace_workloads(plan, name, keys)}


def out_through(exact: list[PageCounts], found: list[PageCounts]) -> int:
    """The pages that were out through a whole aggregation, added up, followed page by page."""
    out: set[Page] = set()
    total = 0
    for one, other in zip(exact, found):
        out -= {page for page, count in one["counts"].items() if count}
        total += len(out)
        for _, action, pages in other["applied"]:
            out = out | set(pages) if action == "pageout" else out - set(pages) if action == "willneed" else out
    return total


class Measures(Searches):
    """The measures are those that page by page counting gives, and what `damon reclaim` says at the end."""

    def test_measures_of_traces(self) -> None:
        plan = plan_of(str(self.folder / "plan.toml"))
        points = Points(plan, None, 1)
        found = workloads(plan, points)
        for number in range(0, points.runs, 5):
            point, seed = points.run(number)
            report = report_of(script_of_run(plan, found[point.key(True)], point, seed).decode(), RECLAIM)
            (self.folder / "report").write_text(report)
            words = ("--gap=4", f"--interval={point.chosen['interval']}", f"--like={self.folder / 'report'}")
            counts = run("exact_counts.py", *words, str(self.folder / point.workload))
            self.same(report, counts.stdout.decode(), found[point.key(True)], 0.5, RECLAIM)

    def test_measures_of_a_script_with_shows(self) -> None:
        trace = random_trace(7, 1200)
        words = ("--interval", "10", "--aggr", "4", "--gap", "2", "--scheme", "scheme 2 pageout count=0,0 age=1,9",
                 "--scheme", "scheme 5 willneed count=1,9")
        text = script_of(trace, *words).replace("finish\narm", "finish\nshow\narm", 20)
        (self.folder / "a.damon").write_text(text)
        (self.folder / "own.toml").write_text('scripts = ["a.damon"]\n[measure]\nhot = 0.25\n')
        plan = plan_of(str(self.folder / "own.toml"))
        counts = run("exact_counts.py", *words[:6], text=trace).stdout.decode()
        for command in (REPLAY, RECLAIM):
            self.same(report_of(text, command), counts, script_workload(plan, "a.damon"), 0.25, command)

    def same(self, report: str, counts: str, workload: Workload, share: float, command: str) -> None:
        exact, found = aggregations_of(counts), aggregations_of(report)
        self.assertEqual([one["tick"] for one in exact], [one["tick"] for one in found])
        self.assertGreater(len(found), 3)
        total = accuracy_of(exact, found, share)
        applied = sum(len(pages) for one in found for _, _, pages in one["applied"])
        pageout = sum(len(pages) for one in found for _, action, pages in one["applied"] if action == "pageout")
        given = measured(report, workload.truths, share, measures_by(command))
        self.assertEqual({*given}, {*measures_by(command)})
        end = [event for event in Report(report.splitlines(keepends=True)).events() if isinstance(event, Memory)][-1:]
        self.assertEqual(len(end), command == RECLAIM)
        self.assertEqual(given, {
            "checks": re.findall(r"^end .* checks=(\d+) ", report, re.MULTILINE)[0],
            "hot_found": ratio(total["hot both"], total["hot"]),
            "hot_false": ratio(total["hot called"] - total["hot both"], total["hot called"]),
            "cold_false": ratio(total["cold called"] - total["cold both"], total["cold called"]),
            "working_set_error": ratio(total["called"] - total["used"], total["used"]),
            "applied": str(applied),
            **{name: text for one in end for name, text in (
                ("pageouts", str(one.pageouts)), ("refaults", str(one.refaults)),
                ("out", ratio(out_through(exact, found), len(found))), ("again", ratio(pageout - one.pageouts, pageout)))}})
        self.assertGreater(applied, 0)


class Files(Searches):
    def test_rows_do_not_depend_on_the_order_of_runs(self) -> None:
        whole, _ = self.search("small.toml", "one.csv", "--jobs", "1")
        rows = self.rows(whole)
        self.assertEqual(len(rows), 72)
        self.assertEqual([row["seed"] for row in rows[:4]], ["1", "2", "3", "1"])
        slow = self.program(f'sleep 0.0$(($(od -An -N1 -tu1 /dev/urandom) % 6))\nexec {PROGRAM} "$@"')
        self.assertEqual(self.search("small.toml", "four.csv", "--jobs", "4", program=slow)[0], whole)

    def test_it_goes_on_where_it_was(self) -> None:
        whole, _ = self.search("small.toml", "one.csv")
        path = self.folder / "one.csv"
        lines = whole.splitlines(keepends=True)
        some = b"".join(lines[:30])
        for kept, more in ((b"", b""), (b"", b"work"), (lines[0], b""), (some, b""), (some, b"a.tra"),
                           (b"".join(lines[:-1]), lines[-1][:-1]), (whole, b"")):
            path.write_bytes(kept + more)
            given, said = self.search("small.toml", "one.csv")
            self.assertEqual(given, whole)
            self.assertIn(f"24 points with 72 runs, {max(0, kept.count(bytes([10])) - 1)} of them there before", said)

    def test_it_is_interrupted_and_goes_on(self) -> None:
        whole, _ = self.search("small.toml", "one.csv")
        # So slow that much is left to do once the first rows are there.
        slow = self.program(f'sleep 0.2\nexec {PROGRAM} "$@"')
        path = self.folder / "two.csv"
        words = [sys.executable, str(TOOLS / TOOL), str(self.folder / "small.toml"), str(path), "--jobs", "2"]
        # A shell in the background ignores the signal, and what it starts would ignore it too.
        heed = partial(signal.signal, signal.SIGINT, signal.SIG_DFL)
        with subprocess.Popen(words, stderr=subprocess.PIPE, env={**os.environ, "DAMON": str(slow)}, preexec_fn=heed) as tool:
            self.wait_for(path, 12)
            # More than once, as somebody does who is impatient: also while the tool ends.
            while tool.poll() is None:
                tool.send_signal(signal.SIGINT)
                time.sleep(0.01)
            said = tool.communicate(timeout=SECONDS)[1]
        self.assertEqual(tool.returncode, 128 + signal.SIGINT)
        rows = path.read_bytes().count(b"\n") - 1
        self.assertEqual(said.decode(), f"note: stopped with {rows} of 72 runs: the same command goes on\n")
        self.assertLess(rows, 72)
        self.assertTrue(whole.startswith(path.read_bytes()))
        self.assertEqual(self.search("small.toml", "two.csv")[0], whole)

    def wait_for(self, path: Path, lines: int) -> None:
        end = time.monotonic() + SECONDS
        while not path.exists() or path.read_bytes().count(b"\n") < lines:
            self.assertLess(time.monotonic(), end)
            time.sleep(0.01)

    def test_points_are_means_and_spreads(self) -> None:
        whole, _ = self.search("small.toml", "one.csv", "--points", str(self.folder / "points.csv"))
        rows = self.rows(whole)
        points = self.rows((self.folder / "points.csv").read_bytes())
        self.assertEqual(len(points), 24)
        for number, point in enumerate(points):
            same = [row for row in rows[3 * number : 3 * number + 3] if row["status"] == "ok"]
            self.assertEqual((point["min"], point["runs"], point["done"]), (rows[3 * number]["min"], "3", str(len(same))))
            for name in measures_by(REPLAY):
                numbers = [float(row[name]) for row in same if row[name]]
                self.assertEqual(point[f"{name} mean"], f"{statistics.mean(numbers):.4f}" if numbers else "")
                self.assertEqual(point[f"{name} spread"], f"{statistics.stdev(numbers):.4f}" if len(numbers) > 1 else "")

    def test_measures_that_are_chosen(self) -> None:
        (self.folder / "few.toml").write_text('command = "reclaim"\n' + SMALL + '[measure]\ncolumns = ["out", "checks"]\n')
        rows = self.rows(self.search("few.toml", "few.csv", "--timeout", "1e12")[0])
        others = self.rows(self.search("small.toml", "one.csv")[0])
        self.assertEqual([*rows[0]][-3:], ["out", "checks", "status"])
        self.assertEqual([row["checks"] for row in rows], [row["checks"] for row in others])

    def test_random_points(self) -> None:
        whole = self.rows(self.search("small.toml", "one.csv")[0])
        found = {}
        for words in (("--random", "5"), ("--random", "5", "--draw", "2"), ("--random", "24"), ("--random", "99")):
            name = "".join(words) + ".csv"
            rows = found[words] = self.rows(self.search("small.toml", name, *words)[0])
            self.assertEqual(len(rows), 3 * min(24, int(words[1])))
            places = [whole.index(row) for row in rows]
            self.assertEqual(places, sorted(set(places)))
        self.assertNotEqual(found["--random", "5"], found["--random", "5", "--draw", "2"])
        self.assertEqual(found["--random", "99"], whole)


class Failures(Searches):
    def test_runs_that_damon_rejects_are_rows(self) -> None:
        rows = self.rows(self.search("small.toml", "one.csv")[0])
        wrong = [row for row in rows if int(row["min"]) > 12]
        self.assertEqual({row["status"] for row in wrong}, {"line 5: bad attrs"})
        self.assertEqual({row["checks"] for row in wrong}, {""})
        self.assertEqual({row["status"] for row in rows if row not in wrong}, {"ok"})

    def test_other_ends_are_rows_too(self) -> None:
        for body, status in (("kill -9 $$", "ended by signal 9"), ("exit 7", "status 7"), ("echo a, b >&2; echo c >&2; exit 7", "a, b c"),
                             ("sleep 30", "no answer within 0.2 s"), ("true", "the report has no last line"),
                             ("echo end ticks=1 rows=1 checks=5 hits=0", "ok"),
                             ("printf 'aggregate tick=2 threshold=0\\nrow 9 0x0-0x1000 count=1\\nend checks=5 hits=0\\n'",
                              "not a report of this workload: pages that are not watched: 9 0x0-0x1000")):
            with self.subTest(body=body):
                name = f"{abs(hash(body))}.csv"
                limit = ("--timeout", "0.2") if body.startswith("sleep") else ()
                given, said = self.search("small.toml", name, *limit, "--random", "1", program=self.program(body))
                self.assertEqual({row["status"] for row in self.rows(given)}, {status})
                self.assertIn(f"{0 if status == 'ok' else 3} of the others have another status than ok", said)

    def test_reports_without_what_reclaim_says(self) -> None:
        (self.folder / "few.toml").write_text('command = "reclaim"\n' + SMALL)
        for name, body in (("none", f"exec {PROGRAM} replay"), ("less", f"{PROGRAM} reclaim | sed '1,/^reclaim/{{/^reclaim/d}}'")):
            rows = self.rows(self.search("few.toml", name, "--random", "1", program=self.program(body))[0])
            self.assertEqual({row["status"] for row in rows}, {"the report does not say after each aggregation how many pages are out"})

    def test_a_commit_before_no_interval(self) -> None:
        (self.folder / "odd.toml").write_text('traces = ["a.trace"]\ncommits = ["{when}:metric 5"]\n[values]\nwhen = ["3", "x"]\n')
        rows = self.rows(self.search("odd.toml", "odd.csv")[0])
        self.assertEqual([row["status"] for row in rows],
                         ["ok", "a commit comes before an interval, which is a number from 0, and not 'x'"])


class Errors(Searches, Refusals):
    def taken_from(self, plan: str, *parts: str) -> None:
        path = self.folder / "wrong.toml"
        path.write_text(plan)
        with self.subTest(plan=plan):
            self.refused(TOOL, [str(path), *parts], b"", str(path), str(self.folder / "wrong.csv"))
            self.assertFalse((self.folder / "wrong.csv").exists())

    def test_plans(self) -> None:
        start = 'traces = ["a.trace"]\n'
        self.taken_from("x = ", "Invalid value")
        for plan in ("", start + 'scripts = ["b"]'):
            self.taken_from(plan, "one of `traces` and `scripts`")
        self.taken_from("traces = 5", "traces", "a list")
        self.taken_from("traces = [5]", "traces", "a list of texts")
        self.taken_from(start + "more = 5", "'more'")
        self.taken_from(start + "[settings]\nmore = 5", "[settings]", "'more'")
        self.taken_from(start + "[measure]\nmore = 5", "[measure]", "'more'")
        self.taken_from(start + 'command = "json"', "command", "replay, reclaim")
        self.taken_from(start + 'clock = "days"', "clock", "microseconds")
        self.taken_from(start + 'form = "x"', "form", "lackey, memtrace, pinatrace, perf, plain")
        self.taken_from(start + 'take = ["x"]', "take", "loads")
        self.taken_from(start + "gap = -1", "gap")
        self.taken_from(start + "gap = true", "gap")
        self.taken_from('scripts = ["b"]\ngap = 1', "gap is for traces")
        self.taken_from('scripts = ["b"]\n[settings]\ninterval = 1', "interval is for traces")
        for value in ('"5"', "[]", "[1, 1]", "1.5", "true", '["a"]', "{ from = 1 }", "{ from = 2, to = 1 }",
                      "{ from = 1, to = 2, step = 0 }", "{ from = 1, to = 2, by = 1 }", "{ from = 0, to = 99999999 }"):
            self.taken_from(f"{start}[settings]\naggr = {value}", "aggr")
        self.taken_from(start + 'schemes = ["range 0"]', "scheme")
        self.taken_from(start + 'schemes = ["scheme 0 stat\\nbegin"]', "schemes", "one line")
        self.taken_from(start + 'schemes = ["scheme 0 st\u00e4t"]', "ASCII")
        self.taken_from(start + 'commits = ["metric 5"]', "INTERVAL:LINE")
        self.taken_from(start + 'commits = ["x:metric 5"]', "a number from 0")
        self.taken_from(start + 'commits = ["5:begin"]', "INTERVAL:LINE")
        self.taken_from(start + 'commits = ["5:range 0 0x0 0x1000 0"]', "cannot change ranges")
        for text in ("{age}", "{}", "{0}", "{age!r}", "{age:5}", "{age.x}"):
            self.taken_from(f'{start}schemes = ["scheme 0 stat {text}"]', "placeholder")
        self.taken_from(start + 'schemes = ["scheme 0 stat {age"]', "brace")
        self.taken_from(start + "[values]\nage = 5", "[values] has age")
        self.taken_from(start + 'schemes = ["scheme {max} stat"]\n[values]\nmax = 5', "'max'")
        self.taken_from(start + "[measure]\nhot = 0", "hot")
        self.taken_from(start + '[measure]\ncolumns = ["x"]', "columns", "checks")
        self.taken_from(start + '[measure]\ncolumns = ["out"]', "columns", "'out'", 'command = "reclaim"')

    def test_too_many_points(self) -> None:
        path = self.folder / "wrong.toml"
        axes = "\n".join(f"{name} = {{ from = 0, to = 999999 }}" for name in ("min", "max", "aggr", "unit"))
        path.write_text(f'traces = ["a.trace"]\n[settings]\n{axes}\n')
        self.refused(TOOL, ["the plan has more than 1152921504606846976 points"], b"", str(path), str(self.folder / "wrong.csv"))

    def test_workloads(self) -> None:
        (self.folder / "odd.damon").write_text("damon script 1\nbegin\nend\n")
        for name, parts in (("no-such", ["No such file"]), ("odd.damon", ["line 1: not a line of lackey"])):
            path = self.folder / "wrong.toml"
            path.write_text(f'traces = ["{name}"]\n')
            self.refused(TOOL, [str(self.folder / name), *parts], b"", str(path), str(self.folder / "wrong.csv"))
        setup = (TOP / "examples/first.damon").read_text().split("begin\n")[0] + "begin\n"
        for text, parts in (("x\n", ["no line `begin`"]), ("damon script 1\nbegin\nend\n", ["`attrs`"]),
                            (setup + "step 4\nend\n", ["line 9: 'step 4'"]), (setup + "touch 0 0x11000\nend\n", ["line 9: 'touch"]),
                            (setup + "arm\nshow\nfinish\nend\n", ["line 10: 'show'"]), (setup + "arm\nend\n", ["line 10: 'end'"]),
                            (setup + "arm\nfinish\ncommit\nrange 0 0x10000 0x11000 0\napply\nend\n", ["line 12: 'range"])):
            (self.folder / "own.damon").write_text(text)
            path.write_text('scripts = ["own.damon"]\n')
            with self.subTest(text=text):
                self.refused(TOOL, [f"{self.folder / 'own.damon'}: ", *parts], b"", str(path), str(self.folder / "wrong.csv"))

    def test_files_of_other_plans(self) -> None:
        whole, _ = self.search("small.toml", "one.csv")
        path, plan = self.folder / "one.csv", str(self.folder / "small.toml")
        for text, line in ((whole.replace(b"a.trace,10,1,12,3,12,2,2", b"a.trace,10,1,12,3,12,2,7"), 3), (whole + b"a.trace\n", 74),
                           (b"x\n", 1), (whole.replace(b"ok\n", b"ok,5\n", 1), 2), (whole.replace(b"a.trace", b'"a.trace', 1), 2)):
            path.write_bytes(text)
            with self.subTest(line=line):
                self.refused(TOOL, [f"{path}: line {line} is not of this plan"], b"", plan, str(path))
                self.assertEqual(path.read_bytes(), text)

    def test_options(self) -> None:
        plan, path = str(self.folder / "small.toml"), str(self.folder / "one.csv")
        for option, value in (("--random", "0"), ("--jobs", "0"), ("--timeout", "0"), ("--timeout", "nan")):
            self.refused(TOOL, [f"{option} must be at least"], b"", plan, path, option, value)
        for same in (plan, path):
            self.refused(TOOL, ["--points needs a file of its own"], b"", plan, path, "--points", same)
        ran = run(TOOL, plan, path, program=self.folder / "nothing")
        self.assertEqual((ran.returncode, b"there is no program" in ran.stderr), (2, True))


if __name__ == "__main__":
    unittest.main()
