#!/usr/bin/env python3
"""Tests of plans that ask a question, tune quotas, measure a target, say a version, or cannot be written; and of kept traces."""
from __future__ import annotations

import csv
import io
import re
import subprocess
import tempfile
import unittest
from pathlib import Path
from statistics import mean

from tool_runs import PROGRAM, Refusals, need_program, random_trace, report_of, run, script_of

TOOL = "search.py"
PLAN = """\
command = "reclaim"
traces = ["a.trace"]
schemes = ["scheme 0 pageout count=0,0 age={age},4294967295 quota={quota},6 prefer=cold"]
conditions = ["out >= OUT % of pages", "refaults <= EACH an aggregation"]
aim = "least quota"
[settings]
interval = 20
aggr = 3
seed = [1, 2]
[values]
age = [1, 3, 9]
quota = { from = 4096, to = 98304, step = 4096 }
"""


def setUpModule() -> None:
    need_program()


class Questions(unittest.TestCase):
    """Each test has a folder with two traces."""

    def setUp(self) -> None:
        folder = tempfile.TemporaryDirectory()
        self.addCleanup(folder.cleanup)
        self.folder = Path(folder.name)
        for name, seed in (("a", 1), ("b", 2)):
            (self.folder / f"{name}.trace").write_bytes(random_trace(seed, 2500))

    def search(self, plan: str, name: str, *words: str) -> tuple[list[str], str, list[dict[str, str]]]:
        """The answer, the note and the rows."""
        (self.folder / f"{name}.toml").write_text(plan)
        path = self.folder / f"{name}.csv"
        ran = run(TOOL, str(self.folder / f"{name}.toml"), str(path), *words)
        self.assertEqual(ran.returncode, 0, ran.stderr)
        return ran.stdout.decode().splitlines(), ran.stderr.decode(), list(csv.DictReader(io.StringIO(path.read_text())))

    def all_points(self, plan: str, name: str) -> dict[tuple[str, str, int], tuple[float, float]]:
        """For each workload, age and quota what is out, in hundredths of the pages, and the refaults of an aggregation."""
        without = "".join(line for line in plan.splitlines(keepends=True) if not line.startswith(("conditions", "aim")))
        rows = self.search(without, name)[2]
        found: dict[tuple[str, str, int], list[tuple[float, float]]] = {}
        scripts = {name: script_of((self.folder / name).read_bytes(), "--interval", "20") for name in {row["workload"] for row in rows}}
        for row in rows:
            script = scripts[row["workload"]]
            pages = sum(int(line.split()[2]) for line in script.splitlines() if line.startswith("target "))
            aggregations = script.count("\narm\n") // 3
            found.setdefault((row["workload"], row["age"], int(row["quota"])), []).append(
                (100 * float(row["out"]) / pages, float(row["refaults"]) / aggregations))
        return {key: (mean(out for out, _ in values), mean(each for _, each in values)) for key, values in found.items()}


class Settings(Questions):
    def test_the_least_quota_is_that_of_all_points(self) -> None:
        known = self.all_points(PLAN.replace("OUT", "0").replace("EACH", "0"), "all")
        for out, each in (("10", "9"), ("25", "30"), ("30", "3"), ("99", "99")):
            plan = PLAN.replace("OUT", out).replace("EACH", each)
            with self.subTest(out=out, each=each):
                meeting = {key: values for key, values in known.items() if values[0] >= float(out) and values[1] <= float(each)}
                answer, note, rows = self.search(plan, f"some-{out}")
                given = [re.fullmatch(r"a\.trace: age (\d+), quota (\d+), out (\S+) % of pages, refaults (\S+) an aggregation", line)
                         for line in answer if "quota" in line and "alone" not in line]
                if not meeting:
                    self.assertEqual(answer[0], "a.trace: no point meets all conditions")
                    continue
                least = min(quota for _, _, quota in meeting)
                wanted = [("a.trace", age, quota) for _, age, quota in meeting if quota == least]
                self.assertEqual([("a.trace", one[1], int(one[2])) for one in given if one], wanted, answer)
                for key, one in zip(wanted, given):
                    assert one
                    self.assertEqual((one[3], one[4]), tuple(f"{value:.4g}" for value in known[key]))
                # For each other age its own least quota follows.
                others = {age: min(quota for _, own, quota in meeting if own == age) for _, age, _ in meeting}
                given_others = [re.findall(r": then age (\d+), quota (\d+),", line) for line in answer]
                self.assertEqual({age: int(quota) for some in given_others for age, quota in some},
                                 {age: quota for age, quota in others.items() if quota != least})
                self.assertIn(f"72 points with 144 runs, {len(rows)} of them needed, 0 of them there before", note)

    def test_few_points_are_run_and_it_goes_on(self) -> None:
        plan = PLAN.replace("OUT", "10").replace("EACH", "99")
        answer, _, rows = self.search(plan, "whole")
        self.assertLess(len(rows), 72)
        whole = (self.folder / "whole.csv").read_bytes()
        lines = whole.splitlines(keepends=True)
        for kept in (1, 5, len(lines) - 3, len(lines)):
            (self.folder / "whole.csv").write_bytes(b"".join(lines[:kept]))
            again, note, _ = self.search(plan, "whole")
            self.assertEqual((again, (self.folder / "whole.csv").read_bytes()), (answer, whole))
            self.assertIn(f"{max(0, kept - 1)} of them there before", note)

    def test_the_greatest_one(self) -> None:
        plan = PLAN.replace("OUT", "5").replace("EACH", "12").replace("least quota", "most quota")
        known = self.all_points(plan, "all")
        meeting = [key for key, values in known.items() if values[0] >= 5 and values[1] <= 12]
        answer = self.search(plan, "some")[0]
        most = max(quota for _, _, quota in meeting)
        best = [line for line in answer if ": then " not in line]
        self.assertEqual([f"quota {most}," in line for line in best], [True] * sum(quota == most for _, _, quota in meeting))

    def test_one_setting_for_all_workloads(self) -> None:
        plan = PLAN.replace("OUT", "15").replace("EACH", "40").replace('["a.trace"]', '["a.trace", "b.trace"]')
        known = self.all_points(plan, "all")
        meets = {key for key, values in known.items() if values[0] >= 15 and values[1] <= 40}
        both = [(quota, age) for name, age, quota in meets if name == "a.trace" and ("b.trace", age, quota) in meets]
        answer = self.search(plan, "some")[0]
        given = [line for line in answer if line.startswith("all workloads: age")]
        self.assertEqual([f"quota {min(both)[0]}," in line for line in given], [True] * len(given), answer)
        self.assertEqual(len(given), sum(quota == min(both)[0] for quota, _ in both))


class Measures(Questions):
    def test_the_best_by_a_measure_and_a_front(self) -> None:
        start = PLAN.replace("OUT", "10").replace("EACH", "40").replace("step = 4096", "step = 24576")
        known = self.all_points(start, "all")
        meeting = {key: values for key, values in known.items() if values[0] >= 10 and values[1] <= 40}
        answer = self.search(start.replace('"least quota"', '"most out"'), "one")[0]
        best = max(meeting, key=lambda key: meeting[key][0])
        self.assertIn(f"a.trace: age {best[1]}, quota {best[2]}, out {meeting[best][0]:.4g} % of pages", answer[0])
        front = [key for key, (out, each) in meeting.items() if not any(
            (more >= out and less <= each and (more, less) != (out, each)) for more, less in meeting.values())]
        answer = self.search(start.replace('"least quota"', '["most out", "least refaults"]'), "two")[0]
        self.assertEqual([tuple(re.findall(r"(?:age|quota) (\d+)", line)) for line in answer if "quota" in line],
                         [(age, str(quota)) for _, age, quota in front])

    def test_what_each_condition_comes_to_alone(self) -> None:
        plan = PLAN.replace("OUT", "99").replace("EACH", "0").replace("step = 4096", "step = 24576")
        known = self.all_points(plan, "all")
        answer = self.search(plan.replace('"least quota"', '"most out"'), "some")[0]
        out = max(known, key=lambda key: known[key][0])
        self.assertEqual(answer[:2], ["a.trace: no point meets all conditions",
                                      f"a.trace: out alone comes to {known[out][0]:.4g} % of pages with age {out[1]}, quota {out[2]}"])

    def test_the_measures_of_a_target(self) -> None:
        plan = 'traces = ["a.trace"]\n[settings]\ninterval = 20\naggr = 3\nseed = 5\n[measure]\nhot = 0.5\n'
        whole = self.search(plan, "whole")[2][0]
        trace = (self.folder / "a.trace").read_bytes()
        words = ("--interval", "20", "--aggr", "3")
        (self.folder / "exact").write_bytes(run("exact_counts.py", *words, text=trace).stdout)
        report = report_of(script_of(trace, *words, "--seed", "5"))
        found = 0
        for target in range(script_of(trace, *words).count("\ntarget ")):
            row = self.search(f"{plan}target = {target}\n", f"target-{target}")[2][0]
            said = run("compare.py", str(self.folder / "exact"), "-", "--target", str(target), text=report.encode()).stdout.decode()
            hot = re.search(r"hot: (\d+) of (\d+) page-aggregations found", said)
            self.assertEqual(row["hot_found"], f"{int(hot[1]) / int(hot[2]):.4f}" if hot and int(hot[2]) else "", said)
            self.assertEqual(row["checks"], whole["checks"])
            found += row["hot_found"] not in ("", whole["hot_found"])
        self.assertGreater(found, 0)


class Commands(Questions):
    def test_tune(self) -> None:
        scheme = "scheme 0 pageout count=0,0 age=1,9 quota=81920,6 prefer=cold"
        plan = (f'command = "tune"\ngoals = ["0:cold:{{cold}}:4096:81920"]\ntraces = ["a.trace"]\nschemes = ["{scheme}"]\n'
                "[settings]\ninterval = 20\naggr = 3\n[values]\ncold = [100, 700, 990]\n")
        rows = self.search(plan, "tune")[2]
        script = script_of((self.folder / "a.trace").read_bytes(), "--interval", "20", "--aggr", "3", "--scheme", scheme)
        for row in rows:
            report = report_of(script, "tune", f"0:cold:{row['cold']}:4096:81920")
            self.assertEqual((row["status"], row["tuned"]), ("ok", report.splitlines()[-1].removeprefix("tuned 0 bytes=")))
            self.assertEqual(row["checks"], re.findall(r"checks=(\d+)", report)[-1])
        self.assertGreater(len({row["tuned"] for row in rows}), 1)
        self.assertNotIn("refaults", rows[0])

    def test_versions(self) -> None:
        """A page that comes into use keeps its age in version 1 where the threshold allows it, and not in version 2."""
        trace = b"".join(b" L 00010000,4\n L %08x,4\n" % (0x900000 if number in (0, 50) else 0x10000) for number in range(100))
        (self.folder / "a.trace").write_bytes(trace)
        body = 'schemes = ["scheme 0 stat count=1,1 age=1,9"]\n[settings]\ninterval = 2\n[measure]\ncolumns = ["applied"]\n'
        given = [self.search(f'version = {version}\ntraces = ["a.trace"]\n{body}', f"v{version}")[2][0]["applied"] for version in (1, 2)]
        self.assertEqual(given, ["2", "0"])
        script = script_of(trace, "--interval", "2", "--scheme", "scheme 0 stat count=1,1 age=1,9")
        (self.folder / "a.damon").write_text(script)
        own, other = (self.search(f'{said}scripts = ["a.damon"]\n[measure]\ncolumns = ["applied"]\n', name)[2][0]["applied"]
                      for said, name in (("", "own"), ("version = 2\n", "other")))
        self.assertEqual([own, other], given)

    def test_costs(self) -> None:
        plan = ('version = 2\ncommits = ["5:cost 0 {nanos}"]\ntraces = ["a.trace"]\n'
                'schemes = ["scheme 0 stat count=0,0 quota=81920,6 time=5000"]\n'
                "[settings]\ninterval = 20\naggr = 3\n[values]\nnanos = [1, 900000]\n")
        rows = self.search(plan, "timed")[2]
        self.assertEqual([row["status"] for row in rows], ["ok", "ok"])
        self.assertGreater(int(rows[0]["applied"]), int(rows[1]["applied"]))


class KeptTraces(Questions):
    PLAN = 'traces = ["TRACE"]\n[settings]\ninterval = [10, 20]\naggr = 3\n'

    def test_a_trace_is_kept_beside_the_runs(self) -> None:
        rows = self.search(self.PLAN.replace("TRACE", "a.trace"), "one")[2]
        kept = self.folder / "a.trace.cut"
        before = kept.stat().st_mtime_ns
        self.assertEqual(self.search(self.PLAN.replace("TRACE", "a.trace"), "two")[2], rows)
        self.assertEqual(kept.stat().st_mtime_ns, before)
        given = self.search(self.PLAN.replace("TRACE", "a.trace.cut"), "three")[2]
        self.assertEqual([{**row, "workload": "a.trace"} for row in given], rows)
        # Another trace, and one that is read in another way.
        (self.folder / "a.trace").write_bytes(random_trace(9, 2500))
        self.assertNotEqual(self.search(self.PLAN.replace("TRACE", "a.trace"), "four")[2], rows)
        self.assertNotEqual(kept.stat().st_mtime_ns, before)
        loads = self.search('take = ["loads"]\n' + self.PLAN.replace("TRACE", "a.trace"), "five")[2]
        self.assertEqual(loads, self.search('take = ["loads"]\n' + self.PLAN.replace("TRACE", "a.trace.cut"), "six")[2] and loads)
        self.assertEqual(sorted(path.name for path in self.folder.glob("*.cut")), ["a.trace.cut"])

    def test_it_is_read_for_all_intervals_at_once(self) -> None:
        self.search(self.PLAN.replace("TRACE", "a.trace").replace("[10, 20]", "[30, 20]"), "one")
        self.assertIn(b'"length": 10', (self.folder / "a.trace.cut").read_bytes())
        self.search(self.PLAN.replace("TRACE", "b.trace").replace("[10, 20]", "[97, 101]"), "two")
        self.assertFalse((self.folder / "b.trace.cut").exists())


class Errors(Refusals, Questions):
    def refuses(self, plan: str, *parts: str) -> None:
        path = self.folder / "wrong.toml"
        path.write_text(plan)
        with self.subTest(plan=plan):
            self.refused(TOOL, [*parts], b"", str(path), str(self.folder / "wrong.csv"))
            self.assertFalse((self.folder / "wrong.csv").exists())

    def test_plans(self) -> None:
        start = 'command = "reclaim"\ntraces = ["a.trace"]\n'
        for text in ("out", "out > 5", "out >= x", "out >= 5 pages", "out>=5"):
            self.refuses(f'{start}conditions = ["{text}"]', "a condition needs MEASURE >= NUMBER")
        self.refuses(f'{start}conditions = ["xy >= 5"]', "xy is none", "hot_found")
        self.refuses('traces = ["a.trace"]\nconditions = ["out >= 5"]', "out is none")
        for text in ("out", "best out", "least"):
            self.refuses(f'{start}aim = "{text}"', "an aim needs `least NAME` or `most NAME`")
        self.refuses(f'{start}aim = "least xy"', "xy is none")
        self.refuses(f'{start}schemes = ["scheme 0 {{what}}"]\naim = "least what"\n[values]\nwhat = ["stat", "cold"]',
                     "needs numbers, and what has texts")
        self.refuses(f'{start}commits = ["5:attrs 5 50 7"]\nconditions = ["refaults <= 5 an aggregation"]', "commits that change attrs")
        self.refuses('command = "tune"\ntraces = ["a.trace"]', "goals", "need each other")
        self.refuses(f'{start}goals = ["0:cold:5:1:2"]', "goals", "need each other")
        self.refuses(f"{start}version = 3", "version is 3, and must be one of 1, 2")
        self.refuses(f"{start}[measure]\ntarget = 99", "there is no target 99")
        self.refuses(f"{start}[measure]\ntarget = -5", "target of [measure]")

    def test_random_points(self) -> None:
        (self.folder / "plan.toml").write_text(PLAN.replace("OUT", "5").replace("EACH", "5"))
        self.refused(TOOL, ["--random draws points", "quota"], b"", str(self.folder / "plan.toml"), str(self.folder / "a.csv"), "--random", "5")

    def test_points_that_cannot_be_written(self) -> None:
        trace = b"".join(b" L %08x,4\n" % (0x10000 + 4096 * (number % 9)) for number in range(5000))
        (self.folder / "a.trace").write_bytes(trace)
        plan = 'traces = ["a.trace"]\n[settings]\ninterval = 1\nmax = [100, LARGE]\n'
        # 5,000 passes and as many touches, a show.
        most = ((16777216 - 5001) // 5000 // 2 - 3) // 2
        work = 5000 * 2 * (2 * 4000 + 3) + 5001
        self.refuses(plan.replace("LARGE", "4000"), "max 4000 is too much for a.trace with its 5000 passes",
                     f"a work of {work}, and at most 16777216 is allowed; the plan needs a max of at most {most}, or a longer interval")
        self.refuses(plan.replace("LARGE", "9") + "cap = 4000\n", "cap 4000 is too much")
        rows = self.search(plan.replace("LARGE", str(most)), "right")[2]
        self.assertEqual([row["status"] for row in rows], ["ok", "ok"])
        script = script_of(trace, "--interval", "1", "--max", str(most))
        (self.folder / "a.damon").write_text(script)
        self.refuses(f'scripts = ["a.damon"]\n[settings]\nmax = {most + 1}\n', f"max {most + 1} is too much for a.damon")
        above = script.replace(f"cap {most}\n", f"cap {most + 1}\n").encode()
        self.assertIn(b"too much work", subprocess.run([PROGRAM, "replay"], input=above, capture_output=True).stderr)

    def test_a_file_in_the_place_of_a_kept_trace(self) -> None:
        (self.folder / "a.trace.cut").write_text("mine\n")
        self.refuses('traces = ["a.trace"]', "a.trace.cut is not a kept trace")


if __name__ == "__main__":
    unittest.main()
