#!/usr/bin/env python3
"""Tests of tools/trace_to_script.py: schemes and commits, what damon says of them, and notes on them."""
from __future__ import annotations

import os
import re
import shutil
import subprocess
import sys
import tempfile
import unittest
from pathlib import Path

from tool_runs import TOOLS, Refusals, need_program, notes_of, report_of, run, script_of

from tracing.commits import fewest_commits as commits_of_lines

TOOL = "trace_to_script.py"


def setUpModule() -> None:
    need_program()


class Commits(unittest.TestCase):
    TRACE = b"".join(b" L %08x,4\n" % (0x10000 + 0x1000 * (number % 16)) for number in range(400))

    def test_lines_of_all_kinds_make_one_commit(self) -> None:
        words = ["--at", "3:metric 250", "--at", "3:range 0 0x10000 0x14000 0", "--at", "3:scheme 4 cold marks=500,400,200",
                 "--at", "3:range 0 0x14000 0x18000 1", "--at", "3:attrs 3 50 5"]
        script = script_of(self.TRACE, "--interval", "10", *words)
        wanted = ["finish", "commit", "attrs 3 50 5", "range 0 0x10000 0x14000 0", "range 0 0x14000 0x18000 1",
                  "scheme 4 cold marks=500,400,200", "metric 250", "apply", "arm"]
        self.assertIn("\n".join(wanted), script)
        self.assertEqual(script[: script.index("commit")].count("arm"), 3)
        report = report_of(script)
        self.assertIn("commit tick=3 ok ", report)
        self.assertIn("aggregate tick=5 ", report)
        self.assertIn("slot 4 left=none", report)

    def test_second_lines_of_a_kind_make_a_second_commit(self) -> None:
        lines = ["drop 1", "range 0 0x0 0x1000 0", "scheme 2 stat", "metric 5", "range 0 0x1000 0x2000 0", "drop 3", "metric 6"]
        self.assertEqual(commits_of_lines(lines), [
            ["range 0 0x0 0x1000 0", "range 0 0x1000 0x2000 0", "drop 1", "metric 5"],
            ["scheme 2 stat", "metric 6"], ["drop 3"]])
        report = report_of(script_of(self.TRACE, "--interval", "10", "--at", "5:scheme 1 stat", "--at", "5:scheme 2 cold"))
        self.assertEqual(report.count("commit tick=5 ok "), 2)

    def test_notes_on_commits(self) -> None:
        trace = self.TRACE + b" L 00900000,4\n" * 20
        notes = notes_of(trace, "--interval", "10", "--at", "4:range 0 0x10000 0x14000 0", "--at", "5:range 0 0x90000 0x94000 0",
                         "--at", "6:attrs 50 60 5", "--at", "99:drop 3", "--at", "7:attrs 3 101 5")
        self.assertIn("note: the ranges of the commit before interval 4 replace all ranges: 1 of 2 targets have one after it", notes)
        self.assertIn("note: the commit before interval 5 is refused: bad-range index=0 outside-span", notes)
        self.assertIn("note: the commit before interval 7 is refused: over-cap max=101 cap=100", notes)
        self.assertIn("note: the commit before interval 99 is left out: there are 42 intervals", notes)
        self.assertEqual(notes.count("refused"), 2)


class Version2(unittest.TestCase):
    """Time quotas and costs, which scripts of version 1 have not."""

    SCHEME = "scheme 0 stat quota=24576,5 time=3000"

    def test_the_lines_of_a_script(self) -> None:
        script = script_of(Commits.TRACE, "--version", "2", "--interval", "10", "--scheme", self.SCHEME, "--at", "5:cost 0 1000",
                           "--at", "5:metric 4", "--at", "5:cost 0 7")
        self.assertTrue(script.startswith("damon script 2\nseed 1\n"))
        self.assertIn("finish\ncommit\nmetric 4\ncost 0 1000\napply\ncommit\ncost 0 7\napply\narm\n", script)
        self.assertTrue(script_of(Commits.TRACE).startswith("damon script 1\n"))

    def test_what_is_left_follows_the_costs(self) -> None:
        """Of six pages as many as 3,000 nanoseconds allow, at the cost of all pages so far."""
        costs = [(5, 6_000), (15, 1), (25, 60_000)]
        words = [word for interval, cost in costs for word in ("--at", f"{interval}:cost 0 {cost}")]
        report = report_of(script_of(Commits.TRACE, "--version", "2", "--interval", "10", "--aggr", "5", "--scheme", self.SCHEME, *words))
        # Each aggregation begins a window.
        pages, given, wanted = 0, [], []
        for tick, left, taken in re.findall(r"aggregate tick=(\d+) .*\n(?:apply .*\n)*slot 0 left=(\d+) taken=(\d+)", report):
            nanos = sum(cost for interval, cost in costs if interval < int(tick))
            given.append(int(left))
            wanted.append(min(6, 3000 * pages // nanos) if pages and nanos else 6)
            pages += int(taken)
        self.assertEqual(given, wanted)
        self.assertEqual(len(given), 8)
        self.assertGreater(len(set(given)), 2)


class Notes(unittest.TestCase):
    """Schemes that damon takes and that do nothing, or not what they look like."""

    TRACE = Commits.TRACE

    def about(self, scheme: str, *words: str) -> str:
        notes = notes_of(self.TRACE, "--interval", "10", "--scheme", scheme, *words)
        found = [line for line in notes.splitlines() if "slot" in line]
        self.assertLess(len(found), 2, notes)
        return found[0] if found else ""

    def applied(self, scheme: str, *words: str) -> int:
        """The pages that it is really applied to."""
        report = report_of(script_of(self.TRACE, "--interval", "10", "--scheme", scheme, *words))
        return sum(int(line.split("applied=")[1].split()[0]) for line in report.splitlines() if line.startswith("scheme "))

    def test_schemes_that_are_applied_to_nothing(self) -> None:
        for scheme, part in (
            ("scheme 0 stat count=21,30", "a count of 21 is above aggr, 20"),
            ("scheme 0 stat size=17,30", "no range has 17 pages"),
            ("scheme 0 stat age=3,9", "an age of 3 needs as many aggregations, and there are 2"),
            ("scheme 0 stat quota=4095,10", "a quota of 4095 bytes is less than a page"),
            ("scheme 0 stat filter=allow:target:1", "its filter names target 1, and the last target is 0"),
            ("scheme 0 stat marks=3,2,1", "it is never active in a replay: it has watermarks, and no metric comes"),
            ("scheme 0 stat marks=3,2,2", "it is never active: its watermarks mid and low are equal"),
        ):
            with self.subTest(scheme=scheme):
                self.assertIn(part, self.about(scheme))
                self.assertEqual(self.applied(scheme), 0)
        self.assertIn("no metric from 1 to 2 comes", self.about("scheme 0 stat marks=5,3,1", "--metric", "2:3"))

    def test_schemes_that_are_applied(self) -> None:
        cases: list[tuple[str, list[str]]] = [
            ("scheme 0 stat count=20,30", []), ("scheme 0 stat size=16,30", []), ("scheme 0 stat age=2,9", []),
            ("scheme 0 stat quota=4096,10", []), ("scheme 0 stat filter=allow:target:0", []),
            ("scheme 0 stat marks=5,3,1", ["--metric", "2:2"])]
        for scheme, words in cases:
            with self.subTest(scheme=scheme):
                self.assertEqual(self.about(scheme, *words), "")
        self.assertGreater(self.applied("scheme 0 stat marks=5,3,1", "--metric", "2:2"), 0)
        self.assertIn("a count of 21", self.about("scheme 0 stat count=21,30"))
        self.assertEqual(self.about("scheme 0 stat count=21,30", "--at", "1:attrs 3 9 30"), "")

    def test_hot_first_where_cold_is_meant(self) -> None:
        part = "add prefer=cold"
        for action in ("pageout", "cold", "lru_deprio"):
            self.assertIn(part, self.about(f"scheme 0 {action} quota=8192,20"))
            self.assertEqual(self.about(f"scheme 0 {action}"), "")
            self.assertEqual(self.about(f"scheme 0 {action} quota=8192,20 prefer=cold"), "")
            self.assertEqual(self.about(f"scheme 0 {action} quota=8192,20 weights=1,0,1"), "")
        for action in ("stat", "willneed", "hugepage", "nohugepage", "lru_prio"):
            self.assertEqual(self.about(f"scheme 0 {action} quota=8192,20"), "")

    def test_schemes_of_commits(self) -> None:
        notes = notes_of(self.TRACE, "--interval", "10", "--metric", "3:2", "--at", "4:scheme 1 stat marks=5,3,1")
        self.assertIn("slot 1: it is never active in a replay: it has watermarks, and no metric comes", notes)

    def test_a_program_that_is_named_must_be_there(self) -> None:
        ran = run(TOOL, "--interval", "10", text=self.TRACE, program=Path("/no/damon"))
        self.assertEqual((ran.returncode, ran.stdout), (2, b""))
        self.assertEqual(ran.stderr.decode(), f"{TOOL}: there is no program /no/damon, which DAMON in the environment names\n")

    def test_without_a_program_nothing_is_checked(self) -> None:
        """In a copy of the tools, beside which no program was built."""
        with tempfile.TemporaryDirectory() as folder:
            shutil.copytree(TOOLS, Path(folder) / "tools", ignore=shutil.ignore_patterns("__pycache__"))
            words = [sys.executable, str(Path(folder) / "tools" / TOOL), "--interval", "10", "--scheme", "scheme 99 nothing"]
            environment = {name: value for name, value in os.environ.items() if name != "DAMON"}
            ran = subprocess.run(words, input=self.TRACE, capture_output=True, env=environment)
        self.assertEqual(ran.returncode, 0, ran.stderr)
        self.assertIn(b"were not checked: there is no program", ran.stderr)


class FewRegions(unittest.TestCase):
    """A note where targets or pages are too many for the regions."""

    PART = "few are left for cuts, and much that is hot may not be found; --max"

    def about(self, sizes: list[int], *words: str) -> str:
        """The note on a trace with targets of these sizes."""
        lines = [b" L %08x,4\n" % ((target << 24) + (page << 12)) for target, pages in enumerate(sizes, 1) for page in range(pages)]
        found = [line for line in notes_of(b"".join(lines), "--interval", "50", *words).splitlines() if self.PART in line]
        self.assertLess(len(found), 2)
        return found[0].removeprefix("note: ") if found else ""

    def test_targets(self) -> None:
        self.assertEqual(self.about([20] * 20), "")
        self.assertEqual(self.about([20] * 21), f"21 targets and 420 pages share at most 100 regions: {self.PART} 200 or more may find it")
        self.assertEqual(self.about([20] * 21, "--max", "105"), "")
        self.assertEqual(self.about([2] * 12 + [9] * 11), f"23 targets, 12 of them with at most 2 pages, and 123 pages share at most "
                         f"100 regions: {self.PART} 200 or more may find it")

    def test_pages(self) -> None:
        self.assertEqual(self.about([500, 500]), "")
        self.assertEqual(self.about([500, 501]), f"2 targets and 1001 pages share at most 100 regions: {self.PART} 200 or more may find it")
        self.assertEqual(self.about([500, 501], "--cap", "200", "--at", "1:attrs 10 101 20"), "")

    def test_each_page_has_its_region(self) -> None:
        self.assertEqual(self.about([2] * 23, "--exact"), "")
        self.assertEqual(self.about([1] * 60, "--max", "60"), "")


class Judged(Refusals):
    """Damon judges schemes and commits before the trace is read: here there is none."""

    def early(self, parts: list[str], *words: str) -> None:
        self.refused(TOOL, parts, b"", *words, "no-such-trace")

    def test_schemes(self) -> None:
        for scheme, part in (
            ("scheme 0 pageout age=1,2 count=0,0", "bad form: key 'count' after 'age'"),
            ("scheme 0 migrate_hot", "bad form: there is no action 'migrate_hot'"),
            ("scheme 0 stat sz=1,2", "bad form: there is no key 'sz'"),
            ("scheme 0 stat quota=409600", "bad form: 'quota' needs 2 numbers"),
            ("scheme 0 stat  age=1,2", "bad form: two spaces"),
            ("scheme 0 stat quota=400K,10", "bad number: '400K' is not a decimal number"),
            ("scheme 0 stat age=5,max", "bad number: 'max'"),
            ("scheme 0 stat marks=1,2,3", "bad scheme: the watermarks rise: mid, 2, is above high, 1"),
            ("scheme 16 stat", "bad scheme: slot 16 is above 15"),
            ("scheme 0 stat filter=allow:addr:0x1000-0x1000", "bad scheme: FROM, 0x1000, is not below TO, 0x1000"),
        ):
            with self.subTest(scheme=scheme):
                self.early([f"--scheme {scheme!r}: {part}"], "--scheme", scheme)
        self.early(["slot set twice: `scheme 3 stat` has set slot 3 already"], "--scheme", "scheme 3 stat", "--scheme", "scheme 3 cold")

    def test_commits(self) -> None:
        self.early(["--at 5:'attrs 3 x 4': bad number: 'x'"], "--at", "5:attrs 3 x 4")
        self.early(["--at 5:'range 0 0x0': bad form: 2 words after 'range'"], "--at", "5:range 0 0x0")
        self.early(["--at 5:'drop 256': bad number: 256 is above 255"], "--at", "4:drop 3", "--at", "5:drop 256")
        self.early(["--at 5:'cost 0 7': unexpected word: 'cost' is not allowed at this place (costs came with version 2)"], "--at", "5:cost 0 7")
        self.early(["--scheme 'scheme 0 stat quota=4096,9 time=5'"], "--scheme", "scheme 0 stat quota=4096,9 time=5")
        self.early(["INTERVAL:LINE"], "--at", "5:touch 0 0x0")
        self.early(["INTERVAL:LINE"], "--at", "drop 5")

    def test_right_lines_come_to_the_trace(self) -> None:
        self.early(["no-such-trace: No such file"], "--scheme", "scheme 0 stat", "--at", "5:drop 3", "--exact")


if __name__ == "__main__":
    unittest.main()
