#!/usr/bin/env python3
"""Tests of tools/hot.py: areas and working sets beside counting page by page, and what is said of slots beside a slot that lists
all rows."""
from __future__ import annotations

import csv
import io
import json
import re
import tempfile
import unittest
from collections import Counter

from page_counts import Page, PageCounts, aggregations_of
from policy_scripts import random_script
from tool_runs import TOP, Refusals, need_program, random_trace, report_of, run, script_of

from asking.policy import PolicyError, followed
from asking.rows import rows_seen
from asking.why import FILTERED, INACTIVE, NO_MATCH, NOT_CHOSEN, OPEN, TAKEN, answers_of
from reports.events import Report
from scripts.setup import Script

TOOL = "hot.py"
SCHEMES = ("--scheme", "scheme 0 pageout count=0,0 age=2,99", "--scheme", "scheme 3 stat count=3,9")
FILTERS = TOP / "examples/filters.damon"


def setUpModule() -> None:
    need_program()


def lines_of(report: str, *words: str) -> list[str]:
    ran = run(TOOL, *words, text=report.encode())
    if ran.returncode != 0:
        raise AssertionError(ran.stderr.decode())
    return ran.stdout.decode().splitlines()


class Areas(unittest.TestCase):
    """The pages of a report, counted one by one."""

    REPORT = ""

    @classmethod
    def setUpClass(cls) -> None:
        cls.REPORT = report_of(script_of(random_trace(9, 4000), "--interval", "10", "--aggr", "5", "--max", "40", *SCHEMES))

    def wanted(self, first: int, last: int) -> tuple[dict[Page, float], list[PageCounts]]:
        """The share of each page in a span, and the aggregations of the span."""
        found = aggregations_of(self.REPORT)
        ticks = [0, *(one["tick"] for one in found)]
        span = [(one, tick - before) for one, before, tick in zip(found, ticks, ticks[1:]) if first <= tick <= last]
        hits: Counter[Page] = Counter()
        for one, _ in span:
            hits.update(one["counts"])
        passes = sum(passes for _, passes in span)
        return {page: hits[page] / passes for page in span[-1][0]["counts"]}, [one for one, _ in span]

    def ages(self, tick: int) -> dict[Page, int]:
        """The age of each page in an aggregation."""
        block = self.REPORT[self.REPORT.index(f"aggregate tick={tick} ") :].split("\naggregate", 1)[0].split("\nshow", 1)[0]
        return {(int(target), page): int(age) for target, low, high, age in re.findall(r"row (\d+) 0x(\w+)-0x(\w+) count=.* age=(\d+)", block)
                for page in range(int(low, 16) >> 12, int(high, 16) >> 12)}

    def test_rows(self) -> None:
        for words, first, last, step in ((["--from=0"], 0, 1 << 40, 10), (["--from=30", "--to=90", "--step=25"], 30, 90, 25),
                                         (["--to=20", "--step=0"], 0, 20, 0)):
            with self.subTest(words=words):
                shares, span = self.wanted(first, last)
                ages = self.ages(span[-1]["tick"])
                rows = [json.loads(line) for line in lines_of(self.REPORT, "--json", "-n", "9999", *words)]
                left = set(shares)
                for row in rows:
                    pages = {(row["target"], page) for page in range(int(row["from"], 16) >> 12, int(row["to"], 16) >> 12)}
                    self.assertLessEqual(pages, left)
                    left -= pages
                    self.assertEqual(row["pages"], len(pages))
                    self.assertAlmostEqual(row["share"], sum(shares[page] for page in pages) / len(pages), 4)
                    self.assertEqual(row["age"], min(ages[page] for page in pages))
                    taken = {f"{slot} {action}" for one in span for slot, action, some in one["applied"] if pages & {*some}}
                    self.assertEqual(row["slots"], ", ".join(sorted(taken)))
                    levels = {round(shares[page], 9) if not step else int(100 * shares[page] / step + 1e-9) for page in pages}
                    self.assertEqual(len(levels), 1)
                    beside = [(row["target"], (int(row["from"], 16) >> 12) - 1), (row["target"], int(row["to"], 16) >> 12)]
                    for page in set(beside) & set(shares):
                        self.assertNotIn(round(shares[page], 9) if not step else int(100 * shares[page] / step + 1e-9), levels)
                self.assertEqual(left, set())
                self.assertEqual([row["share"] for row in rows], sorted((row["share"] for row in rows), reverse=True))

    def test_the_coldest_come_first(self) -> None:
        rows = [json.loads(line) for line in lines_of(self.REPORT, "--cold", "--json", "-n", "9999")]
        order = [(row["share"], -row["age"]) for row in rows]
        self.assertEqual(order, sorted(order))
        self.assertEqual(sorted(map(str, rows)), sorted(str(json.loads(line)) for line in lines_of(self.REPORT, "--json", "-n", "9999")))

    def test_forms(self) -> None:
        """The same rows as text, CSV and JSON, of a text and of JSON lines."""
        rows = [json.loads(line) for line in lines_of(self.REPORT, "-n3", "--json", "--label", "1=a heap")]
        table = list(csv.DictReader(io.StringIO("\n".join(lines_of(self.REPORT, "-n3", "--csv", "--label", "1=a heap")))))
        self.assertEqual(table, [{name: str(value) for name, value in row.items()} for row in rows])
        text = lines_of(self.REPORT, "-n3", "--label", "1=a heap")
        for row, line in zip(rows, text[1:]):
            self.assertEqual(line.split()[0], str(row["target"]))
            for part in (row["name"], row["from"], row["to"], f"{100 * row['share']:.1f} %", row["slots"]):
                self.assertIn(part, line)
        self.assertRegex(text[-1], r"^3 of \d+ rows with \d+ pages, over \d+ aggregations up to tick \d+$")
        script = script_of(random_trace(9, 4000), "--interval", "10", "--aggr", "5", "--max", "40", *SCHEMES)
        self.assertEqual(lines_of(report_of(script, "json"), "-n3", "--label", "1=a heap"), text)

    def test_names_by_a_file(self) -> None:
        """A row has the name of most of its bytes; a label of its target comes before that."""
        rows = [json.loads(line) for line in lines_of(self.REPORT, "-n99", "--json")]
        first = next(row for row in rows if row["target"] == 1)
        with tempfile.NamedTemporaryFile("w", suffix=".names") as file:
            file.write(f"{first['from']}-{first['to']} an area\n")
            file.flush()
            for words, names in ((("--label", "2=mine"), {1: "an area", 2: "mine"}), (("--label", "1=mine"), {1: "mine"})):
                named = [json.loads(line) for line in lines_of(self.REPORT, "-n99", "--json", "--names", file.name, *words)]
                self.assertEqual(named[rows.index(first)]["name"], names[1])
                for row, other in zip(named, rows):
                    is_named = row["target"] in names and (row["from"] == first["from"] or names[row["target"]] == "mine")
                    self.assertEqual(row, {**other, "name": names[row["target"]] if is_named else ""})

    def test_working_sets(self) -> None:
        sizes = sorted(sum(1 for count in one["counts"].values() if count) for one in aggregations_of(self.REPORT))
        (found,) = [json.loads(line) for line in lines_of(self.REPORT, "--wss", "--json")]
        self.assertEqual((found["aggregations"], found["least"], found["greatest"]), (len(sizes), sizes[0], sizes[-1]))
        for name, part in (("quarter", 0.25), ("median", 0.5), ("three_quarters", 0.75)):
            self.assertEqual(found[name], next(size for size in sizes if sum(one <= size for one in sizes) >= part * len(sizes)))
        text = lines_of(self.REPORT, "--wss")
        self.assertEqual([line.split()[-3] for line in text[1:-1]], [str(number) for number in list(found.values())[1:]])


class Slots(unittest.TestCase):
    """Random scripts whose slot 0 lists all rows with their ages: `stat` with the weight of the age alone. So slot 1 is known to see
    these rows, and for all pages and slots what is said fits what the report shows."""

    def test_rows_and_answers(self) -> None:
        told: Counter[str] = Counter()
        for seed in range(5):
            text = random_script(seed, "scheme 0 stat weights=0,0,1")
            for found, policy in followed(Report(report_of(text).splitlines(keepends=True)).events(), Script.of(text.encode())):
                if 1 in found.choices:
                    known = {(run.target, run.start, run.end): run.score for run in found.applied if run.slot == 0}
                    for row in rows_seen(found, policy, 1):
                        told["unsure"] += not row.is_sure
                        if row.is_sure:
                            low, high = (min(age, 99) for age in row.ages)
                            told["exact" if low == high else "span"] += 1
                            self.assertTrue(low <= known[row.target, row.start, row.end] <= high, (seed, found.tick, row))
                for region in found.regions:
                    # Raises PolicyError if what is worked out and the report disagree.
                    for answer in answers_of(found, policy, region.target, region.start):
                        told[answer.outcome] += 1
                        runs = [run for run in found.applied if (run.slot, run.target) == (answer.slot, region.target)]
                        self.assertEqual(answer.outcome == TAKEN, any(run.start <= region.start < run.end for run in runs))
        for name in (TAKEN, NO_MATCH, FILTERED, NOT_CHOSEN, INACTIVE, "exact"):
            self.assertGreater(told[name], 50, name)
        self.assertLess(told["unsure"] + told["span"], told["exact"] / 4)
        self.assertLess(told[OPEN], told[TAKEN] / 50)

    def test_a_report_of_another_script_is_seen(self) -> None:
        text = random_script(3, "scheme 0 stat weights=0,0,1")
        other = text.replace("scheme 0 stat weights=0,0,1", "scheme 0 stat weights=0,0,1 age=4,9")
        self.assertNotEqual(text, other)
        with self.assertRaises(PolicyError):
            for found, policy in followed(Report(report_of(text).splitlines(keepends=True)).events(), Script.of(other.encode())):
                for region in found.regions:
                    answers_of(found, policy, region.target, region.start)

    def test_the_worked_example(self) -> None:
        """docs/MONITOR.md works this aggregation out by hand."""
        report = report_of(FILTERS.read_text())
        for page, wanted in (
            ("0x10000", ["0x10000-0x18000, age 0 to 1): taken with the score 44; the lowest score that was taken is 11",
                         "its size is 8, and size=0,4"]),
            ("0x17000", ["the page does not pass: its filter reject:addr:0x16000-0x1a000 decides", "its size is 8"]),
            ("0x1d000", ["(it saw 0x18000-0x20000, age 1): the 9 pages that were left of the quota went to others; its score is 11, "
                         "and the lowest that was taken is 11",
                         "taken with the score 37"]),
            ("0x20000", ["the page does not pass: no filter applies to it, and the last one is allow:class:1", "its size is 8"]),
        ):
            lines = lines_of(report, "--why", page, "--tick", "4", "--script", str(FILTERS))
            self.assertEqual([line.split()[1] for line in lines[1:]], ["0", "5"])
            for line, part in zip(lines[1:], wanted, strict=True):
                self.assertIn(part, line)
        lines = lines_of(report, "--why", "0x10abc", "--tick", "5", "--script", str(FILTERS), "--json")
        self.assertEqual([json.loads(line)["outcome"] for line in lines], [NOT_CHOSEN, NO_MATCH])
        self.assertIn("nothing is left of the quota", lines[0])


class Errors(Refusals):
    def test_options(self) -> None:
        self.refused(TOOL, ["--csv"], b"", "--csv", "--json")
        self.refused(TOOL, ["--why needs"], b"", "--why", "0x1000")
        self.refused(TOOL, ["--tick"], b"", "--tick", "4")
        self.refused(TOOL, ["-n"], b"", "-n", "0")
        self.refused(TOOL, ["standard input"], b"", "--why", "0x1000", "--tick", "4", "--script", "-")

    def test_reports(self) -> None:
        report = report_of(FILTERS.read_text()).encode()
        self.refused(TOOL, ["line 1"], b"hello\n")
        self.refused(TOOL, ["no aggregation in this span"], report, "--from", "99")
        self.refused(TOOL, ["target 7"], report, "--label", "7=heap")
        self.refused(TOOL, ["no page of target 3"], report, "--target", "3")
        why = ("--script", str(FILTERS), "--why")
        self.refused(TOOL, ["no region holds the page 0x99000"], report, *why, "0x99000", "--tick", "4")
        self.refused(TOOL, ["no aggregation from tick 99"], report, *why, "0x10000", "--tick", "99")
        self.refused(TOOL, ["other slots"], report_of((TOP / "examples/cold.damon").read_text()).encode(), *why, "0x10000", "--tick", "4")


if __name__ == "__main__":
    unittest.main()
