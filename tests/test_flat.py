#!/usr/bin/env python3
"""Tests of tools/flat.py: each region of each aggregation is a row, with what slots did with it."""
from __future__ import annotations

import csv
import io
import unittest

from page_counts import aggregations_of
from policy_scripts import random_script
from tool_runs import Refusals, need_program, report_of, run

TOOL = "flat.py"


def setUpModule() -> None:
    need_program()


def rows_of(report: str) -> list[dict[str, str]]:
    ran = run(TOOL, text=report.encode())
    if ran.returncode != 0:
        raise AssertionError(ran.stderr.decode())
    return list(csv.DictReader(io.StringIO(ran.stdout.decode())))


class Rows(unittest.TestCase):
    def test_rows_are_the_lines_of_the_report(self) -> None:
        for seed in (1, 4):
            text = random_script(seed, "scheme 0 stat age=2,9")
            report = report_of(text)
            rows = rows_of(report)
            lines = [line for block in ("\n" + report).split("\naggregate ")[1:] for line in block.split("\nshow ")[0].splitlines()
                     if line.startswith("row ")]
            self.assertGreater(len(lines), 50)
            self.assertEqual([f"row {row['target']} {int(row['start']):#x}-{int(row['end']):#x} count={row['count']} last={row['last']} "
                              f"age={row['age']}" for row in rows], lines)
            self.check_slots(rows, report)
            self.assertEqual(rows_of(report_of(text, "json")), rows)

    def check_slots(self, rows: list[dict[str, str]], report: str) -> None:
        """What slots did, page by page."""
        ticks = [0]
        taken = 0
        for one in aggregations_of(report):
            for row in (row for row in rows if row["tick"] == str(one["tick"])):
                pages = {(int(row["target"]), page) for page in range(int(row["start"]) >> 12, int(row["end"]) >> 12)}
                runs = [(slot, pages & set(some)) for slot, _, some in one["applied"]]
                self.assertEqual(row["slots"].split(), sorted({str(slot) for slot, some in runs if some}))
                self.assertEqual(int(row["applied"]), sum(len(some) for _, some in runs))
                self.assertEqual((row["pages"], row["passes"]), (str(len(pages)), str(one["tick"] - ticks[-1])))
                self.assertEqual(row["score"] != "", bool(row["slots"]))
                taken += int(row["applied"])
            ticks.append(one["tick"])
        self.assertGreater(taken, 50)

    def test_the_highest_score(self) -> None:
        report = ("aggregate tick=3 threshold=0 rows=2\napply 1 pageout 0 0x3000-0x4000 score=7\napply 1 pageout 0 0x1000-0x2000 score=5\n"
                  "slot 1 left=none taken=2 lowest=5\napply 4 cold 0 0x2000-0x4000 score=9\nslot 4 left=none taken=2 lowest=9\n"
                  "row 0 0x1000-0x3000 count=1 last=0 age=2\nrow 0 0x3000-0x9000 count=0 last=0 age=0\n")
        self.assertEqual([list(row.values()) for row in rows_of(report)], [
            ["3", "3", "0", "4096", "12288", "2", "1", "0", "2", "1 4", "2", "9"],
            ["3", "3", "0", "12288", "36864", "6", "0", "0", "0", "1 4", "2", "9"]])

    def test_exact_counts(self) -> None:
        rows = rows_of("exact counts 1\naggregate tick=4 rows=1\nrow 2 0x0-0x2000 count=3\n")
        self.assertEqual([list(row.values()) for row in rows], [["4", "4", "2", "0", "8192", "2", "3", "", "", "", "0", ""]])


class Errors(Refusals):
    def test_reports(self) -> None:
        ran = run(TOOL, text=b"hello\n")
        self.assertEqual((ran.returncode, ran.stderr), (2, b"flat.py: -: line 1: not a line of a report: 'hello'\n"))
        self.refused(TOOL, ["no-such-file"], b"", "no-such-file")


if __name__ == "__main__":
    unittest.main()
