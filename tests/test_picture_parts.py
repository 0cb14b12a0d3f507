#!/usr/bin/env python3
"""Tests of pictures of a part of a report: chosen targets, ticks and curves, targets that are folded, and names from a file."""
from __future__ import annotations

import random
import tempfile
import unittest
import xml.etree.ElementTree as xml
from pathlib import Path

from test_picture import RECLAIMED, SVG, TWO_AGGREGATIONS, drawn, paths_of, texts_of, titles_of
from tool_runs import Refusals, counts_of_report, need_program, random_trace, report_of, script_of

from drawing.charts import charts_of
from drawing.fold import shares_of
from drawing.grid import AGAIN, level
from drawing.history import Cut, History, again_marked, history_of
from reports.events import Report
from reports.names import NamedArea, NamesError, name_of, named_areas_of

TOOL = "picture.py"
NAMES = """\
0x8000-0x11000 program
0x11000-0x14000 first heap
0x20000-0x21000 second heap
0x21000-0x30000 third heap
"""


def setUpModule() -> None:
    need_program()


def history(report: str) -> History:
    return history_of(Report(report.splitlines()).events(), None)


class Cuts(unittest.TestCase):
    """A part has the snapshots between its ticks, and of them what they have of its targets."""

    SCHEME = "scheme 0 pageout count=0,1 quota=40960,5 prefer=cold"
    REPORT = report_of(script_of(random_trace(5, 3000), "--interval", "20", "--aggr", "5", "--scheme", SCHEME, "--at", "60:attrs 5 80 4"))

    def test_ticks(self) -> None:
        whole = history(self.REPORT)
        self.assertGreater(len(whole.snapshots), 20)
        source = random.Random(1)
        for _ in range(30):
            since, until = sorted(source.sample(range(whole.ticks[-1]), 2))
            part = Cut(since, until).of(whole)
            wanted = [place for place, tick in enumerate(whole.ticks) if tick > since and [0, *whole.ticks][place] < until]
            self.assertEqual(part.ticks, [whole.ticks[place] for place in wanted])
            self.assertEqual(part.start, [0, *whole.ticks][wanted[0]])
            self.assertLessEqual(part.start, since)
            self.assertGreaterEqual(part.ticks[-1], until)
            self.assertEqual(len(part.changes) + part.later, sum(change.tick >= part.start for change in whole.changes))
            for chart, all_of_it in zip(charts_of(part), charts_of(whole)):
                self.assertEqual(list(chart.values), [all_of_it.values[place] for place in wanted])

    def test_targets(self) -> None:
        whole = history(self.REPORT)
        part = Cut(targets=frozenset((1, 3))).of(whole)
        for line in self.REPORT.splitlines():
            if line.startswith("aggregate"):
                found = next(iter([one for one in part.snapshots if one.tick == int(line.split()[1][5:])]), None)
                assert found is not None
                rows = [f"{row.target} {row.start:#x}-{row.end:#x} {row.hits}" for row in found.regions]
                runs = [f"{run.target} {run.start:#x}-{run.end:#x}" for run in found.applied]
            elif line.startswith("show"):
                break
            elif line.startswith(("row 1 ", "row 3 ")):
                _, target, place, count, *_ = line.split()
                self.assertEqual(rows.pop(0), f"{target} {place} {count[6:]}")
            elif line.startswith("apply 0 pageout 1 ") or line.startswith("apply 0 pageout 3 "):
                self.assertEqual(runs.pop(0), " ".join(line.split()[3:5]))
        self.assertEqual((rows, runs), ([], []))
        self.assertLess(part.slots[0].applied, whole.slots[0].applied)

    def test_what_reclaim_says_is_of_all_targets(self) -> None:
        part = Cut(4).of(history(RECLAIMED))
        self.assertEqual([(chart.name, list(chart.ticks), list(chart.values)) for chart in charts_of(part, ("resident", "refaults"))],
                         [("resident", [6, 8], [4, 5]), ("refaults", [6, 8], [1, 0])])
        self.assertIn("refaults, all targets", texts_of(drawn(RECLAIMED, "--target", "0")))


class OutAlready(unittest.TestCase):
    """Pages to which `pageout` was applied while they were out are told apart by an exact report."""

    SCHEME = "scheme 0 pageout count=0,0 quota=81920,10 prefer=cold"
    REPORT = report_of(script_of(random_trace(5, 1500), "--interval", "20", "--aggr", "5", "--exact", "--scheme", SCHEME))

    def test_pages(self) -> None:
        """Counted page by page: a page is out from a `pageout` until an aggregation in which it was accessed."""
        lines = self.REPORT.splitlines()
        marked = again_marked(history(self.REPORT), Report(lines).aggregations())
        out: set[int] = set()
        found = 0
        for snapshot, counts in zip(marked.snapshots, counts_of_report(self.REPORT)):
            out -= {page for page, count in counts.items() if count}
            for run in snapshot.applied:
                pages = set(range(run.start // 4096, run.end // 4096))
                self.assertEqual(pages & out, pages if run.action == AGAIN else set())
                found += len(pages) * (run.action == AGAIN)
            out |= {page for run in snapshot.applied for page in range(run.start // 4096, run.end // 4096)}
        self.assertGreater(found, 20)
        self.assertEqual(marked.slots[0].applied, history(self.REPORT).slots[0].applied)

    def test_the_picture(self) -> None:
        with tempfile.NamedTemporaryFile("w", suffix=".report") as file:
            file.write(self.REPORT)
            file.flush()
            picture = drawn(self.REPORT, "--exact", file.name)
            self.assertIn("it was out already", texts_of(picture))
            self.assertGreater(len(paths_of(picture, "class", "mark s0 faint")), 0)
            self.assertNotIn("it was out already", texts_of(drawn(self.REPORT)))


class Pictures(unittest.TestCase):
    def test_one_target_after_a_tick(self) -> None:
        picture = drawn(TWO_AGGREGATIONS, "--target", "0", "--from", "4")
        texts = texts_of(picture)
        self.assertNotIn("target 1", texts)
        # From tick 4 to tick 6 target 0 has the count 1 of 2, which fills the panel from its left to its right.
        self.assertEqual([path.split("z")[0] for path in paths_of(picture, "class", "h5")], ["M128 104H806V404H128"])
        self.assertEqual([text for text in texts if text in ("0", "2", "4", "5", "6")], ["0", "0", "4", "5", "6"])

    def test_charts_are_chosen(self) -> None:
        self.assertEqual([name for name in texts_of(drawn(RECLAIMED, "--charts", "refaults,regions")) if name in
                          ("working set", "regions", "resident", "refaults")], ["regions", "refaults"])
        self.assertNotIn("working set", texts_of(drawn(RECLAIMED, "--charts", "none")))

    def test_quiet_targets_are_one_strip(self) -> None:
        # Target 0 was found accessed in one of six passes, and target 1 in four of them.
        self.assertEqual(shares_of(history(TWO_AGGREGATIONS)), {0: 1 / 6, 1: 4 / 6})
        picture = drawn(TWO_AGGREGATIONS, "--busy", "0.2")
        for text in ("quiet targets", "1 target, 16 KiB", "each below 20 %", "target 1"):
            self.assertIn(text, texts_of(picture))
        self.assertNotIn("0x10000", texts_of(picture))
        self.assertIn("targets 0", titles_of(picture))
        # Its share is 1 of 2 from tick 4 on, and a scheme was applied to it before.
        self.assertEqual([path.get("class") for path in picture.iter(f"{SVG}path") if path.get("class", "").startswith(("h", "mark"))], ["h9", "h5",
            "mark s0"])
        self.assertIn("2 targets, 24 KiB", texts_of(drawn(TWO_AGGREGATIONS, "--busy", "1")))
        self.assertNotIn("quiet targets", texts_of(drawn(TWO_AGGREGATIONS, "--busy", "0.1")))

    def test_a_strip_is_the_mean_of_its_bytes(self) -> None:
        picture = drawn(TWO_AGGREGATIONS.replace("count=4", "count=2"), "--busy", "1", "--from", "0", "--to", "1")
        # In the first four passes 8 KiB of 24 KiB have a share of a half, and the others of 0: a sixth.
        self.assertEqual(len(paths_of(picture, "class", f"h{level(1 / 6)}")), 1)

    def test_names_by_a_file(self) -> None:
        with tempfile.NamedTemporaryFile("w", suffix=".names") as file:
            file.write(NAMES)
            file.flush()
            texts = texts_of(drawn(TWO_AGGREGATIONS, "--names", file.name))
            # Target 1 has as much of the second heap as of the third.
            self.assertLessEqual({"first heap", "second heap"}, set(texts))
            self.assertIn("mine", texts_of(drawn(TWO_AGGREGATIONS, "--names", file.name, "--label", "1=mine")))


class Names(unittest.TestCase):
    def test_most_of_the_bytes(self) -> None:
        areas = named_areas_of(NAMES.splitlines(keepends=True))
        self.assertEqual(areas[1], NamedArea(0x11000, 0x14000, "first heap"))
        source = random.Random(2)
        for _ in range(200):
            start, end = sorted(source.sample(range(0x5000, 0x38000, 0x800), 2))
            shared = {area.name: sum(area.start <= byte < area.end for byte in range(start, end, 0x800)) for area in areas}
            best = max(shared.values())
            found = name_of(areas, start, end)
            self.assertEqual(found, next(name for name in shared if shared[name] == best) if best else None)

    def test_other_lines(self) -> None:
        for line in ("0x1000-0x2000", "0x1000-0x2000 ", "1000-2000 a", "0x2000-0x1000 a", "0x1000-0x1000 a", "", "0x1000 0x2000 a"):
            with self.assertRaisesRegex(NamesError, "line 2: not `START-END NAME`"):
                named_areas_of(["0x1000-0x2000 a\n", line])


class Errors(Refusals):
    def test_parts(self) -> None:
        report = TWO_AGGREGATIONS.encode()
        self.refused(TOOL, ["--target names target 7, and the report has 0, 1"], report, "--target", "7")
        self.refused(TOOL, ["no aggregation has a region in this part"], report, "--from", "6")
        self.refused(TOOL, ["--charts names 'refaults', and the report has working-set, regions"], report, "--charts", "refaults")
        self.refused(TOOL, ["--busy is a share"], report, "--busy", "2")
        self.refused(TOOL, [": line 1: not `START-END NAME`"], report, "--names", str(Path(__file__)))
        with tempfile.NamedTemporaryFile("w", suffix=".report") as file:
            file.write("exact counts 1\naggregate tick=5 rows=0\n")
            file.flush()
            self.refused(TOOL, [f"{file.name}: the exact report has no aggregation at tick 4"], report, "--exact", file.name)
        for words in (["--heat"], ["--front", "--x", "checks", "--y", "hot_found"]):
            self.refused(TOOL, ["are for reports"], report, *words, "--busy", "0")

    def test_every_part_is_a_picture(self) -> None:
        for tick in range(6):
            xml.fromstring(xml.tostring(drawn(TWO_AGGREGATIONS, "--from", str(tick), "--to", str(tick + 1), "--busy", "0.5")))


if __name__ == "__main__":
    unittest.main()
