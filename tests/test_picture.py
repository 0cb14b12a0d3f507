#!/usr/bin/env python3
"""Tests of tools/picture.py and of the reader of reports."""
from __future__ import annotations

import random
import re
import subprocess
import sys
import tempfile
import unittest
import xml.etree.ElementTree as xml
from pathlib import Path

from tool_runs import PROGRAM, TOOLS, TOP, Refusals, need_program, random_trace, report_of, run, script_of

from drawing.charts import CHART, charts_of, quota_charts
from drawing.grid import UNWATCHED, level, rectangles
from drawing.history import commits_of, history_of
from drawing.panels import ALONE
from reports.events import Aggregation, Commit, Report, ReportError, Show, Snapshot, Tuned
from reports.memory import Memory

TOOL = "picture.py"
SVG = "{http://www.w3.org/2000/svg}"
TWO_AGGREGATIONS = """\
aggregate tick=4 threshold=0 rows=2
apply 0 pageout 0 0x10000-0x12000 score=25
slot 0 left=2 taken=2 lowest=25
row 0 0x10000-0x14000 count=0 last=0 age=1
row 1 0x20000-0x22000 count=4 last=0 age=0
commit tick=4 ok rows=2 void=no
aggregate tick=6 threshold=0 rows=2
slot 0 inactive
row 0 0x10000-0x14000 count=1 last=0 age=0
row 1 0x20000-0x22000 count=0 last=4 age=0
show tick=6 phase=idle rows=1
row 0 0x10000-0x14000 count=0 last=1 age=0
scheme 0 pageout active=no charged=2 start=0 tried=1 applied=2 exceeds=0
end ticks=6 rows=2 checks=12 hits=5
"""
RECLAIMED = """\
aggregate tick=4 threshold=0 rows=1
apply 0 pageout 0 0x10000-0x12000 score=25
slot 0 left=2 taken=2 lowest=25
row 0 0x10000-0x16000 count=0 last=0 age=1
reclaim tick=4 resident=4 out=2 pageouts=2 refaults=0 prefetches=0
commit tick=4 ok rows=1 void=no
commit tick=4 ok rows=1 void=no
aggregate tick=6 threshold=0 rows=1
slot 0 left=0 taken=0 lowest=none
row 0 0x10000-0x16000 count=1 last=0 age=0
reclaim tick=6 resident=5 out=1 pageouts=2 refaults=1 prefetches=0
commit tick=6 ok rows=1 void=no
aggregate tick=8 threshold=0 rows=1
slot 0 left=0 taken=0 lowest=none
row 0 0x10000-0x16000 count=0 last=1 age=1
reclaim tick=8 resident=5 out=1 pageouts=2 refaults=1 prefetches=0
commit tick=8 ok rows=1 void=no
end ticks=9 rows=1 checks=9 hits=1
reclaim tick=9 resident=6 out=0 pageouts=2 refaults=2 prefetches=0
"""
"""What `damon reclaim` writes of a script with one commit."""
TUNED = TWO_AGGREGATIONS.replace("slot 0 inactive", "slot 0 left=3 taken=0 lowest=none") + "tuned 0 bytes=12345\ntuned 7 bytes=none\n"
LEFT, RIGHT = 128, 806
"""Where time begins and ends in a picture."""


def setUpModule() -> None:
    need_program()


def drawn(report: str, *words: str) -> xml.Element:
    """The picture of a report, which must be taken."""
    ran = run(TOOL, *words, text=report.encode())
    if ran.returncode != 0 or ran.stderr:
        raise AssertionError(ran.stderr.decode())
    return xml.fromstring(ran.stdout)


def texts_of(picture: xml.Element) -> list[str]:
    return [element.text or "" for element in picture.iter(f"{SVG}text")]


def paths_of(picture: xml.Element, name: str, value: str) -> list[str]:
    """The steps of all paths with this attribute."""
    return [path.get("d", "") for path in picture.iter(f"{SVG}path") if path.get(name) == value]


def titles_of(picture: xml.Element) -> list[str]:
    return [element.text or "" for element in picture.iter(f"{SVG}title")]


def x_of(tick: float, last: int) -> str:
    return f"{LEFT + (RIGHT - LEFT) * tick / last:.1f}".removesuffix(".0")


def replayed(name: str, form: str = "replay") -> str:
    script = (TOP / "examples" / f"{name}.damon").read_bytes()
    return subprocess.run([PROGRAM, form], input=script, capture_output=True, check=True).stdout.decode()


class Reports(unittest.TestCase):
    def test_events(self) -> None:
        found = list(Report(TWO_AGGREGATIONS.splitlines(keepends=True)).events())
        self.assertEqual([type(event) for event in found], [Aggregation, Commit, Aggregation, Show])
        self.assertEqual([(one.tick, one.passes, len(one.regions), one.working_set, one.active)
                          for one in found if isinstance(one, Snapshot)],
                         [(4, 4, 2, 0x2000, {0: True}), (6, 2, 2, 0x4000, {0: False}), (6, 1, 1, 0, {0: False})])
        self.assertEqual(found[1], Commit(4, "ok rows=2 void=no"))

    def test_what_reclaim_and_tune_say(self) -> None:
        found = list(Report(RECLAIMED.splitlines(keepends=True)).events())
        self.assertEqual([type(event) for event in found],
                         [Aggregation, Memory, Commit, Commit, Aggregation, Memory, Commit, Aggregation, Memory, Commit, Memory])
        self.assertEqual([one for one in found if isinstance(one, Memory)],
                         [(4, 4, 2, 2, 0, 0), (6, 5, 1, 2, 1, 0), (8, 5, 1, 2, 1, 0), (9, 6, 0, 2, 2, 0)])
        found = list(Report(TUNED.splitlines(keepends=True)).events())
        self.assertEqual(found[-2:], [Tuned(0, 12345), Tuned(7, None)])
        self.assertEqual([one.left for one in found if isinstance(one, Aggregation)], [{0: 2}, {0: 3}])

    def test_reports_as_json(self) -> None:
        for name in ("cold", "filters", "watermarks", "commit"):
            text, lines = (list(Report(replayed(name, form).splitlines()).events()) for form in ("replay", "json"))
            self.assertEqual(lines, text)
        for line in ("{", '{"kind":"row"}', '{"kind":"aggregate","tick":1}'):
            with self.assertRaises(ReportError):
                list(Report([line]).events())

    def test_cut_reports(self) -> None:
        lines = TWO_AGGREGATIONS.splitlines()
        for count in (1, 3, 4, 8, 11):
            with self.subTest(count=count), self.assertRaisesRegex(ReportError, f"line {count + 1}: .* rows="):
                list(Report(lines[:count]).events())
        with self.assertRaisesRegex(ReportError, "count=5 in 4 passes"):
            list(Report(TWO_AGGREGATIONS.replace("count=4", "count=5").splitlines()).events())

    def test_exact_counts(self) -> None:
        report = Report(["exact counts 1", "aggregate tick=2 rows=1", "row 0 0x10000-0x12000 count=2"])
        self.assertTrue(report.has_runs)
        self.assertEqual([(one.passes, one.working_set) for one in report.aggregations()], [(2, 0x2000)])


class Parts(unittest.TestCase):
    def test_rectangles(self) -> None:
        self.assertEqual(rectangles([[0, 2, 2], [0, 2, 2], [UNWATCHED, 2, 3]]),
                         {2: [(0, 1, 2, 2), (2, 1, 1, 1)], 3: [(2, 2, 1, 1)], UNWATCHED: [(2, 0, 1, 1)]})

    def test_levels(self) -> None:
        self.assertEqual([level(share) for share in (0, 0.01, 0.5, 0.99, 1)], [0, 1, 5, 9, 9])

    def test_columns_end_at_aggregations_and_at_shows_before_a_commit(self) -> None:
        self.assertEqual([one.tick for one in history_of(Report(replayed("commit").splitlines()).events(), None).snapshots], [3, 5, 6])
        self.assertEqual([one.tick for one in history_of(Report(TWO_AGGREGATIONS.splitlines()).events(), None).snapshots], [4, 6])
        self.assertEqual([one.tick for one in history_of(Report(replayed("hot").splitlines()).events(), None).snapshots], [6])

    def test_commits_of_a_script(self) -> None:
        self.assertEqual(commits_of((TOP / "examples/commit.damon").read_text().splitlines(keepends=True)),
                         [("range 0 0x13000 0x23000 0",), ("attrs 3 3 5",), ("attrs 3 2 5",), ("attrs 3 3 5",)])


class Pictures(unittest.TestCase):
    def test_a_small_picture(self) -> None:
        ran = run(TOOL, "--title", "a < b", "--label", "1=the heap", text=TWO_AGGREGATIONS.encode())
        self.assertEqual((ran.returncode, ran.stderr), (0, b""))
        picture = xml.fromstring(ran.stdout)
        for text in ("a < b", "0x10000", "0x14000", "0x20000", "0x22000", "the heap", "target 0", "16 KiB",
                     "share of samples in which it was found accessed:  never", "always", "addresses", "slot 0 pageout: 2 pages",
                     "working set", "regions"):
            self.assertIn(text, texts_of(picture))
        self.assertIn(b"prefers-color-scheme:dark", ran.stdout)
        # Target 1 has the count 4 of 4 in the first four of six ticks; target 0 has 1 of 2 in the others.
        self.assertTrue(paths_of(picture, "class", "h9")[0].startswith("M128 "))
        self.assertTrue(paths_of(picture, "class", "h5")[0].startswith(f"M{x_of(4, 6)} "))
        self.assertEqual(len(re.findall("hatch0", ran.stdout.decode())), 3)
        self.assertEqual(paths_of(picture, "fill", "url(#unwatched)"), [])
        self.assertNotIn("not watched", texts_of(picture))

    def test_pages_of_a_slot_count_once(self) -> None:
        again = TWO_AGGREGATIONS.replace("slot 0 inactive", "apply 0 pageout 0 0x11000-0x13000 score=2\nslot 0 left=2 taken=2 lowest=2")
        self.assertIn("slot 0 pageout: 3 pages", texts_of(drawn(again)))

    def test_slots_share_colours(self) -> None:
        lines = [f"apply {slot} stat 0 0x10000-0x12000 score=9\nslot {slot} left=none taken=2 lowest=9\n" for slot in range(6)]
        report = "aggregate tick=4 threshold=0 rows=1\n" + "".join(lines) + "row 0 0x10000-0x14000 count=0 last=0 age=1\n"
        self.assertEqual([text for text in texts_of(drawn(report)) if ": " in text and text.startswith("slot")],
                         ["slots 0, 4: 2 pages and 2 pages", "slots 1, 5: 2 pages and 2 pages", "slot 2 stat: 2 pages", "slot 3 stat: 2 pages"])

    def test_a_large_picture_is_small(self) -> None:
        source, lines = random.Random(1), []
        for tick in range(1, 301):
            edges = [0, *sorted(source.sample(range(1, 50_000), 599)), 50_000]
            lines.append(f"aggregate tick={tick} threshold=0 rows=600")
            lines += [f"row 0 {low * 4096:#x}-{high * 4096:#x} count={source.randrange(2)} last=0 age=0"
                      for low, high in zip(edges, edges[1:])]
        ran = run(TOOL, text="\n".join(lines).encode())
        self.assertEqual(ran.returncode, 0)
        xml.fromstring(ran.stdout)
        self.assertLess(len(ran.stdout), 3_000_000)


class Memories(unittest.TestCase):
    """What `damon reclaim` and `damon tune` add to a report is drawn beneath."""

    def curve(self, picture: xml.Element, number: int) -> list[tuple[str, float]]:
        """The corners of a curve: where they are in time, and how far up in the chart, from 0 to 1."""
        first, *points, _ = (point.split() for point in paths_of(picture, "class", "area")[number][1:-1].split("L"))
        return [(x, round((float(first[1]) - float(y)) / CHART, 2)) for x, y in points]

    def test_resident_pages_and_refaults(self) -> None:
        picture = drawn(RECLAIMED)
        for text in ("resident", "24 KiB", "0 bytes out at the end", "refaults", "2 in all"):
            self.assertIn(text, texts_of(picture))
        # Six pages are resident until tick 4, four until tick 6, and five from then on; the one refault is before tick 6.
        self.assertEqual(self.curve(picture, 2), self.steps(1.0, 0.67, 0.83))
        self.assertEqual(self.curve(picture, 3), self.steps(0.0, 1.0, 0.0))

    def steps(self, *heights: float) -> list[tuple[str, float]]:
        """A curve with these heights up to the ticks 4, 6 and 8."""
        ticks = [0, 4, 6, 8]
        return [(x_of(tick, 8), height) for place, height in enumerate(heights) for tick in ticks[place : place + 2]]

    def test_the_metric_that_reclaim_puts_in_is_no_commit_of_the_script(self) -> None:
        with tempfile.NamedTemporaryFile("w", suffix=".damon") as script:
            script.write("commit\nattrs 3 8 5\napply\n")
            script.flush()
            picture = drawn(RECLAIMED, "--script", script.name)
        self.assertEqual([title for title in titles_of(picture) if title.startswith("tick")], ["tick 4: attrs 3 8 5: ok rows=1 void=no"])

    def test_what_was_left_of_quotas(self) -> None:
        picture = drawn(TUNED)
        for text in ("quota left, slot 0", "12.1 KiB at the end", "12 KiB", "quota left, slot 7", "none at the end"):
            self.assertIn(text, texts_of(picture))
        self.assertEqual(self.curve(picture, 2), [("128", 0.67), (x_of(4, 6), 0.67), (x_of(4, 6), 1.0), ("806", 1.0)])
        self.assertEqual({height for _, height in self.curve(picture, 3)}, {0.0})
        # It has a mark for the commit, and no line through the picture: the tuner may have put it in.
        self.assertIn("tick 4: commit: ok rows=2 void=no", titles_of(picture))
        self.assertEqual(paths_of(picture, "class", "commit"), [])

    def test_what_is_left_where_a_window_begins_is_the_quota(self) -> None:
        goal, quota = "0:cold:700:8192:400000", 400_000
        scheme = f"scheme 0 pageout count=0,1 quota={quota},5 prefer=cold"
        script = script_of(random_trace(3, 1600), "--interval", "10", "--aggr", "5", "--scheme", scheme)
        history = history_of(Report(report_of(script, "tune", goal).splitlines()).events(), None)
        parts = script.split("finish\n")
        wanted = [quota // 4096]
        for tick in history.ticks:
            # A run that ends at the aggregation says which bytes the quota has after it.
            ended = report_of("finish\n".join(parts[:tick]) + "finish\nend\n", "tune", goal)
            wanted.append(int(ended.rpartition("bytes=")[2]) // 4096)
        chart, = quota_charts(history)
        self.assertEqual([*chart.values], wanted[:-1])
        self.assertGreater(len(set(wanted)), 5)
        self.assertLess(min(wanted), wanted[-1])

    def test_reports_of_other_commands_have_two_charts(self) -> None:
        for report in (TWO_AGGREGATIONS, RECLAIMED[: RECLAIMED.index("aggregate tick=6")]):
            history = history_of(Report(report.splitlines()).events(), None)
            self.assertEqual([chart.name for chart in charts_of(history)], ["working set", "regions"])


class Commits(unittest.TestCase):
    """The effect of commits can be seen; examples/README.md says what those of its scripts do."""

    def test_a_range_that_moves(self) -> None:
        picture = drawn(replayed("commit"), "--script", str(TOP / "examples/commit.damon"))
        # The commit at tick 3 moves the range up by three pages: from then on the three at the bottom are not watched,
        # and before it the three at the top were not. Of the six ticks that are drawn, 3 are at the middle.
        parts = paths_of(picture, "fill", "url(#unwatched)")[0].split("z")[:-1]
        high, low = sorted((re.findall(r"[\d.]+", part) for part in parts), key=lambda place: float(place[1]))
        height = ALONE * 3 / 19
        self.assertEqual((low[0], low[2]), (x_of(3, 6), x_of(6, 6)))
        self.assertEqual((high[0], high[2]), (x_of(0, 6), x_of(3, 6)))
        for part in (low, high):
            self.assertAlmostEqual(abs(float(part[1]) - float(part[3])), height, delta=0.2)
        self.assertIn("not watched", texts_of(picture))
        # A line stands at each commit that was accepted, and none at the one that was refused at tick 4.
        lines = paths_of(picture, "class", "commit")
        self.assertEqual([line.split()[0][1:] for line in lines[:2]], [x_of(3, 6), x_of(5, 6)])
        self.assertEqual(len(paths_of(picture, "class", "cross")), 2)
        for text in ("range", "attrs refused", "attrs refused, attrs"):
            self.assertIn(text, texts_of(picture))
        self.assertIn("tick 4: attrs 3 3 5: refused busy next=5", titles_of(picture))

    def test_metrics_and_active_slots(self) -> None:
        picture = drawn(replayed("watermarks"), "--script", str(TOP / "examples/watermarks.damon"))
        titles = titles_of(picture)
        spans = [title for title in titles if title.startswith("slot ")]
        self.assertEqual(spans, [
            "slot 0: inactive from tick 0 to 1", "slot 0: active from tick 1 to 3", "slot 0: active from tick 4 to 7",
            "slot 1: active from tick 5 to 6", "slot 1: inactive from tick 6 to 7"])
        bars = [bar for bar in picture.iter(f"{SVG}rect") if bar.get("height") == "7"]
        self.assertEqual([bar.get("x") for bar in bars], [x_of(tick, 7) for tick in (1, 4, 5)])
        self.assertIn("tick 1: metric 399: ok rows=3 void=no", titles)
        metrics = [path for path in paths_of(picture, "class", "dot")]
        self.assertEqual([path.split()[0][1:] for path in metrics],
                         [f"{LEFT + (RIGHT - LEFT) * tick / 7 - 4:.1f}".removesuffix(".0") for tick in (1, 2, 4, 5, 6)])
        # A metric alone changes nothing that is watched, so it has no line through the picture.
        lines = {line.split()[0][1:] for line in paths_of(picture, "class", "commit")}
        self.assertLessEqual({x_of(tick, 7) for tick in (3, 4, 5)}, lines)
        self.assertNotIn(x_of(1, 7), lines)

    def test_commits_after_the_last_column(self) -> None:
        picture = drawn(TWO_AGGREGATIONS.replace("end ticks", "commit tick=7 ok rows=2 void=no\nend ticks"))
        self.assertIn("and 1 later", texts_of(picture))
        self.assertEqual(len(paths_of(picture, "class", "commit")), 2)

    def test_without_the_script(self) -> None:
        picture = drawn(replayed("commit"))
        self.assertIn("tick 3: commit: ok rows=4 void=yes", titles_of(picture))
        self.assertIn("commits", texts_of(picture))

    def test_the_picture_of_the_page_of_examples(self) -> None:
        page = (TOP / "examples/README.md").read_text()
        commands = [line for line in page.splitlines() if "docs/pictures/commit.svg" in line and line.startswith("./damon")]
        self.assertEqual(len(commands), 1)
        with tempfile.TemporaryDirectory() as folder:
            line = commands[0].replace("docs/pictures/", f"{folder}/").replace("./damon", str(PROGRAM))
            subprocess.run(line, shell=True, cwd=TOP, check=True)
            self.assertTrue((Path(folder) / "commit.svg").read_bytes() == (TOP / "docs/pictures/commit.svg").read_bytes())


class Errors(Refusals):
    def test_pictures(self) -> None:
        report = TWO_AGGREGATIONS.encode()
        self.refused(TOOL, ["line 1:"], b"nothing\n")
        self.refused(TOOL, ["no aggregation"], b"end ticks=0 rows=1 checks=0 hits=0\n")
        header = report.splitlines(keepends=True)[0]
        self.refused(TOOL, ["line 2", "rows=2"], header + header)
        self.refused(TOOL, ["line 2", "appl"], report[:40])
        self.refused(TOOL, ["--label"], report, "--label", "heap")
        self.refused(TOOL, ["--label", "target 9", "0, 1"], report, "--label", "9=heap")
        self.refused(TOOL, ["no-such-file: No such"], report, "no-such-file")
        self.refused(TOOL, ["0 commits", "1"], report, "--script", str(TOP / "examples/hot.damon"))
        self.refused(TOOL, ["damon tune", "commits"], TUNED.encode(), "--script", str(TOP / "examples/hot.damon"))

    def test_a_closed_pipe_ends_it_in_silence(self) -> None:
        with tempfile.TemporaryDirectory() as folder:
            path = Path(folder) / "report"
            path.write_text(TWO_AGGREGATIONS)
            process = subprocess.Popen([sys.executable, str(TOOLS / TOOL), str(path)], stdout=subprocess.PIPE, stderr=subprocess.PIPE)
            assert process.stdout and process.stderr
            process.stdout.close()
            message = process.stderr.read()
            process.stderr.close()
            process.wait()
        self.assertEqual(message, b"")


if __name__ == "__main__":
    unittest.main()
