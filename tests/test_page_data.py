#!/usr/bin/env python3
"""Tests of tools/page.py: that a page has what the report says, and nothing from elsewhere. tests/test_page.py looks at it in a browser."""
from __future__ import annotations

import json
import random
import re
import subprocess
import tempfile
import unittest
from pathlib import Path

from page_parts import PAGE, REPORT, Parts, Row, Run, aggregations_of, d3_is_missing, made, parts_of
from tool_runs import PROGRAM, TOP, Refusals, need_program

from drawing.style import DARK, LIGHT
from webpage.d3 import BUNDLE
from webpage.document import DIFFERENCE, SCRIPTS

TOOL = "page.py"
NAMES = ("cold", "filters", "targets", "window", "watermarks", "aggregate")


def setUpModule() -> None:
    need_program()


def replayed(name: str, form: str = "replay") -> str:
    script = (TOP / "examples" / f"{name}.damon").read_bytes()
    return subprocess.run([PROGRAM, form], input=script, capture_output=True, check=True).stdout.decode()


def luminance(colour: str) -> float:
    """How light a colour is, from 0 to 1, as the guidelines for contrast (WCAG) have it."""
    parts = [int(colour[at : at + 2], 16) / 255 for at in (1, 3, 5)]
    linear = [part / 12.92 if part <= 0.03928 else ((part + 0.055) / 1.055) ** 2.4 for part in parts]
    return float(0.2126 * linear[0] + 0.7152 * linear[1] + 0.0722 * linear[2])


@unittest.skipIf(d3_is_missing(), "D3 (Debian's node-d3) is not installed")
class Data(unittest.TestCase):
    """The columns of a page, beside the words of the report."""

    def rows_of(self, parts: Parts, report: int = 0) -> list[tuple[int, Row]]:
        """Each row with its tick."""
        snapshots, rows = parts.columns(report, "snapshots"), parts.columns(report, "rows")
        ticks = [tick for tick, count in zip(snapshots["tick"], snapshots["rows"]) for _ in range(int(count))]
        targets = [parts.meta["targets"][int(place)] for place in rows["target"]]
        addresses = [[(target["low"] + int(page)) * PAGE for target, page in zip(targets, rows[name])] for name in ("start", "end")]
        numbers = [[int(number) for number in rows[name]] for name in ("count", "last", "age")]
        return [(int(tick), Row(target["number"], *found)) for tick, target, *found in zip(ticks, targets, *addresses, *numbers)]

    def runs_of(self, parts: Parts) -> list[tuple[int, Run]]:
        """Each run of a scheme with its tick."""
        snapshots, runs = parts.columns(0, "snapshots"), parts.columns(0, "runs")
        ticks = [tick for tick, count in zip(snapshots["tick"], snapshots["runs"]) for _ in range(int(count))]
        found = []
        for place, tick in enumerate(ticks):
            target = parts.meta["targets"][int(runs["target"][place])]
            start, end = ((target["low"] + int(runs[name][place])) * PAGE for name in ("start", "end"))
            action = parts.meta["reports"][0]["actions"][int(runs["action"][place])]
            found.append((int(tick), Run(int(runs["slot"][place]), action, target["number"], start, end, int(runs["score"][place]))))
        return found

    def test_rows_and_runs(self) -> None:
        for name in NAMES:
            for form in ("replay", "json"):
                with self.subTest(name=name, form=form):
                    found, parts = aggregations_of(replayed(name)), parts_of(made(text=replayed(name, form)))
                    # Shows before a commit have columns of their own, and come to no aggregation.
                    ticks = {one.tick for one in found}
                    self.assertEqual([row for row in self.rows_of(parts) if row[0] in ticks], [(one.tick, row) for one in found for row in one.rows])
                    wanted = [(one.tick, entry) for one in found
                              for entry in sorted(one.runs, key=lambda entry: (entry.target, entry.start, entry.slot))]
                    self.assertEqual(self.runs_of(parts), wanted)

    def test_passes_slots_and_curves(self) -> None:
        parts = parts_of(made(text=REPORT))
        self.assertEqual(parts.columns(0, "snapshots"),
                         {"tick": [4, 6], "passes": [4, 2], "rows": [2, 2], "runs": [1, 0], "isAggregation": [1, 1]})
        report = parts.meta["reports"][0]
        self.assertEqual(report["slots"], [{"number": 0, "action": "pageout", "pages": 2, "spans": [[0, 4, True], [4, 6, False]]}])
        curves = {curve["name"]: parts.column(curve["values"]) for curve in report["curves"]}
        self.assertEqual((curves["working set"], curves["regions"]), ([2, 4], [2, 2]))
        left = curves["quota left, slot 0"]
        self.assertTrue(left[0] == 2 and left[1] != left[1], left)

    def test_two_reports_share_their_targets(self) -> None:
        other = REPORT.replace("0x10000", "0x0f000").replace("0x22000", "0x25000").replace("0x0f", "0xf").replace("row 1", "row 2")
        with tempfile.TemporaryDirectory() as folder:
            path = Path(folder) / "other.report"
            path.write_text(other)
            parts = parts_of(made("-", str(path), "--label", "1=heap", text=REPORT))
        self.assertEqual(parts.meta["targets"], [
            {"number": 0, "name": "target 0", "low": 0xF, "high": 0x14}, {"number": 1, "name": "heap", "low": 0x20, "high": 0x22},
            {"number": 2, "name": "target 2", "low": 0x20, "high": 0x25}])
        self.assertEqual([report["name"] for report in parts.meta["reports"]], ["standard input", "other.report"])
        for number, text in enumerate((REPORT, other)):
            self.assertEqual([row for _, row in self.rows_of(parts, number)], [row for one in aggregations_of(text) for row in one.rows])

    def test_what_is_too_much_is_left_out(self) -> None:
        source, lines = random.Random(4), []
        for tick in range(1, 32):
            count = source.randrange(1, 9)
            lines.append(f"aggregate tick={tick} threshold=0 rows={count}")
            lines += [f"row 0 {number * PAGE:#x}-{(number + 1) * PAGE:#x} count=0 last=0 age={tick}" for number in range(count)]
        report = "\n".join(lines) + "\n"
        found = aggregations_of(report)
        for most in (1, 20, 50, 1000):
            kept = parts_of(made("--most", str(most), text=report))
            step = kept.meta["reports"][0]["step"]
            wanted = found[::-step][::-1]
            self.assertEqual([row for _, row in self.rows_of(kept)], [row for one in wanted for row in one.rows])
            self.assertEqual(kept.meta["reports"][0]["found"], {"snapshots": 31, "rows": sum(len(one.rows) for one in found)})
            # No lesser step would do, and the curves have all.
            self.assertTrue(step == 1 or sum(len(one.rows) for one in found[:: -(step - 1)]) > most)
            self.assertTrue(sum(len(one.rows) for one in wanted) <= most or len(wanted) == 1)
            self.assertEqual(len(kept.column(kept.meta["reports"][0]["curves"][0]["values"])), 31)

    def test_exact_counts_have_no_ages(self) -> None:
        parts = parts_of(made(text="exact counts 1\naggregate tick=2 rows=1\nrow 0 0x10000-0x12000 count=2\n"))
        self.assertEqual((parts.meta["reports"][0]["hasAges"], parts.columns(0, "rows")["age"], parts.columns(0, "rows")["count"]), (False, [0], [2]))


@unittest.skipIf(d3_is_missing(), "D3 (Debian's node-d3) is not installed")
class Text(unittest.TestCase):
    def test_a_page_needs_nothing_from_elsewhere(self) -> None:
        rest = parts_of(made(text=REPORT)).rest
        self.assertEqual(set(re.findall(r'\b(?:src|href)="([^"]*)"', rest)), {"data:,"})
        self.assertEqual(re.findall(r"@import|url\(|importScripts|XMLHttpRequest|WebSocket", rest), [])
        self.assertEqual(re.findall(r"fetch\((.{5})", rest), ["`data"])

    def test_words_are_no_markup(self) -> None:
        page = made("--title", "a < b & {{meta}}", "--label", "1=</script><b>", text=REPORT)
        self.assertIn("<title>a &lt; b &amp; {{meta}}</title>", page)
        self.assertEqual(parts_of(page).meta["targets"][1]["name"], "</script><b>")
        self.assertNotIn("</script><b>", page)

    def test_the_page_has_d3_with_its_licence(self) -> None:
        page = made(text=REPORT)
        self.assertEqual((page.count(BUNDLE.read_text()), page.count("Redistributions in binary form")), (1, 1))

    def test_themes(self) -> None:
        for theme, wanted in (("auto", [LIGHT.paper, DARK.paper]), ("light", [LIGHT.paper]), ("dark", [DARK.paper])):
            self.assertEqual(re.findall(r"--paper:(#\w+);", made("--theme", theme, text=REPORT)), wanted)

    def test_each_script_is_a_part(self) -> None:
        self.assertEqual(sorted(SCRIPTS), sorted(path.stem for path in (TOP / "tools/webpage").glob("*.js")))


class Colours(unittest.TestCase):
    """Who cannot tell colours apart can tell how light they are."""

    def test_each_step_is_lighter_or_darker_than_the_one_before(self) -> None:
        for steps in ((LIGHT.panel, *LIGHT.heat), (DARK.panel, *DARK.heat), DIFFERENCE):
            light = [luminance(colour) for colour in steps]
            self.assertIn(light, (sorted(light), sorted(light, reverse=True)))
            self.assertEqual(len(set(light)), len(light))


class Errors(Refusals):
    def test_what_cannot_be_shown(self) -> None:
        report = REPORT.encode()
        self.refused(TOOL, ["two, and not 3"], report, "-", "-", "-")
        self.refused(TOOL, ["--script", "2 times"], report, "--script", "a", "--script", "b")
        self.refused(TOOL, ["--most"], report, "--most", "0")
        self.refused(TOOL, ["no-such-file: No such"], report, "no-such-file")

    def test_without_d3_it_says_what_installs_it(self) -> None:
        self.refused(TOOL, ["there is no D3", "no-such-file", "apt-get install node-d3"], REPORT.encode(), "--d3", "no-such-file")

    @unittest.skipIf(d3_is_missing(), "D3 (Debian's node-d3) is not installed")
    def test_reports(self) -> None:
        self.refused(TOOL, ["-: line 1:"], b"nothing\n")
        self.refused(TOOL, ["no aggregation"], b"end ticks=0 rows=1 checks=0 hits=0\n")
        self.refused(TOOL, ["--label", "target 9", "0, 1"], REPORT.encode(), "--label", "9=heap")
        self.refused(TOOL, ["7 commits", "report 0"], REPORT.encode(), "--script", str(TOP / "examples/watermarks.damon"))

    @unittest.skipIf(d3_is_missing(), "D3 (Debian's node-d3) is not installed")
    def test_a_bundle_that_would_end_its_element(self) -> None:
        with tempfile.NamedTemporaryFile("w", suffix=".js") as bundle:
            bundle.write(json.dumps("</script>"))
            bundle.flush()
            self.refused(TOOL, [bundle.name, "</script"], REPORT.encode(), "--d3", bundle.name)


if __name__ == "__main__":
    unittest.main()
