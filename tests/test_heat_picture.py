#!/usr/bin/env python3
"""Tests of the picture of heat tables: `tools/picture.py --heat`, and the readers of what it draws."""
from __future__ import annotations

import random
import re
import shutil
import subprocess
import tempfile
import unittest
import xml.etree.ElementTree as xml
from pathlib import Path

from test_picture import RIGHT, paths_of, texts_of, titles_of, x_of
from tool_runs import PROGRAM, TOP, Refusals, need_program, run

from reports.heat import heats_of
from reports.places import Place, places_of

TOOL = "picture.py"
LIVE = """\
damon live 1
seed 42
unit 1
cap 8
attrs 3 8 4
target 0x10000 2
target 0x20000 16
range 0 0x10000 0x12000 0
range 1 0x20000 0x30000 0
passes 6
end
"""
TABLES = """\
heat 4 0 0 0 0 0 0 0 0 4
heat 4 1 0 0 8 4 0 0 0 0
freq 4 13 0 0 0 0 2 0 0 0 0 3
wss 4 5
heat 6 0 0 0 0 0 0 0 0 0
heat 6 1 4 4 0 0 0 0 0 0
freq 6 14 0 0 0 0 4 0 0 0 0 0
wss 6 4
all reports=2 least=4 median=4 greatest=5
"""
"""Of column 7 of target 0, which is its second page, and of column 2 of target 1 the pages were found accessed in each of
four passes, and of column 3 in half of them; in the next two passes those of columns 0 and 1."""
TOP_OF_PANELS, HEIGHT = 94, 355
"""Where the panel of target 1 is: its height is to that of target 0 as the square roots of their pages are."""


def setUpModule() -> None:
    need_program()


class Places(unittest.TestCase):
    def setUp(self) -> None:
        folder = tempfile.TemporaryDirectory()
        self.addCleanup(folder.cleanup)
        self.script = Path(folder.name) / "live.damon"
        self.script.write_text(LIVE)


def drawn(tables: str, *words: str) -> xml.Element:
    """The picture of heat tables, which must be taken."""
    ran = run(TOOL, "--heat", *words, text=tables.encode())
    if ran.returncode != 0 or ran.stderr:
        raise AssertionError(ran.stderr.decode())
    return xml.fromstring(ran.stdout)


def boxes(path: str) -> list[list[float]]:
    """The left, top, right and bottom of each rectangle of a path."""
    return [[float(number) for number in re.findall(r"[\d.]+", part)[:4]] for part in path.split("z")[:-1]]


class Readers(unittest.TestCase):
    def test_tables(self) -> None:
        first, second = heats_of(TABLES.splitlines(keepends=True))
        self.assertEqual([(one.tick, one.passes, one.working_set) for one in (first, second)], [(4, 4, 5), (6, 2, 4)])
        self.assertEqual(first.heat, [[0] * 7 + [4], [0, 0, 8, 4, 0, 0, 0, 0]])
        self.assertEqual(first.freq, [13, 0, 0, 0, 0, 2, 0, 0, 0, 0, 3])
        self.assertEqual(heats_of(["all reports=0\n"]), [])

    def test_places(self) -> None:
        journal = LIVE.replace("live 1", "journal 2").replace("passes 6\nend", "begin")
        for text in (LIVE, journal):
            self.assertEqual(places_of(text.splitlines()), [Place(0x10000, 2), Place(0x20000, 16)])
        self.assertEqual(Place(0x10000, 2).borders(8), [0, 0, 0, 0, 1, 1, 1, 1, 2])


class Pictures(Places):
    def test_colours_are_shares_of_pages_and_passes(self) -> None:
        picture = drawn(TABLES, "--script", str(self.script), "--title", "a < b", "--label", "1=the heap")
        for text in ("a < b", "0x10000", "0x12000", "0x20000", "0x30000", "target 0", "8 KiB", "the heap", "target 1, 64 KiB",
                     "mean share of samples in which its pages were found accessed:  never", "addresses", "working set", "20 KiB", "often accessed",
                         "sampling intervals"):
            self.assertIn(text, texts_of(picture))
        hot, half = paths_of(picture, "class", "h9"), paths_of(picture, "class", "h5")
        self.assertEqual((len(hot), len(half)), (2, 1))
        bottom, middle = TOP_OF_PANELS + HEIGHT, float(x_of(4, 6))
        self.check(boxes(hot[0]), [[128, bottom - HEIGHT * 6 / 16, middle, bottom - HEIGHT * 4 / 16],
                                   [middle, bottom - HEIGHT * 4 / 16, RIGHT, bottom]])
        self.check(boxes(half[0]), [[128, bottom - HEIGHT * 8 / 16, middle, bottom - HEIGHT * 6 / 16]])
        # The one page of column 7 is the upper half of the panel of target 0, and columns 0 to 2 have none.
        top = bottom + 8
        self.check(boxes(hot[1]), [[128, top, middle, top + 125 / 2]])

    def check(self, given: list[list[float]], wanted: list[list[float]]) -> None:
        self.assertEqual(len(given), len(wanted))
        for numbers, others in zip(given, wanted):
            for number, other in zip(numbers, others):
                self.assertAlmostEqual(number, other, delta=0.11)

    def test_without_places_colours_are_shares_of_the_greatest(self) -> None:
        picture = drawn(TABLES.replace(" 8 4 ", " 4 2 ").replace(" 1 4 4 ", " 1 2 2 "))
        for text in ("column 0", "column 7", "target 0", "target 1", "heat beside the greatest one of its target:  none", "columns"):
            self.assertIn(text, texts_of(picture))
        self.assertNotIn("0x10000", texts_of(picture))
        self.assertIn("target 1: 8 columns", titles_of(picture))
        hot, half = paths_of(picture, "class", "h9"), paths_of(picture, "class", "h5")
        self.assertEqual([len(boxes(path)) for path in hot + half], [2, 1, 1])

    def test_a_large_picture_is_small(self) -> None:
        source, lines = random.Random(1), []
        for tick in range(1, 601):
            lines += [f"heat {tick} {target} " + " ".join(str(source.randrange(2)) for _ in range(64)) for target in range(3)]
            lines += [f"freq {tick}" + " 0" * 11, f"wss {tick} 0"]
        ran = run(TOOL, "--heat", text="\n".join([*lines, "all reports=600 least=0 median=0 greatest=0", ""]).encode())
        self.assertEqual((ran.returncode, ran.stderr), (0, b""))
        xml.fromstring(ran.stdout)
        self.assertLess(len(ran.stdout), 2_000_000)

    def test_many_aggregations_are_drawn_as_means(self) -> None:
        lines = [f"heat {tick} 0" + f" {tick % 2}" * 8 + f"\nfreq {tick}" + " 0" * 11 + f"\nwss {tick} 0" for tick in range(1, 961)]
        picture = drawn("\n".join([*lines, "all reports=960 least=0 median=0 greatest=0", ""]))
        self.assertEqual([len(boxes(path)) for step in range(1, 10) for path in paths_of(picture, "class", f"h{step}")], [1])

    def test_the_picture_of_the_page_of_examples(self) -> None:
        page = (TOP / "examples/README.md").read_text()
        commands = [line for line in page.splitlines() if "docs/pictures/heat.svg" in line and line.startswith("xz ")]
        self.assertEqual(len(commands), 1)
        with tempfile.TemporaryDirectory() as folder:
            line = commands[0].replace("docs/pictures/", f"{folder}/").replace("./damon", str(PROGRAM))
            subprocess.run(line, shell=True, cwd=TOP, check=True)
            self.assertTrue((Path(folder) / "heat.svg").read_bytes() == (TOP / "docs/pictures/heat.svg").read_bytes())


@unittest.skipUnless(shutil.which("gnuplot"), "gnuplot is not installed")
class Gnuplot(unittest.TestCase):
    def test_the_line_of_the_tutorial(self) -> None:
        lines = [line for line in (TOP / "docs/TUTORIAL.md").read_text().splitlines() if "matrix with image" in line]
        self.assertEqual(len(lines), 1)
        with tempfile.TemporaryDirectory() as folder:
            (Path(folder) / "workers.heat").write_text(TABLES)
            ran = subprocess.run(lines[0].replace("out/", f"{folder}/"), shell=True, capture_output=True)
            self.assertEqual((ran.returncode, ran.stderr), (0, b""))
            self.assertTrue((Path(folder) / "heat.png").read_bytes().startswith(b"\x89PNG"))


class Errors(Refusals, Places):
    def test_tables(self) -> None:
        lines = TABLES.splitlines(keepends=True)
        for number, line, parts in (
            (1, "aggregate tick=4 threshold=0 rows=1\n", ["line 1: not a line of a heat table"]),
            (1, "", ["line 1: `heat 4 0` is wanted"]),
            (1, "heat 4 0 1 2 3\n", ["line 1: 3 columns, and not 8, 16 or 64"]),
            (2, "", ["line 5: the line `freq` of tick 6 is wanted"]),
            (3, "", ["line 3: the line `freq` of tick 4 is wanted"]),
            (4, "wss 5 5\n", ["line 4: the line `wss` of tick 4 is wanted"]),
            (5, "heat 4 0 0 0 0 0 0 0 0 0\n", ["line 5: the tick is not above 4"]),
            (6, "", ["line 6: `heat 6 1` is wanted"]),
            (6, "heat 6 1" + " 0" * 16 + "\n", ["line 6: 16 columns, and not 8"]),
            (9, "all reports=3 least=4 median=4 greatest=5\n", ["line 9: there are 2 aggregations before it"]),
            (9, "", ["line 9: the tables end early"]),
            (9, lines[8] + "x", ["line 10: text after the last line"]),
        ):
            with self.subTest(number=number, line=line):
                text = "".join([*lines[: number - 1], line, *lines[number:]])
                self.refused(TOOL, parts, text.encode(), "--heat")
        self.refused(TOOL, ["line 1: the tables end early"], b"", "--heat")
        self.refused(TOOL, ["no aggregation"], b"all reports=0\n", "--heat")
        self.refused(TOOL, ["line 1: not a line of a report"], TABLES.encode())

    def test_places(self) -> None:
        for old, new, parts in (
            ("damon live 1", "damon script 1", ["live.damon: line 1: not a live script or a journal"]),
            ("target 0x10000 2", "target 0x10000 two", ["live.damon: line 6: not a target"]),
            ("target 0x10000 2\n", "", ["live.damon: the targets are 1, and 2 in the tables"]),
            ("target 0x20000 16", "target 0x20000 8", ["column 2 of target 1 has 1 page, ", "cannot be 8"]),
            (LIVE[LIVE.index("range"):], "", ["live.damon: the text ends before its targets do"]),
        ):
            with self.subTest(new=new):
                self.script.write_text(LIVE.replace(old, new))
                self.refused(TOOL, parts, TABLES.encode(), "--heat", "--script", str(self.script))
        self.refused(TOOL, ["no-such-file: No such"], TABLES.encode(), "--heat", "--script", "no-such-file")
        self.refused(TOOL, ["--label", "target 9", "0, 1"], TABLES.encode(), "--heat", "--label", "9=heap")


if __name__ == "__main__":
    unittest.main()
