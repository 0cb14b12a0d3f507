#!/usr/bin/env python3
"""Tests of `tools/picture.py --front`, and of the reader of the rows that it draws."""
from __future__ import annotations

import random
import unittest
import xml.etree.ElementTree as xml

from test_picture import SVG, paths_of, texts_of, titles_of
from tool_runs import Refusals, need_program, run

from drawing.front import Scale, round_step
from drawing.front_labels import Label, labels_placed
from searching.marks import Axis, Mark, axis_of, front_of, table_of

TOOL = "picture.py"
RUNS = """\
workload,interval,max,seed,checks,hot_found,working_set_error,status
a.trace,10,20,1,100,0.2500,-0.5000,ok
a.trace,10,40,1,300,0.7500,0.1000,ok
a.trace,10,60,1,500,0.5000,0.2000,ok
a.trace,10,80,1,,,,line 5: bad attrs
"""
POINTS = """\
workload,max,runs,done,checks mean,checks spread,hot_found mean,hot_found spread
"a, b",20,3,3,100.0000,50.0000,0.2500,0.1250
"a, b",40,3,1,300.0000,,0.7500,
"""
AXES = ("--front", "--x", "checks", "--y", "hot_found")


def setUpModule() -> None:
    need_program()


def drawn(text: str, *words: str) -> xml.Element:
    """The picture of some rows, which must be taken."""
    ran = run(TOOL, *(words or AXES), text=text.encode())
    if ran.returncode != 0 or ran.stderr:
        raise AssertionError(ran.stderr.decode())
    return xml.fromstring(ran.stdout)


def hovers_of(picture: xml.Element, kind: str) -> list[str]:
    """The hover texts of the marks of a kind."""
    return [title.text or "" for path in picture.iter(f"{SVG}path") if path.get("class") == kind for title in path.iter(f"{SVG}title")]


class Fronts(unittest.TestCase):
    def test_fronts_are_what_no_other_beats(self) -> None:
        source = random.Random(5)
        for number in range(60):
            marks = [Mark(source.randrange(8), source.randrange(8), (0, 0), ("number",), (str(one),)) for one in range(source.randrange(1, 30))]
            x, y = Axis("x", number % 2 == 0), Axis("y", number % 4 < 2)

            def beats(one: Mark, other: Mark) -> bool:
                better = [(one.x - other.x) * (1 if x.less else -1), (one.y - other.y) * (1 if y.less else -1)]
                return max(better) <= 0 and min(better) < 0

            wanted = [one for one in marks if not any(beats(other, one) for other in marks)]
            self.assertEqual(sorted(mark.settings for mark in front_of(marks, x, y)), sorted(mark.settings for mark in wanted))

    def test_steps_of_axes(self) -> None:
        self.assertEqual([round_step(least) for least in (0.9, 1.1, 3, 6, 0.03, 400)], [1, 2, 5, 10, 0.05, 500])
        self.assertEqual(Scale(-0.1, 1.1, 0, 12).round_numbers(), [0.0, 0.2, 0.4, 0.6000000000000001, 0.8, 1.0])


class Tables(unittest.TestCase):
    def test_runs(self) -> None:
        found = table_of(RUNS.splitlines(), axis_of("checks"), axis_of("working_set_error"))
        self.assertEqual([(mark.x, mark.y, mark.settings) for mark in found.marks],
                         [(100, 0.5, "max 20"), (300, 0.1, "max 40"), (500, 0.2, "max 60")])
        self.assertEqual((found.left_out, found.same), (1, "workload a.trace, interval 10, seed 1"))

    def test_points(self) -> None:
        found = table_of(POINTS.splitlines(), axis_of("checks"), axis_of("hot_found"))
        self.assertEqual([(mark.x, mark.y, mark.spreads) for mark in found.marks], [(100, 0.25, (50, 0.125)), (300, 0.75, (0, 0))])
        self.assertEqual(found.same, "workload a, b")

    def test_axes(self) -> None:
        self.assertEqual([axis_of(text).less for text in ("checks", "hot_found", "hot_found:less", "max:less", "max:more")],
                         [True, False, True, True, False])


class Pictures(unittest.TestCase):
    def test_runs(self) -> None:
        picture = drawn(RUNS, *AXES, "--title", "a < b")
        for text in ("a < b", "hot_found (more is better)", "checks (less is better)", "2 rows in front", "1 others",
                     "1 rows without numbers", "labels: max", "20", "40", "the same in all rows: workload a.trace, interval 10, seed 1", "200",
                         "0.6"):
            self.assertIn(text, texts_of(picture))
        self.assertEqual(hovers_of(picture, "t0"), ["checks 100, hot_found 0.25\nmax 20", "checks 300, hot_found 0.75\nmax 40"])
        self.assertEqual(hovers_of(picture, "soft"), ["checks 500, hot_found 0.5\nmax 60"])
        # The rows are from 100 to 500 and from 0.25 to 0.75, with a margin of a 25th part at each side of the 678 by 420 units.
        self.assertEqual(paths_of(picture, "class", "stairs s0"), ["M153.1 490V474.4H467V85.6H806"])
        self.assertIn("the front of 2 rows, down to hot_found 0.75", titles_of(picture))

    def test_the_spread_of_points(self) -> None:
        picture = drawn(POINTS)
        self.assertEqual(len(paths_of(picture, "class", "waiting")), 1)

    def test_rows_at_one_place_are_one_mark(self) -> None:
        rows = RUNS.splitlines()[0] + "\n" + "".join(f"a.trace,10,{number},1,100,0.5000,0,ok\n" for number in range(9))
        self.assertEqual(hovers_of(drawn(rows), "t0"),
                         ["\n".join(["checks 100, hot_found 0.5", *(f"max {number}" for number in range(6)), "and 3 more"])])

    def test_a_large_picture_is_small(self) -> None:
        source = random.Random(1)
        rows = [f"a.trace,{number},1,1,{source.randrange(10**6)},{source.random():.4f},0,ok\n" for number in range(60_000)]
        ran = run(TOOL, *AXES, text=(RUNS.splitlines()[0] + "\n" + "".join(rows)).encode())
        self.assertEqual(ran.returncode, 0, ran.stderr)
        xml.fromstring(ran.stdout)
        self.assertLess(len(ran.stdout), 4_000_000)

    def test_labels_have_what_rows_differ_in(self) -> None:
        """A cap that is always the max is not in a label, and neither is what colours show."""
        rows = [f"a.trace,{most},{most},{age},{1000 - 100 * age + most},{0.5 + age / 100 + most / 1000},0,ok\n" for most in (10, 20) for age in (1,
            2)]
        text = "workload,cap,max,age,checks,hot_found,working_set_error,status\n" + "".join(rows)
        words = texts_of(drawn(text))
        self.assertLessEqual({"10 / 2", "20 / 2", "labels: max", "/ age"}, set(words))
        words = texts_of(drawn(text, *AXES, "--colour", "age"))
        self.assertLessEqual({"10", "20", "labels: max", "age 1", "age 2", "large: 2 rows in front", "small: 2 others"}, set(words))
        self.assertNotIn("/ age", words)
        several = text.splitlines(keepends=True)[:2] + [rows[0].replace(",10,10,1,", ",10,10,7,")]
        self.assertLessEqual({"*", "* several values", "labels: age"}, set(texts_of(drawn("".join(several)))))

    def test_labels_cover_nothing(self) -> None:
        source = random.Random(3)
        places = sorted((source.uniform(128, 806), source.uniform(70, 490)) for _ in range(70))
        labels = [Label(f"{number} / {number * 37}", x, y, -1, -1) for number, (x, y) in enumerate(places)]
        placed = labels_placed(labels, [(300.0, 300.0)], (128, 70, 806, 490), 7)
        self.assertGreater(len(placed), 35)
        boxes = [one.box for one in placed]
        for number, (left, top, right, bottom) in enumerate(boxes):
            self.assertTrue(128 <= left < right <= 806 and 70 <= top < bottom <= 490)
            for other in boxes[:number]:
                self.assertTrue(right <= other[0] or other[2] <= left or bottom <= other[1] or other[3] <= top)
            for x, y in [*places, (300.0, 300.0)]:
                self.assertFalse(left < x < right and top < y < bottom)

    def test_all_rows_alike(self) -> None:
        rows = RUNS.splitlines()[0] + "\n" + "a.trace,10,20,1,0,0,0,ok\n" * 2
        self.assertIn("2 rows in front", texts_of(drawn(rows)))


SEVERAL = """\
workload,interval,unit,max,seed,checks,hot_found,working_set_error,status
a.damon,,1,20,1,100,0.2500,0,ok
a.damon,,1,40,1,300,0.7500,0,ok
a.damon,,1,60,1,400,0.8500,0,ok
b.damon,,2,20,1,300,0.2000,0,ok
b.damon,,2,40,1,200,0.3000,0,ok
b.damon,,2,60,1,,,,too much work
"""


class Workloads(unittest.TestCase):
    """Settings of one workload beat none of another one: each has its front, and all together the front of their means."""

    def test_each_has_a_front(self) -> None:
        found = table_of(SEVERAL.splitlines(), axis_of("checks"), axis_of("hot_found")).by_workload()
        self.assertEqual({name: [(mark.x, mark.y, mark.value("max")) for mark in marks] for name, marks in found.items()}, {
            "a.damon": [(100, 0.25, "20"), (300, 0.75, "40"), (400, 0.85, "60")], "b.damon": [(300, 0.2, "20"), (200, 0.3, "40")],
            "all of them together": [(200, 0.225, "20"), (250, 0.525, "40")]})
        picture = drawn(SEVERAL)
        for text in ("a.damon", "3 rows in front of 3", "b.damon", "1 row in front of 2", "all of them together", "2 rows in front of 2",
                     "the same in all rows: seed 1", "labels: max"):
            self.assertIn(text, texts_of(picture))
        self.assertEqual([hovers_of(picture, kind)[0] for kind in ("stairs e0", "stairs e3", "stairs e7")], [
            "the front of a.damon of 3 rows, down to hot_found 0.85", "the front of b.damon of 1 row, down to hot_found 0.3",
            "the front of all of them together of 2 rows, down to hot_found 0.525"])

    def test_one_is_chosen(self) -> None:
        picture = drawn(SEVERAL, *AXES, "--only", "workload=b.damon", "--colour", "max")
        for text in ("large: 1 row in front", "small: 1 others", "max 20", "max 40", "the same in all rows: workload b.damon, unit 2, seed 1"):
            self.assertIn(text, texts_of(picture))
        self.assertIn("1 row in front", texts_of(drawn(SEVERAL, *AXES, "--only", "workload=b.damon", "--only", "max=40")))


class Errors(Refusals):
    def test_what_cannot_be_chosen(self) -> None:
        rows = SEVERAL.encode()
        for words, part in ((["--only", "workload"], "--only needs NAME=VALUE"), (["--only", "age=1"], "there is no column 'age'"),
                            (["--only", "workload=c"], "no row has the workload 'c': there are a.damon, b.damon"),
                            (["--colour", "max"], "choose it by --only workload=NAME"),
                            (["--only", "workload=a.damon", "--colour", "seed"], "'seed', and rows differ in max"),
                            (["--only", "max=60", "--only", "workload=a.damon", "--colour", "max"], "rows differ in nothing")):
            self.refused(TOOL, [part], rows, *AXES, *words)
        many = RUNS.splitlines()[0] + "\n" + "".join(f"{'w' * number},10,{number},1,{number},0.5,0,ok\n" for number in range(1, 10))
        self.refused(TOOL, ["9 workloads, and at most 7"], many.encode(), *AXES)
        self.refused(TOOL, ["'max', which has 9 values"], many.replace("w", "").encode(), *AXES, "--colour", "max")
        self.refused(TOOL, ["--colour and --only are for --front"], rows, "--colour", "max")

    def test_rows(self) -> None:
        for text, part in (("", "line 1: there is no column 'checks'"), ("a,b\n", "line 1: there is no column"),
                           (RUNS + "a\n", "line 6: 1 cells, and the first line has 8"), (RUNS + '"a', "line 6: "),
                           (RUNS.splitlines()[0], "no row has numbers for both checks and hot_found"),
                           (RUNS.replace("0.", "x"), "no row has numbers"), (RUNS.replace("0.", "inf"), "no row has numbers"),
                           ("\xe9", "not ASCII")):
            with self.subTest(text=text):
                self.refused(TOOL, [f"-: {part}" if part != "not ASCII" else part], text.encode(), *AXES)

    def test_options(self) -> None:
        self.refused(TOOL, ["'max' does not say what is better: use max:less or max:more"], b"", *AXES[:2], "max", *AXES[3:])
        self.refused(TOOL, ["better: use checks:less"], b"", *AXES[:2], "checks:few", *AXES[3:])
        for words in (("--front",), ("--front", "--x", "checks"), ("--x", "checks"), ("--y", "checks", "--heat")):
            self.refused(TOOL, ["--front needs --x and --y"], b"", *words)
        for words in (("--heat",), ("--label", "1=a"), ("--script", "x")):
            self.refused(TOOL, ["--front takes no"], b"", *AXES, *words)


if __name__ == "__main__":
    unittest.main()
