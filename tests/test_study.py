#!/usr/bin/env python3
"""Tests of tools/study.py and docs/STUDY.md: some points are run again, and each number of the page is one of the results."""
from __future__ import annotations

import csv
import re
import tempfile
import unittest
import xml.etree.ElementTree as xml
from pathlib import Path
from typing import Iterator

from pages import BLOCK, Page, is_a_command
from test_picture import SVG
from tool_runs import TOP, Refusals, check_same, need_program, random_trace, run, script_of

from blocks import with_blocks
from studying.findings import FINDINGS, Curve, Results
from studying.page import tables_of
from studying.pictures import PICTURES
from studying.rows import write_cells

TOOL = "study.py"
STUDY, RESULTS = TOP / "docs/STUDY.md", TOP / "study/results"
SMALLEST = "sort"
"""The program whose points are run again."""
BESIDE = "## Beside the DAOS paper"
"""The section whose numbers are of another study."""
NUMBER = re.compile(r"(?<![\w.,-])-?\d[\d,]*(?:\.\d+)?(?![\w-])")
MOST_WORDS = 2500


def setUpModule() -> None:
    need_program()


class InAFolder(Refusals):
    def setUp(self) -> None:
        folder = tempfile.TemporaryDirectory()
        self.addCleanup(folder.cleanup)
        self.folder = Path(folder.name)

    def lines(self, path: Path) -> list[str]:
        return path.read_text().splitlines()


class Again(InAFolder):
    """A few points of the study, made again, are to the byte those that are kept."""

    def again(self, plan: str, *settings: str) -> None:
        words = [word for setting in settings for word in ("--only", setting)]
        out = self.folder / plan
        made = run(TOOL, "--programs", str(TOP / f"study/traces/{SMALLEST}.cut"), "--plan", plan, *words, "--out", str(out), "--jobs", "1")
        self.assertEqual((made.returncode, made.stdout), (0, b""), made.stderr)
        values = [SMALLEST, *(setting.partition("=")[2] for setting in settings)]
        kept = self.lines(RESULTS / f"{plan}.csv")
        wanted = [line for line in kept if line.split(",")[: len(values)] == values]
        self.assertEqual(len(wanted), 1)
        self.assertEqual(self.lines(out / f"results/{plan}.csv"), [kept[0], *wanted])
        facts = [line for line in self.lines(RESULTS / "programs.csv") if line.startswith((f"{SMALLEST},", "program,"))]
        self.assertEqual(self.lines(out / "results/programs.csv"), facts)

    def test_regions_that_adapt(self) -> None:
        self.again("accuracy", "max=100", "aggr=20")

    def test_regions_that_stay(self) -> None:
        self.again("fixed", "max=100")

    def test_a_scheme(self) -> None:
        self.again("reclaim", "age=8", "quota=65536")

    def test_a_goal(self) -> None:
        self.again("goals", "cold=800")


class Refused(InAFolder):
    def test_words(self) -> None:
        trace = str(TOP / f"study/traces/{SMALLEST}.cut")
        for words, part in ((("--plan", "none"), "--plan names 'none', and there are accuracy,"),
                            (("--only", "age=3"), "--only age=3: the plan has no such setting"),
                            (("--only", "max=30"), "--only max=30: it has 10, 20, 50,"),
                            (("--jobs", "0"), "--jobs must be at least 1"),
                            (("--write",), "--write is for the whole study")):
            self.refused(TOOL, [part], b"", "--programs", trace, "--out", str(self.folder / "out"), *words)

    def test_programs(self) -> None:
        (self.folder / "a.trace").write_text("nothing")
        for path, part in ((self.folder, "has no kept trace"), (self.folder / "a.trace", "is no kept trace")):
            self.refused(TOOL, [part], b"", "--programs", str(path), "--out", str(self.folder / "out"))


class Own(InAFolder):
    def test_a_short_trace_is_told_of(self) -> None:
        trace = self.folder / "mine.cut"
        script_of(random_trace(1, 1500), "--interval", "10", "--keep", str(trace))
        made = run(TOOL, "--programs", str(trace), "--plan", "fixed", "--only", "max=100", "--out", str(self.folder), "--jobs", "1")
        self.assertEqual(made.returncode, 0, made.stderr)
        self.assertRegex(made.stderr.decode(), r"note: mine has 1\d\d intervals for 2000 passes: keep it with a smaller --grain\n")
        (facts,) = csv.DictReader(self.lines(self.folder / "results/programs.csv"))
        self.assertEqual((facts["program"], facts["interval"]), ("mine", "10"))
        self.assertEqual([row["runs"] for row in csv.DictReader(self.lines(self.folder / "results/fixed.csv"))], ["5"])


class Kept(InAFolder):
    """What follows from the rows of plans is what is kept: other results, the tables of the page, the pictures."""

    def test_what_follows(self) -> None:
        results = Results(RESULTS)
        for name, cells in FINDINGS.items():
            write_cells(self.folder / f"{name}.csv", cells(results))
            check_same((self.folder / f"{name}.csv").read_bytes(), RESULTS / f"{name}.csv")

    def test_the_tables_of_the_page(self) -> None:
        page = STUDY.read_text()
        check_same(with_blocks(page, tables_of(Results(RESULTS))).encode(), STUDY)

    def test_the_pictures(self) -> None:
        for name, drawn in PICTURES.items():
            check_same(drawn(Results(RESULTS)).encode(), TOP / f"docs/pictures/study-{name}.svg")

    def test_a_program_alone_has_a_panel(self) -> None:
        (self.folder / "results").mkdir()
        for path in RESULTS.glob("*.csv"):
            lines = [line for line in self.lines(path) if "program" in line.split(",")[:3] or SMALLEST in line.split(",")[:3]]
            (self.folder / "results" / path.name).write_text("\n".join([*lines, ""]))
        made = run(TOOL, "--draw", "--out", str(self.folder))
        self.assertEqual(made.returncode, 0, made.stderr)
        for name in PICTURES:
            picture = xml.fromstring((self.folder / f"pictures/study-{name}.svg").read_text())
            texts = [text.text for text in picture.iter(f"{SVG}text")]
            self.assertEqual(texts.count(SMALLEST), 1, name)

    def test_all_runs_ended_well_or_were_not_possible(self) -> None:
        """A row without numbers is of a program with more targets than regions, or with a `min` above `max`."""
        targets = {cells["program"]: int(cells["targets"]) for cells in Results(RESULTS).table("programs")}
        for path in (TOP / "study/plans").glob("*.toml"):
            for row in csv.DictReader(self.lines(RESULTS / path.with_suffix(".csv").name)):
                possible = int(row.get("max", 1000)) >= max(targets[row["program"]], int(row.get("min", 10)))
                self.assertEqual(row["runs"], "5" if possible else "0", row)


class Curves(unittest.TestCase):
    def test_between_points(self) -> None:
        curve = Curve([(10, 0.2), (30, 0.6), (20, 0.5), (40, 0.4), (60, 1.0)])
        for paid, gained in ((9, None), (10, 0.2), (15, 0.35), (30, 0.6), (40, 0.6), (50, 0.8), (60, 1.0), (61, None)):
            found = curve.gain(paid)
            self.assertEqual(None if found is None else round(found, 9), gained)
        self.assertEqual([curve.price(gained) for gained in (0.1, 0.2, 0.6, 0.8, 1.1)], [None, 10, 30, 50, None])


class Prose(Page):
    """Each sentence that states a number has its row in a hidden block behind its paragraph, which the page's commands print."""

    def test_commands_and_outputs(self) -> None:
        self.follow("docs/STUDY.md", lambda block: "tools/study.py" in block, self.compare_pictures)

    def compare_pictures(self, folder: Path) -> None:
        for picture in ("exact", "sampled"):
            check_same((folder / f"study-{picture}.svg").read_bytes(), TOP / f"docs/pictures/study-{picture}.svg")

    def test_each_number_has_its_row(self) -> None:
        checked = 0
        for paragraph, rows in paragraphs(STUDY.read_text()):
            there = [float(text) for text in re.findall(r"(?<![\w.])-?\d+(?:\.\d+)?", rows)]
            for text in NUMBER.findall(plain(paragraph)):
                checked += 1
                self.assertTrue(any(is_said(text, number) for number in there), f"{text!r} has no row: {paragraph[:80]}")
        self.assertGreater(checked, 40)

    def test_its_length(self) -> None:
        shown = re.sub(r"<!--\n.*?-->", "", STUDY.read_text(), flags=re.S)
        self.assertLess(len(re.findall(r"[^\s|]*\w[^\s|]*", shown)), MOST_WORDS)


def paragraphs(page: str) -> Iterator[tuple[str, str]]:
    """The paragraphs of sentences, each with the rows of the hidden blocks behind it, but for those about another study."""
    before, _, rest = page.partition(BESIDE)
    text = before + rest[rest.find("\n## "):]
    parts = re.split(r"(<!--\n```\n.*?```\n-->)", text, flags=re.S)
    for place in range(0, len(parts), 2):
        hidden = parts[place + 1] if place + 1 < len(parts) else ""
        rows = "\n".join(line for block in BLOCK.findall(hidden) for line in block.splitlines() if not is_a_command(line))
        said = [part for part in re.sub(r"```\n.*?```", "", parts[place], flags=re.S).split("\n\n")
                if part.strip() and not part.lstrip().startswith(("|", "#", "<!--", "!["))]
        yield from ((part, rows if part is said[-1] else "") for part in said)


def plain(paragraph: str) -> str:
    """A paragraph without code and without where links lead."""
    return re.sub(r"\]\([^)]*\)", "]", re.sub(r"`[^`]*`", "", paragraph))


def is_said(text: str, number: float) -> bool:
    """Whether a number is this text when it is rounded to as many digits, by itself or as a percentage."""
    digits = len(text.partition(".")[2])
    return any(f"{value:.{digits}f}" == text.replace(",", "") for value in (number, 100 * number))


if __name__ == "__main__":
    unittest.main()
