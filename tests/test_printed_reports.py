#!/usr/bin/env python3
"""Checks that the reports which pages print are what `damon` writes of the scripts that they name.

    tests/test_printed_reports.py
"""
from __future__ import annotations

import re
import shutil
import subprocess
import unittest

from pages import BLOCK
from tool_runs import PROGRAM, TOP, need_program, report_of

FIRST_LINE = re.compile(r"(\d )?(show|aggregate|commit|fault) (tick|line)=\d")
"""How a block begins that is a report, or the output of `damon admin`."""
EXAMPLE = re.compile(r"\bexamples/([\w-]+\.damon)\b")


def setUpModule() -> None:
    need_program()


def text_of(page: str) -> str:
    return (TOP / page).read_text()


def reports_in(text: str) -> list[str]:
    return [block for block in BLOCK.findall(text) if FIRST_LINE.match(block)]


def example(name: str) -> str:
    return text_of(f"examples/{name}")


class Examples(unittest.TestCase):
    maxDiff = None

    def test_each_section_prints_the_report_of_its_script(self) -> None:
        checked = []
        for section in text_of("examples/README.md").split("\n## ")[1:]:
            name = section.splitlines()[0]
            for printed in reports_in(section):
                report = report_of(example(name), *(["admin"] if name.endswith(".admin") else []))
                if name == "time-quota.damon":
                    self.assertIn(f"\n{printed}", report)
                else:
                    self.assertEqual(printed, report, name)
                checked.append(name)
        self.assertEqual(len(set(checked)), 12, checked)

    def test_other_pages_print_parts_of_reports(self) -> None:
        for page, count in (("docs/MONITOR.md", 2), ("README.md", 1)):
            text = text_of(page)
            printed = reports_in(text)
            self.assertEqual(len(printed), count, page)
            for block in printed:
                name = EXAMPLE.findall(text[: text.index(f"```\n{block}")])[-1]
                self.assertIn(f"\n{block}", f"\n{report_of(example(name))}", f"{page}: {name}")


@unittest.skipUnless(shutil.which("jq"), "jq is not installed: `apt-get install jq` installs it on Debian")
class JsonLines(unittest.TestCase):
    """The commands of a page that take JSON apart find what the text of the same run says."""

    def test_commands_with_jq(self) -> None:
        commands = [block for block in BLOCK.findall(text_of("examples/README.md")) if "jq -r" in block]
        found = [subprocess.check_output(line.replace("./damon", str(PROGRAM)), shell=True, cwd=TOP, text=True) for line in commands]
        tick, accessed = "", []
        for words in map(str.split, report_of(example("aggregate.damon")).splitlines()):
            if words[0] in ("aggregate", "show"):
                # The rows of a show are those of no aggregation.
                tick = words[1].removeprefix("tick=") if words[0] == "aggregate" else ""
            elif tick and words[0] == "row" and words[3] != "count=0":
                accessed.append(f"{tick} {words[2]} {words[3].removeprefix('count=')}\n")
        applied = re.findall(r"^apply 0 pageout 0 (\w+)-(\w+) ", report_of(example("cold.damon")), re.MULTILINE)
        self.assertEqual(found, ["".join(accessed), "".join(f"{start} {end}\n" for start, end in applied)])
        self.assertGreater(min(len(accessed), len(applied)), 1)


class Formats(unittest.TestCase):
    """docs/FORMATS.md changes `examples/first.damon` in words; here the same is done to its text."""

    maxDiff = None
    text = text_of("docs/FORMATS.md")
    first = example("first.damon")

    def setUp(self) -> None:
        self.setup = self.first[: self.first.index("begin\n")]
        worked = self.text.split("\n### A worked example\n")[1].split("\n## ")[0]
        self.reports = reports_in(worked)
        self.bodies = [block for block in BLOCK.findall(worked) if block not in self.reports]

    def test_worked_examples(self) -> None:
        self.assertEqual((self.bodies[0], len(self.bodies), len(self.reports)), (self.first, 2, 3))
        often = self.setup.replace("attrs 3 8 5", "attrs 3 8 1")
        at_once = self.first.replace(self.setup, often).replace("step 4", "arm", 1).replace("step 4", "finish")
        for script, printed in zip([self.first, at_once, f"{self.setup}begin\n{self.bodies[1]}end\n"], self.reports):
            self.assertEqual(printed, report_of(script))

    def test_commands(self) -> None:
        self.assertIn("\n" + report_of(self.first, "reclaim").splitlines()[-1] + "\n", self.text)
        self.assertIn("".join(f"{line}\n" for line in report_of(self.first, "json").splitlines()), self.text.replace(",\n{", ",{"))
        commits = "".join(f"commit\nmetric {metric}\napply\n" for metric in (50, 200))
        tuned = report_of(f"{self.setup}scheme 0 stat quota=40960,10\nbegin\n{commits}end\n", "tune", "0:metric:100:4096:81920")
        self.assertIn(f"```\n{tuned}```", self.text)
        journal = example("live.journal")
        self.assertIn(f"```\n{journal}```", self.text)
        self.assertEqual(report_of(journal, "verify"), "lawful passes=1 loads=1 hits=1\n")


class Faults(unittest.TestCase):
    """The table of faults is what the program says of the texts that it names."""

    def test_texts(self) -> None:
        """The rows that name a line of the script, in the words of the table."""
        section = text_of("docs/FORMATS.md").split("\n### Faults\n")[1].split("\n## ")[0]
        rows = re.findall(r"^\| `([^`]*)` (before `begin`|instead of its first `step 4`) \| line (\d+), `([^`]*)`", section, re.M)
        self.assertEqual(len(rows), 5)
        first = example("first.damon")
        for line, place, number, fault in rows:
            begin = place == "before `begin`"
            script = first.replace("begin\n", f"{line}\nbegin\n") if begin else first.replace("step 4", line, 1)
            with self.subTest(line=line), self.assertRaisesRegex(AssertionError, f"^line {number}: {fault}\n$"):
                report_of(script)


if __name__ == "__main__":
    unittest.main()
