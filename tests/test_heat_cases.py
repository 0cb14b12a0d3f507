#!/usr/bin/env python3
"""Checks that the cases of `damon heat` are those that their generator makes, and that `heat` takes and refuses a text
exactly as `verify` does.

    tests/test_heat_cases.py
"""
import json
import subprocess
import unittest
from typing import Iterator, Tuple

from make_heat_cases import CASES, TOP, USAGE, made
from test_streams import aggregated
from tool_runs import PROGRAM, SECONDS, need_program

PROGRAM_SOURCE = TOP / "crates/damon/src/main.rt"


def setUpModule() -> None:
    need_program()


def texts() -> Iterator[Tuple[str, bytes]]:
    """The texts of the cases of both commands, each once."""
    seen = set()
    for file in (TOP / "tests/cases/journals.jsonl", CASES):
        for case in map(json.loads, file.read_text().splitlines()):
            if "input" in case and case["status"] in (0, 10) and case["input"] not in seen:
                seen.add(case["input"])
                yield case["name"], case["input"].encode("latin-1")


def ended(text: bytes, *words: str) -> "subprocess.CompletedProcess[bytes]":
    return subprocess.run([PROGRAM, *words], input=text, capture_output=True, timeout=SECONDS)


class HeatCases(unittest.TestCase):
    def test_the_cases_are_those_that_are_made(self) -> None:
        self.assertTrue(CASES.read_text() == made(), f"{CASES.name} is stale: run tests/make_heat_cases.py")

    def test_the_usage_line_is_that_of_the_program(self) -> None:
        self.assertIn(f'"{USAGE}"', PROGRAM_SOURCE.read_text())


class Formats(unittest.TestCase):
    def test_the_example_of_the_page_of_formats(self) -> None:
        journal = (TOP / "examples/live.journal").read_text()
        written = ended(aggregated(journal).encode(), "heat", "8").stdout.decode()
        self.assertIn(f"```\n{written}```", (TOP / "docs/FORMATS.md").read_text())
        self.assertEqual(ended(journal.encode(), "heat", "8").stdout, b"all reports=0\n")


class AsVerify(unittest.TestCase):
    def test_each_text_is_taken_or_refused_as_by_verify(self) -> None:
        count = 0
        for name, text in texts():
            wanted, given = ended(text, "verify"), ended(text, "heat", "8")
            with self.subTest(name=name):
                self.assertEqual((given.returncode, given.stderr), (wanted.returncode, wanted.stderr))
                self.assertEqual(bool(given.stdout), wanted.returncode == 0)
            if wanted.returncode == 0:
                reports = sum(line.startswith(b"aggregate ") for line in text.splitlines())
                self.assertIn(b"all reports=%d" % reports, given.stdout.splitlines()[-1], name)
            count += 1
        self.assertGreater(count, 150)


if __name__ == "__main__":
    unittest.main()
