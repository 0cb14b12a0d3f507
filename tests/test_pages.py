#!/usr/bin/env python3
"""Tests of how pages are compared with the outputs of their commands, and of a page without the tools."""
from __future__ import annotations

import unittest

from pages import Page, unsaid

OUTPUT = "note: read\none\ntwo\nthree\nnote: done\n"


class Blocks(Page):
    def test_whole_outputs(self) -> None:
        for lines in (["one", "two", "three"], ["note: read", "one", "two", "three", "note: done"], ["one", "..", "three"], ["one", ".."], [".."]):
            self.compare(lines, OUTPUT)

    def test_other_outputs(self) -> None:
        for lines in (["one", "three"], ["two", "one", "three"], ["one", "two"], ["one", "two", "three", "three"], ["ne", "two", "three"],
                      ["..", "two"], [""]):
            with self.subTest(lines=lines), self.assertRaises(AssertionError):
                self.compare(lines, OUTPUT)


class Numbers(unittest.TestCase):
    PAGE = (
        "It found 87 % of 1,234 pages from 0x1000 on with `--max 50`.\n\n"
        "<!--\n```\ngrep hot out/a.csv\n0.8688 1234 0x1000\n```\n-->\n"
    )

    def test_a_hidden_block_has_the_numbers_before_it(self) -> None:
        self.assertEqual(unsaid(self.PAGE), [])
        for right, wrong in (("87 %", "88 %"), ("1,234", "1,235"), ("0x1000 on", "0x1001 on"), ("0.8688", "0.8588")):
            with self.subTest(wrong=wrong):
                self.assertEqual(len(unsaid(self.PAGE.replace(right, wrong))), 1)


class Threads(Page):
    def test_the_journal_is_that_of_the_example(self) -> None:
        # Each run of `damond` is another.
        self.follow("docs/THREADS.md", lambda block: "./damond" in block)


if __name__ == "__main__":
    unittest.main()
