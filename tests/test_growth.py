#!/usr/bin/env python3
"""Tests of the picture of times by size: what it takes off, and that docs/pictures has that of the page."""
from __future__ import annotations

import subprocess
import sys
import unittest

from growth import growths_of
from tool_runs import TOP

TABLE = """\
Words before.

| workload | the size is | size | time | size | time | size | time |
|---|---|---|---|---|---|---|---|
| start | an empty input | | 0.50 ms | | | | |
| one | touches | 1,000 | 10.50 ms | 100 | 1.50 ms | 10 | 0.60 ms |
| two | sweeps | 10 | 4.50 ms | 1 | 2.50 ms | | |

| other | table |
"""


class Growths(unittest.TestCase):
    def test_the_start_is_taken_off(self) -> None:
        found = {one.name: [(round(size, 6), round(time, 6)) for size, time in one.places] for one in growths_of(TABLE)}
        self.assertEqual(found, {"one": [(1, 1), (0.1, 0.1), (0.01, 0.01)], "two": [(1, 1), (0.1, 0.5)]})

    def test_the_picture_is_that_of_the_page(self) -> None:
        page, kept = TOP / "docs/PERFORMANCE.md", TOP / "docs/pictures/growth.svg"
        made = subprocess.run([sys.executable, TOP / "tests/growth.py", page], capture_output=True, check=True).stdout.decode()
        self.assertTrue(made == kept.read_text(), f"{kept} is not what tests/growth.py makes of {page}")
        for one in growths_of(page.read_text()):
            self.assertIn(f">{one.name}</text>", made)


if __name__ == "__main__":
    unittest.main()
