#!/usr/bin/env python3
"""The commands of examples/policies.md work as printed, and the program takes its scheme lines."""
from __future__ import annotations

import re
import unittest

from pages import BLOCK, Page
from tool_runs import TOP, need_program, run

PAGE = "examples/policies.md"


def setUpModule() -> None:
    need_program()


def lines_for_a_kernel(block: str) -> bool:
    """A block of scheme lines alone, which no command of the page uses."""
    return all(line.startswith("scheme ") and "active=" not in line for line in block.splitlines())


class Policies(Page):
    def test_commands_and_outputs(self) -> None:
        self.follow(PAGE, lines_for_a_kernel)

    def test_scheme_lines(self) -> None:
        blocks = [block for block in BLOCK.findall((TOP / PAGE).read_text()) if lines_for_a_kernel(block)]
        self.assertEqual(len(blocks), 3)
        for block in blocks:
            words = [word for line in block.splitlines() for word in ("--scheme", line)]
            ran = run("settings.py", *words, str(TOP / "examples/watermarks.damon"))
            self.assertEqual(ran.returncode, 0, ran.stderr.decode())
            self.assertNotIn(b"prefer=cold", ran.stderr)

    def test_parts_in_tables_stand_in_the_lines(self) -> None:
        text = (TOP / PAGE).read_text()
        for section in text.split("\n## ")[1:4]:
            lines = "\n".join(block for block in BLOCK.findall(section) if lines_for_a_kernel(block))
            cells = re.findall(r"^\|[^|]*\|[^|]*\| `([^`]*)`", section, re.MULTILINE)
            self.assertGreater(len(cells), 1)
            for part in cells:
                self.assertIn(part, lines)


if __name__ == "__main__":
    unittest.main()
