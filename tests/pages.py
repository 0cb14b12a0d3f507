"""Runs the commands that a page prints, and compares their outputs with what it prints."""
from __future__ import annotations

import os
import re
import subprocess
import tempfile
import unittest
from itertools import groupby
from pathlib import Path
from typing import Callable

from tool_runs import PROGRAM, SECONDS, TOP

COMMANDS = ("mkdir ", "tools/", "./damon ", "grep ", "sed ", "xz ", "awk ")
UNTRIED = ("valgrind", "perf script", "drrun ", "out/shop.trace", "gnuplot", "./damond run")
"""Blocks of the tutorial with these need programs that are not everywhere, or make another run each time."""
BLOCK = re.compile(r"^```\n(.*?)^```", re.MULTILINE | re.DOTALL)
NUMBERED = re.compile(r"^((?:[^\n]+\n)+)\n<!--\n```\n(.*?)^```\n-->", re.MULTILINE | re.DOTALL)
"""A paragraph or a table, and the hidden block behind it, whose commands print its numbers."""
NUMBER = re.compile(r"(?<![\w.-])(?:0x[0-9a-f]+|\d+(?:,\d{3})*(?:\.\d+)?)(?!\w)")
CUT = ".."
"""A line of a page in place of any lines of the output."""
NOTES = r"(?:note: .*\n)*"
"""What a page may leave out without saying so."""


def is_a_command(line: str) -> bool:
    return line.startswith(COMMANDS)


def shown_by(lines: list[str]) -> re.Pattern[str]:
    """What an output must be that a page prints as these lines."""
    parts = [r"(?:.*\n)*?" if line == CUT else f"{NOTES}{re.escape(line)}\n" for line in lines]
    return re.compile("".join(parts) + NOTES)


def plain(paragraph: str) -> str:
    """A paragraph without code and without where links lead."""
    return re.sub(r"\]\([^)]*\)", "]", re.sub(r"`[^`]*`", "", paragraph))


def is_said(text: str, number: str) -> bool:
    """Whether a number of a block is this text, by itself or when it is rounded to as many digits, also as a percentage."""
    if text.startswith("0x") or number.startswith("0x"):
        return text == number
    digits = len(text.partition(".")[2])
    return any(f"{value:.{digits}f}" == text.replace(",", "") for value in (float(number), 100 * float(number)))


def unsaid(page: str) -> list[str]:
    """The numbers of a page's paragraphs that the hidden block behind them does not have."""
    left = []
    for paragraph, block in NUMBERED.findall(page):
        there = re.findall(r"(?<![\w.])(?:0x[0-9a-f]+|\d+(?:\.\d+)?)(?!\w)", block)
        missing = [text for text in NUMBER.findall(plain(paragraph)) if not any(is_said(text, it) for it in there)]
        left += [f"{text} in {paragraph[:60]!r}" for text in missing]
    return left


class Page(unittest.TestCase):
    maxDiff = None

    def follow(self, path: str, is_skipped: Callable[[str], bool], at_end: Callable[[Path], None] = lambda folder: None) -> None:
        """Runs the lines of a page's blocks that are commands. Lines that are none are the whole output of the commands since the
        last such lines, in order, but for notes.

        The folder `out` is a temporary one, which `at_end` is told. A hidden block has all numbers of the paragraph before it.
        """
        page = (TOP / path).read_text()
        self.assertEqual(unsaid(page), [])
        blocks = [block for block in BLOCK.findall(page) if not is_skipped(block)]
        with tempfile.TemporaryDirectory() as folder:
            output = ""
            for block in blocks:
                for is_command, lines in groupby(block.splitlines(), is_a_command):
                    if is_command:
                        output += "".join(self.run_command(line.replace("out/", f"{folder}/").replace("./damon", str(PROGRAM))) for line in lines)
                    else:
                        self.compare(list(lines), output)
                        output = ""
            self.assertRegex(output, f"^{NOTES}$", "the page does not print this")
            at_end(Path(folder))

    def compare(self, lines: list[str], output: str) -> None:
        """Fails with the difference if a page prints an output otherwise."""
        if not shown_by(lines).fullmatch(output):
            self.assertEqual("".join(f"{line}\n" for line in lines), output)

    def run_command(self, line: str) -> str:
        environment = {**os.environ, "DAMON": str(PROGRAM)}
        ran = subprocess.run(line, shell=True, cwd=TOP, stdout=subprocess.PIPE, stderr=subprocess.STDOUT, timeout=SECONDS, env=environment)
        rejects = line.startswith("tools/explain.py")
        self.assertEqual(ran.returncode, 1 if rejects else 0, f"{line}: {ran.stdout.decode()}")
        return ran.stdout.decode()
