#!/usr/bin/env python3
"""Checks the Python of this project itself: its types, names that nobody uses, the length of lines, and the order of packages.

What mypy and pyflakes say is asked of an interpreter that has them: this one, another one on the path, or Debian's, for which
`apt-get install mypy python3-pyflakes` installs them.
"""
from __future__ import annotations

import os
import re
import subprocess
import tomllib
import unittest
from pathlib import Path

from run_tests import skipped_lines
from tool_runs import SECONDS, TOOLS, TOP, interpreter_with, need_program

CODE = ("tools", "tests", "build.py")
FILES = [path for name in CODE for path in ([TOP / name] if (TOP / name).is_file() else sorted((TOP / name).rglob("*.py")))]
PACKAGES = ("scripts", "reports", "tracing", "measuring", "comparing", "asking", "searching", "drawing", "webpage", "studying")
"""The packages of tools/, the lowest first. One may import what stands before it, and what all share: the modules beside them."""
IMPORT = re.compile(r"^ *(?:from|import) (\w+)", re.MULTILINE)


class Checkers(unittest.TestCase):
    def said(self, module: str, package: str, *words: str) -> str:
        """What a checker says of the code."""
        interpreter = interpreter_with(module)
        if interpreter is None:
            self.skipTest(f"no python3 has {module} (Debian's {package})")
        ran = subprocess.run([interpreter, "-m", module, *words, *CODE], cwd=TOP, capture_output=True, text=True, timeout=SECONDS)
        return ran.stdout + ran.stderr

    def test_types(self) -> None:
        """The settings of mypy stand in pyproject.toml."""
        said = self.said("mypy", "mypy", "--no-incremental", "--cache-dir", os.devnull)
        self.assertRegex(said, r"^Success: no issues found in \d+ source files\n$")

    def test_names_that_nobody_uses(self) -> None:
        self.assertEqual(self.said("pyflakes", "python3-pyflakes"), "")


class Lines(unittest.TestCase):
    def test_no_line_is_too_long(self) -> None:
        most = tomllib.loads((TOP / "pyproject.toml").read_text())["tool"]["black"]["line-length"]
        self.assertGreater(len(FILES), 100)
        found = [f"{path.relative_to(TOP)}:{number}" for path in FILES
                 for number, line in enumerate(path.read_text().splitlines(), 1) if len(line) > most]
        self.assertEqual(found, [])


class Skips(unittest.TestCase):
    def test_the_gate_says_what_was_skipped(self) -> None:
        class Some(unittest.TestCase):
            def one(self) -> None:
                raise unittest.SkipTest("there is no cc")

            def two(self) -> None:
                self.skipTest("it is Monday")

        result = unittest.TestResult()
        unittest.TestSuite(map(Some, ("one", "two", "one"))).run(result)
        names = [test.id() for test, _ in result.skipped]
        lines = skipped_lines((test.id(), reason) for test, reason in result.skipped)
        self.assertEqual(lines, [f"skipped: there is no cc: {names[0]} (2)", f"skipped: it is Monday: {names[1]}"])

    def test_a_missing_program_is_no_skip(self) -> None:
        with self.assertRaisesRegex(RuntimeError, "there is no program /no/damond: .* ./damond$"):
            need_program(Path("/no/damond"))


class Packages(unittest.TestCase):
    def test_each_package_has_its_place(self) -> None:
        self.assertEqual(sorted(path.parent.name for path in TOOLS.glob("*/__init__.py")), sorted(PACKAGES))

    def test_imports_go_down(self) -> None:
        for number, package in enumerate(PACKAGES):
            for path in (TOOLS / package).glob("*.py"):
                above = set(IMPORT.findall(path.read_text())) & {*PACKAGES[number + 1 :], package}
                self.assertEqual(above, set(), path.relative_to(TOP))

    def test_what_all_share_imports_no_package(self) -> None:
        for path in (TOOLS / name for name in ("common.py", "units.py", "wording.py")):
            self.assertEqual(set(IMPORT.findall(path.read_text())) & set(PACKAGES), set(), path.name)


if __name__ == "__main__":
    unittest.main()
