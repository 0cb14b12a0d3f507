#!/usr/bin/env python3
"""Tests of the recorded programs: each script has its trace, the table is that of the kept files, and a small program can be recorded."""
from __future__ import annotations

import os
import shutil
import subprocess
import tempfile
import unittest
from pathlib import Path

from tool_runs import PROGRAM, SECONDS, TOP, need_program, notes_of

STUDY = TOP / "study"


def setUpModule() -> None:
    need_program()


def run(*words: str | Path) -> subprocess.CompletedProcess[str]:
    environment = {**os.environ, "DAMON": str(PROGRAM)}
    return subprocess.run(list(map(str, words)), capture_output=True, text=True, timeout=SECONDS, env=environment)


class Kept(unittest.TestCase):
    def test_each_script_has_its_trace(self) -> None:
        scripts = sorted((STUDY / "programs").glob("*.sh"))
        self.assertEqual([path.stem for path in scripts], [path.stem for path in sorted((STUDY / "traces").glob("*.cut"))])
        for path in scripts:
            with self.subTest(program=path.stem):
                self.assertRegex(path.read_text(), r"\A# .*\.\n# Debian: [a-z0-9 .-]+\n")

    def test_the_table_is_that_of_the_kept_files(self) -> None:
        ran = run(STUDY / "table.sh")
        self.assertEqual((ran.returncode, ran.stderr), (0, ""))
        self.assertIn(f"\n\n{ran.stdout}", (STUDY / "README.md").read_text())


@unittest.skipUnless(all(map(shutil.which, ("valgrind", "dpkg-query", "setarch"))), "there is no valgrind, or this is not Debian")
class Recording(unittest.TestCase):
    def setUp(self) -> None:
        folder = tempfile.TemporaryDirectory()
        self.addCleanup(folder.cleanup)
        self.folder = Path(folder.name)

    def record(self, script: str) -> subprocess.CompletedProcess[str]:
        (self.folder / "a.sh").write_text(f"# Does little.\n# Debian: coreutils\n{script}\n")
        return run(STUDY / "record.sh", self.folder / "a.sh", self.folder / "a.cut")

    def test_a_small_program(self) -> None:
        ran = self.record("traced true")
        self.assertEqual(ran.returncode, 0, ran.stderr)
        self.assertRegex((self.folder / "a.txt").read_text(), r"\Acoreutils \S+, valgrind \S+, \d+ seconds\n\Z")
        notes = notes_of(b"", "--interval", "1000", str(self.folder / "a.cut"))
        self.assertRegex(notes, r"note: \d{5,6} accesses in \d+ intervals of 1000;")

    def test_a_program_that_fails_leaves_nothing(self) -> None:
        ran = self.record("traced cat no-such-file")
        self.assertEqual(ran.returncode, 1)
        self.assertIn("no-such-file: No such file or directory", ran.stderr)
        self.assertEqual([path.name for path in self.folder.iterdir()], ["a.sh"])


if __name__ == "__main__":
    unittest.main()
