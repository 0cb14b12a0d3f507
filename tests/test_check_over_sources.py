#!/usr/bin/env python3
"""Tests of check_over_sources.py, over small crates and with a stand-in for the prover that writes down its words.

    tests/test_check_over_sources.py
"""
import json
import os
import shutil
import subprocess
import sys
import tempfile
import unittest
from pathlib import Path
from typing import List

TOP = Path(__file__).resolve().parent.parent
PROVER = """#!/usr/bin/env python3
import json, os, pathlib, sys
pathlib.Path(os.environ["NOTES"]).write_text(json.dumps([pathlib.Path.cwd().name, *sys.argv[1:]]))
sys.exit(3 if "--fail" in sys.argv else 0)
"""
# Two crates over one, which uses a library of the toolchain, and one over both.
CRATES = {"low": "serde", "left": "low", "right": "low rand", "high": "left right", "other": "json"}


class Checks(unittest.TestCase):
    def setUp(self) -> None:
        folder = tempfile.TemporaryDirectory()
        self.addCleanup(folder.cleanup)
        self.top, self.kit = Path(folder.name).resolve() / "checkout", Path(folder.name).resolve() / "kit"
        (self.top / "tests").mkdir(parents=True)
        shutil.copytree(TOP / "building", self.top / "building")
        shutil.copy2(TOP / "tests/check_over_sources.py", self.top / "tests")
        (self.top / "crates.txt").write_text("".join(f"{name}: {uses}\n" for name, uses in CRATES.items()))
        for name in CRATES:
            (self.top / "crates" / name / "src").mkdir(parents=True)
            (self.top / "crates" / name / "src/lib.rt").write_text("// a line\n")
        (self.kit / "bin").mkdir(parents=True)
        for program in ("rt", "rattle"):
            (self.kit / "bin" / program).write_text(PROVER)
            (self.kit / "bin" / program).chmod(0o755)

    def run_it(self, *words: str) -> "subprocess.CompletedProcess[str]":
        given = {**os.environ, "PATH": f"{self.kit / 'bin'}:{os.environ['PATH']}", "NOTES": str(self.kit / "notes"), "TMPDIR": str(self.kit)}
        command = [sys.executable, str(self.top / "tests/check_over_sources.py"), *words]
        return subprocess.run(command, env=given, capture_output=True, text=True)

    def words_of(self, *words: str) -> List[str]:
        done = self.run_it(*words)
        self.assertEqual(done.returncode, 0, done.stderr)
        said: List[str] = json.loads((self.kit / "notes").read_text())
        return said

    def after(self, option: str, words: List[str]) -> List[str]:
        return [word for before, word in zip(words, words[1:]) if before == option]

    def build(self, name: str) -> None:
        """Leaves what `build.py` does beside a library that it built."""
        code = f"from building.crates import crates_for, sum_of; print(sum_of('{name}', crates_for('{name}')), end='')"
        said = subprocess.run([sys.executable, "-c", code], cwd=self.top, capture_output=True, text=True, check=True).stdout
        folder = self.top / "crates" / name / "out"
        (folder / "rlib").mkdir(parents=True)
        (folder / "rlib/stamp").touch()
        (folder / "sources").write_text(said)

    def test_crates_below_are_read_from_sources_lowest_first(self) -> None:
        words = self.words_of("high")
        self.assertEqual(words[:5], ["high", "check", "--crate-name", "high", "src/lib.rt"])
        wanted = [f"{name}:{uses}={self.top}/crates/{name}/src/lib.rt"
                  for name, uses in (("low", "core,std,serde"), ("left", "core,std,low"), ("right", "core,std,low,rand"))]
        self.assertEqual(self.after("--lib", words), wanted)

    def test_libraries_of_the_toolchain_are_those_that_are_used(self) -> None:
        externs = [it.partition("=")[0] for it in self.after("--extern", self.words_of("high"))]
        self.assertEqual(externs, ["core", "rand", "serde", "std"])

    def test_a_library_is_taken_where_it_was_built_of_these_sources(self) -> None:
        self.build("low")
        self.build("left")
        (self.top / "crates/left/src/lib.rt").write_text("// another line\n")
        words = self.words_of("high")
        self.assertEqual([it.partition(":")[0] for it in self.after("--lib", words)], ["left", "right"])
        self.assertIn(f"low={self.top}/crates/low/out/rlib/low.rlib", self.after("--extern", words))
        words = self.words_of("high", "--from-sources")
        self.assertEqual([it.partition(":")[0] for it in self.after("--lib", words)], ["low", "left", "right"])

    def test_functions_jobs_and_other_flags_reach_the_prover(self) -> None:
        words = self.words_of("left", "--only", "f", "--only", "g", "--jobs", "2", "--allow-holes", "--start", "f")
        self.assertEqual(self.after("--only", words), ["f", "g"])
        self.assertEqual(self.after("--jobs", words), ["2"])
        self.assertEqual(words[-3:], ["--allow-holes", "--start", "f"])

    def test_checkouts_of_one_name_keep_their_proofs_apart(self) -> None:
        kept = self.after("--incremental", self.words_of("low"))
        moved = self.kit / "elsewhere/checkout"
        shutil.copytree(self.top, moved)
        self.top = moved
        self.assertNotEqual(self.after("--incremental", self.words_of("low")), kept)

    def test_the_end_of_the_prover_is_the_end_of_the_check(self) -> None:
        done = self.run_it("high", "--fail")
        self.assertEqual(done.returncode, 3)
        self.assertRegex(done.stdout, r"^high: \d+ s, status 3, 3 crates below\n$")

    def test_a_crate_that_is_not_there_is_refused(self) -> None:
        done = self.run_it("serde")
        self.assertEqual((done.returncode, done.stderr), (1, "check_over_sources.py: crates.txt has no crate serde\n"))

    def test_the_help_has_an_example(self) -> None:
        done = self.run_it("--help")
        self.assertEqual(done.returncode, 0)
        self.assertIn("tests/check_over_sources.py aggregator --only threshold", done.stdout)


if __name__ == "__main__":
    unittest.main()
