#!/usr/bin/env python3
"""Tests of the comparison on hostile inputs: that it sees a difference, and that its inputs are hostile."""
import os
import random
import subprocess
import sys
import tempfile
import unittest
from pathlib import Path
from unittest import mock

import hostile
from hostile import load_seeds, make_inputs
from hostile_edits import EDITS, edited
from tool_runs import PROGRAM, need_program

TOOL = Path(__file__).resolve().parent / "hostile.py"
# A program that hands all on, but for the digit of the first hit.
OTHER = '#!/bin/sh\n"{damon}" "$@" | sed "s/hits=0/hits=1/"\n'


def setUpModule() -> None:
    need_program(PROGRAM)


class Comparing(unittest.TestCase):
    def compare(self, other: Path, *words: str) -> "subprocess.CompletedProcess[str]":
        return subprocess.run([sys.executable, str(TOOL), str(other), "--count", "60", *words], capture_output=True, text=True, timeout=300)

    def test_a_program_is_like_itself(self) -> None:
        ran = self.compare(PROGRAM)
        self.assertEqual((ran.returncode, ran.stdout), (0, "60 passed, 0 failed\n"))

    def test_a_difference_is_seen_and_kept(self) -> None:
        with tempfile.TemporaryDirectory() as folder:
            other = Path(folder) / "damon"
            other.write_text(OTHER.format(damon=PROGRAM))
            os.chmod(other, 0o755)
            ran = self.compare(other, "--only", "replay", "--keep", f"{folder}/kept")
            self.assertEqual(ran.returncode, 1)
            self.assertRegex(ran.stdout, r"input \d+, replay: ")
            self.assertTrue(list(Path(folder, "kept").iterdir()))


class Others(unittest.TestCase):
    def test_the_baseline_is_taken_where_nobody_is_named(self) -> None:
        with tempfile.TemporaryDirectory() as folder:
            files = {name: Path(folder).resolve() / name for name in hostile.NAMES}
            with mock.patch.object(hostile, "BASELINE", files):
                with self.assertRaisesRegex(SystemExit, "there is no .*/damon: .*cargo build --release"):
                    hostile.other_programs(None, None)
                for file in files.values():
                    file.touch()
                self.assertEqual(hostile.other_programs(None, None), hostile.Programs(files["damon"], files["damond"]))
            self.assertEqual(hostile.other_programs(files["damond"], None), hostile.Programs(files["damond"], None))
            with self.assertRaisesRegex(SystemExit, "there is no none"):
                hostile.other_programs(Path("none"), None)


class Inputs(unittest.TestCase):
    def test_an_input_depends_on_its_number_alone(self) -> None:
        seeds = load_seeds(with_live=True)
        few, many = (make_inputs(seeds, ["replay", "verify"], count, 3) for count in (20, 40))
        self.assertEqual(few, many[:20])

    def test_edits_change_texts_and_take_any_bytes(self) -> None:
        text = b"damon script 1\nseed 7\nbegin\nend\n"
        for edit in EDITS:
            made = {edit(random.Random(number), text, [text]) for number in range(20)}
            self.assertTrue(made - {text}, edit.__name__)
        for number in range(200):
            rng = random.Random(number)
            edited(rng, bytes(rng.randrange(256) for _ in range(number)), [text, b""])


if __name__ == "__main__":
    unittest.main()
