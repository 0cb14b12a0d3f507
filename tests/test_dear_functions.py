#!/usr/bin/env python3
"""Tests of dear_functions.py.

    tests/test_dear_functions.py
"""
import contextlib
import io
import os
import tempfile
import unittest
from pathlib import Path

import dear_functions
from dear_functions import Cost, Module, costs_of, lines_of, modules_in


class Costs(unittest.TestCase):
    def test_the_time_from_the_module_before_is_its_own(self) -> None:
        modules = [Module("a.f.Kinds", 10), Module("a.f.Lts", 12.5), Module("a.g.Lts-drop", 13), Module("a.f.Proof", 17)]
        self.assertEqual(costs_of(modules), {"a.f": Cost(6.5, 2.5), "a.g": Cost(0.5, 0.5)})

    def test_the_dearest_come_first(self) -> None:
        lines = list(lines_of({"f": Cost(1, 0), "g": Cost(5, 4), "h": Cost(3, 1)}, 2))
        self.assertEqual([line.split()[:3] for line in lines], [["9.0", "5.0", "all"], ["5.0", "4.0", "g"], ["3.0", "1.0", "h"]])

    def test_modules_are_found_below_a_folder(self) -> None:
        with tempfile.TemporaryDirectory() as folder:
            (Path(folder) / "kept").mkdir()
            for name, at in (("b.f.Lts.oantt", 7), ("a.f.Proof.oantt", 3), ("made.json", 1)):
                file = Path(folder) / "kept" / name
                file.touch()
                os.utime(file, (at, at))
            self.assertEqual(modules_in(Path(folder)), [Module("a.f.Proof", 3), Module("b.f.Lts", 7)])
            with contextlib.redirect_stdout(io.StringIO()) as out:
                self.assertEqual(dear_functions.main(folder), 0)
            self.assertIn("     4.0      4.0  b.f\n", out.getvalue())

    def test_a_folder_without_modules_is_told(self) -> None:
        with tempfile.TemporaryDirectory() as folder, contextlib.redirect_stderr(io.StringIO()) as errors:
            self.assertEqual(dear_functions.main(folder), 1)
            self.assertIn("no module", errors.getvalue())


if __name__ == "__main__":
    unittest.main()
