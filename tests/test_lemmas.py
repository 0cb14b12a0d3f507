#!/usr/bin/env python3
"""Checks that proofs cite nothing of another crate's proofs but what it exports in proofs/Lemmas.antt.

    tests/test_lemmas.py
"""
import re
import unittest

from sources import TOP

CITED = re.compile(r"^(?:pub )?use Rattle\.(\w+)\.proofs\.([\w.]*\w)", re.M)


class OfOtherCrates(unittest.TestCase):
    def test_only_lemmas_are_cited(self) -> None:
        for path in sorted((TOP / "crates").glob("*/proofs/**/*.antt")):
            own = path.relative_to(TOP / "crates").parts[0]
            for crate, module in CITED.findall(path.read_text()):
                if crate != own and (TOP / "crates" / crate).is_dir():
                    self.assertEqual(module, "Lemmas", f"{path} cites {crate}")


if __name__ == "__main__":
    unittest.main()
