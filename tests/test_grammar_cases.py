#!/usr/bin/env python3
"""Checks that the program `grammar_cases` is given each of its cases as they are now.

    tests/test_grammar_cases.py
"""
import json
import unittest
from urllib.parse import unquote_to_bytes

from make_grammar_cases import CASES, CRATE, made


class GrammarCases(unittest.TestCase):
    def test_input_and_output_are_those_of_the_cases(self) -> None:
        for name, text in made()._asdict().items():
            same = (CRATE / name).read_text() == text
            self.assertTrue(same, f"{CRATE.name}/{name} is stale: run tests/make_grammar_cases.py")

    def test_each_text_is_read_back(self) -> None:
        texts = [line.partition(" ") for line in (CRATE / "stdin").read_text().splitlines()]
        cases = [json.loads(line) for file in CASES for line in file.read_text().splitlines()]
        self.assertTrue(cases)
        self.assertEqual([name for name, _, _ in texts], [case["name"] for case in cases])
        for (name, _, text), case in zip(texts, cases):
            self.assertEqual(unquote_to_bytes(text), case["input"].encode("latin-1"), name)


if __name__ == "__main__":
    unittest.main()
