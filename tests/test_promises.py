#!/usr/bin/env python3
"""Tests of promises.py: what a page names, and the list of exported functions, on small sources that are made up here.

    tests/test_promises.py
"""
import unittest

import promises
from test_definitions import OfSources

LIB = "pub use calls::{find, Store};\npub struct Local;\n"
CALLS = """
/// Finds a number, or [`None`]
/// where there is | none.
#[tactic(auto)]
pub fn find(xs: &[u32]) -> Option<usize>
    requires { 0 < length xs.now }
    ensures found { IsFound xs.now result }
{
    None
}

/// Not exported.
pub fn hidden() {}

impl Store {
    /// Puts a number.
    pub fn put(&mut self, x: u32)
        ensures ok { self.new ≡ x }
    {
    }

    /// For this crate alone.
    fn inner(&self) {}
}

impl Clone for Store {
    fn clone(&self) -> Store {
        Store
    }
}
"""
PAGE = """
## The program: `damon_app::replay_main`

| clause | what it says |
|---|---|
| `ok`, `bound` | all |

| crate | promise | contract |
|---|---|---|
| `damon_app` | all | `replay_main` |
| `low` | a number is found | `find` (`found`), `Store::put` |
"""

CRATES = "its table of crates has not one line for each crate, in their order"


class Promises(OfSources):
    def setUp(self) -> None:
        super().setUp()
        top = "/// All.\npub fn replay_main()\n    ensures ok { Ok }\n    ensures bound { Bound }\n{\n}\n"
        self.sources = {"low/src/lib.rt": LIB, "low/src/calls.rt": CALLS, "damon_app/src/lib.rt": top}

    def faults(self, page: str) -> list[str]:
        return promises.faults_of(page, self.repository(self.sources))

    def test_a_page_that_names_what_is_there_has_no_fault(self) -> None:
        self.assertEqual(self.faults(PAGE), [])

    def test_names_that_are_not_there_are_told(self) -> None:
        self.assertEqual(self.faults(PAGE.replace("`find`", "`seek`")), ["there is no low::seek", "there is no low::seek.found"])
        self.assertEqual(self.faults(PAGE.replace("(`found`)", "(`lost`)")), ["there is no low::find.lost"])
        self.assertEqual(self.faults(PAGE.replace("`low`", "`high`")),
                         ["there is no high::find", "there is no high::find.found", "there is no high::Store::put", CRATES])

    def test_each_crate_has_one_line_in_order(self) -> None:
        whole, low = "| `damon_app` | all | `replay_main` |\n", "| `low` | a number is found | `find` (`found`), `Store::put` |\n"
        for lines in (low, low + whole, whole + whole + low):
            self.assertEqual(self.faults(PAGE.replace(whole + low, lines)), [CRATES], lines)

    def test_each_clause_of_a_top_call_is_wanted(self) -> None:
        self.assertEqual(self.faults(PAGE.replace("`ok`, `bound`", "`ok`")), ["damon_app::replay_main.bound is missing"])

    def test_the_list_has_each_exported_function_with_its_clauses_and_comment(self) -> None:
        rows = [line for line in promises.listed(self.repository(self.sources)).splitlines() if line.startswith("| `")]
        self.assertEqual(rows, [
            "| `replay_main` | `ok`, `bound` | All. |",
            "| `find` | one without a name, `found` | Finds a number, or `None` where there is \\| none. |",
            "| `Store::put` | `ok` | Puts a number. |",
            "| `Store::clone` | - | no comment of its own |",
        ])


if __name__ == "__main__":
    unittest.main()
