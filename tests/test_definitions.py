#!/usr/bin/env python3
"""Tests of the counter of definitions, on small sources that are made up here.

    tests/test_definitions.py
"""
import re
import tempfile
import unittest
from pathlib import Path
from typing import Dict, List

import definitions
from sources import Repository, types_of
from unfollowed import unfollowed

LIB = "pub mod First\n"


class OfSources(unittest.TestCase):
    """Each test writes the sources of some crates and asks what a root needs."""

    def setUp(self) -> None:
        folder = tempfile.TemporaryDirectory()
        self.addCleanup(folder.cleanup)
        self.top = Path(folder.name)

    def repository(self, files: Dict[str, str]) -> Repository:
        """A repository with these files below `crates/`, whose crates are listed in the order of their names."""
        for name, text in files.items():
            file = self.top / "crates" / name
            file.parent.mkdir(parents=True, exist_ok=True)
            file.write_text(text)
        crates = sorted({name.split("/")[0] for name in files})
        (self.top / "crates.txt").write_text("".join(f"{crate}:\n" for crate in crates))
        return Repository(self.top)

    def specs(self, text: str) -> Repository:
        return self.repository({"low/specs/Lib.antt": LIB, "low/specs/First.antt": text})

    def needed(self, repository: Repository, *roots: str) -> List[str]:
        return [it.name for it in repository.needed(roots)]


class Counting(OfSources):
    def test_each_kind_of_definition_is_seen(self) -> None:
        repository = self.specs(
            "-- one\nabbrev pub one : ℕ\none = 1\n\n"
            "-- two\nunfoldable pub two : ℕ\ntwo = one\n\n"
            "-- three\nunfoldable abbrev pub three : ℕ\nthree = two\n\n"
            "-- a pair\npub record Pair : Type 0 where\n  pub left : ℕ\n  pub right : ℕ\n\n"
            "-- a sign\npub data Sign : Type 0 where\n  plus : Sign\n  minus : Sign\n\n"
            "-- not seen from outside\nabbrev hidden : ℕ\nhidden = 7\n"
        )
        self.assertEqual([it.name for it in repository.definitions], ["one", "two", "three", "Pair", "Sign", "hidden"])
        self.assertEqual([len(it.lines) for it in repository.definitions], [2, 2, 2, 3, 3, 2])
        self.assertEqual(repository.definitions[3].words, "a pair")
        self.assertEqual(self.needed(repository, "three"), ["one", "two", "three"])

    def test_a_line_that_is_not_known_is_an_error(self) -> None:
        for unknown in ("opaque pub two : ℕ\n", "two = 2\n", "module _ where\n  abbrev pub two : ℕ\n  two = 2\n"):
            with self.assertRaisesRegex(SystemExit, "low/specs/First.antt: no definition, law or import has this line"):
                self.specs("use Rattle.std.specs.Prelude.{ℕ}\n\n-- one\nabbrev pub one : ℕ\none = 1\n\n" + unknown)

    def test_a_word_that_is_not_followed_is_told(self) -> None:
        use = "use Rattle.high.specs.First.{one}\n\n"
        sources = {"high/specs/Lib.antt": LIB, "high/specs/First.antt": "-- one\nabbrev pub one : ℕ\none = 1\n",
                   "low/specs/Lib.antt": LIB, "low/specs/First.antt": f"{use}-- two\nabbrev pub two : ℕ\ntwo = one + 1\n",
                   "low/src/lib.rt": f"ghost {use}pub fn count() -> u32\n    ensures all {{ result ≡ one }}\n{{\n    1\n}}\n"}
        self.assertEqual(unfollowed(self.repository(sources)), [])
        for name, told in (("low/specs/First.antt", "low/First.two: one"), ("low/src/lib.rt", "low::count.all: one")):
            for other in ("", "use Rattle.high.specs.Other.{one}\n"):
                text = sources[name].replace(f"ghost {use}", other).replace(use, other)
                self.assertEqual(unfollowed(self.repository({**sources, name: text})), [told])
        for known in ("two = record { one = 1 }", "two = λ one. one", "two one = one", "two = (one : ℕ) × one"):
            text = sources["low/specs/First.antt"].replace(use, "").replace("two = one + 1", known)
            self.assertEqual(unfollowed(self.repository({**sources, "low/specs/First.antt": text})), [], known)
        text = sources["low/specs/First.antt"].replace("Rattle.high", "Rattle.std")
        self.assertEqual(unfollowed(self.repository({**sources, "low/specs/First.antt": text})), [])

    def test_laws_and_operators_are_known(self) -> None:
        repository = self.specs(
            "infixl 10 ◌+++◌\n\n-- more\nabbrev pub ◌+++◌ : ℕ → ℕ → ℕ\na +++ b = a + b\n\n"
            "pub more-zero : (n : ℕ) → n +++ 0 ≡ n\nmore-zero n = refl\n"
        )
        self.assertEqual([it.name for it in repository.definitions], ["◌+++◌"])

    def test_what_an_unfoldable_definition_names_is_needed(self) -> None:
        repository = self.specs(
            "-- a\nabbrev pub a : ℕ\na = 1\n\n"
            "-- b\nunfoldable pub b : ℕ → ℕ\nb zero = 0\nb (suc n) = b n + a\n\n"
            "-- c\nabbrev pub c : ℕ\nc = b 3\n"
        )
        self.assertEqual(self.needed(repository, "c"), ["a", "b", "c"])

    def test_a_right_side_may_begin_on_the_next_line(self) -> None:
        repository = self.specs(
            "-- a\nabbrev pub limit : ℕ → ℕ\nlimit n = n\n\n"
            "-- b\nabbrev pub within : ℕ → ℕ\nwithin n =\n    limit n >>= λ m. Ok (record v { field = m })\n"
        )
        self.assertEqual(self.needed(repository, "within"), ["limit", "within"])

    def test_a_variable_is_no_definition(self) -> None:
        repository = self.specs(
            "-- a\nabbrev pub page : ℕ\npage = 1\n\n"
            "-- b\nabbrev pub after : ℕ → ℕ\nafter page =\n    page + 1\n\n"
            "-- c\nabbrev pub twice : ℕ → ℕ\ntwice n = (λ page. page + page) n\n"
        )
        self.assertEqual(self.needed(repository, "after"), ["after"])
        self.assertEqual(self.needed(repository, "twice"), ["twice"])

    def test_a_field_is_known_to_the_fields_after_it(self) -> None:
        repository = self.specs(
            "-- a\nabbrev pub size : ℕ\nsize = 1\n\n"
            "-- b\npub record Box : Type 0 where\n  pub size : ℕ\n  pub few : size ≤ 4\n\n"
            "-- c\npub record Row : Type 0 where\n  pub few : size ≤ 4\n"
        )
        self.assertEqual(self.needed(repository, "Box"), ["Box"])
        self.assertEqual(self.needed(repository, "Row"), ["size", "Row"])

    def test_a_case_stands_for_its_data(self) -> None:
        repository = self.specs(
            "-- a sign\npub data Sign : Type 0 where\n  plus : Sign\n  minus : Sign\n\n"
            "-- b\nabbrev pub begins : ℕ → Sign\nbegins n = plus\n"
        )
        self.assertEqual(self.needed(repository, "begins"), ["Sign", "begins"])

    def test_laws_and_comments_are_not_counted(self) -> None:
        repository = self.specs(
            "-- a\n-- b\nabbrev pub one : ℕ\none = 1\n\n"
            "-- it is one\npub one-is : one ≡ 1\none-is = refl\n"
        )
        self.assertEqual([(it.name, it.words, len(it.lines)) for it in repository.definitions], [("one", "a b", 2)])

    def test_mutual_definitions_are_counted_one_by_one(self) -> None:
        repository = self.specs(
            "abbrev mutual\n  -- whether it is even\n  pub even : ℕ → Bool\n  even (suc n) = odd n\n\n"
            "  -- whether it is odd\n  pub odd : ℕ → Bool\n  odd (suc n) = even n\n"
        )
        self.assertEqual(self.needed(repository, "even"), ["even", "odd"])

    def test_an_equation_may_be_of_an_operator_and_end_with_a_brace(self) -> None:
        repository = self.specs(
            "-- then\nabbrev pub ◌>>=◌ : ℕ → ℕ → ℕ\nzero >>= m = m\nsuc n >>= m = n\n\n"
            "-- a pair\nabbrev pub pair : Pair\npair = record {\n  left = 1;\n}\n"
        )
        self.assertEqual([(it.name, len(it.lines)) for it in repository.definitions], [("◌>>=◌", 3), ("pair", 4)])

    def test_a_line_that_is_not_known_ends_the_program(self) -> None:
        for text in (
            "-- a\nabbrev pub one : ℕ\none = 1\ntwo = 2\n",
            "-- a\nabbrev pub one : ℕ\none = 1\n\nmodule _ (n : ℕ) where\n",
            "-- a\nopaque pub one : ℕ\none = 1\n",
            "    two = 2\n",
        ):
            with self.subTest(text=text), self.assertRaises(SystemExit):
                self.specs(text)

    def test_a_name_of_two_files_is_written_with_its_file(self) -> None:
        repository = self.repository({
            "low/specs/Lib.antt": LIB + "pub mod Second\n",
            "low/specs/First.antt": "-- a\nabbrev pub size : ℕ\nsize = 1\n",
            "low/specs/Second.antt": "-- b\nabbrev pub size : ℕ\nsize = 2\n",
        })
        with self.assertRaises(SystemExit):
            repository.find("size")
        self.assertEqual(self.needed(repository, "low/Second.size"), ["size"])


class Contracts(OfSources):
    FILES = {
        "low/specs/Lib.antt": LIB,
        "low/specs/First.antt": "use Rattle.low.specs.declared.limits.TheConstants.{MAX}\n\n"
        "-- a\nabbrev pub few : ℕ → Type 0\nfew n =\n    n ≤ MAX\n\n-- b\nabbrev pub many : ℕ → Type 0\nmany n = 9 ≤ n\n",
        "low/src/limits.rt": "pub const MAX: u32 = 1_000;\npub const MIN: u32 = 3;\npub const UNUSED: u32 = 5;\n",
        "low/src/lib.rt": "pub use calls::{few_of};\npub use list::{List};\n",
        "low/src/calls.rt": "ghost use Rattle.low.specs.First.{few};\nuse crate::limits::{MIN};\n\n"
        "pub fn few_of(n: u32) -> u32\n    requires some { 1 ≤ n.now }\n    ensures few { few result }\n"
        "    ensures least { MIN ≤ result }\n{\n    n\n}\n\n"
        "pub fn private_of(n: u32) -> u32\n    ensures few { few result }\n{\n    n\n}\n",
        "low/src/list.rt": "ghost use Rattle.low.specs.First.{many};\n\nimpl List {\n"
        "    pub fn len(&self) -> u32\n        ensures many {\n            many result\n        }\n    {\n        1\n    }\n}\n",
    }

    def test_clauses_are_named_by_their_function(self) -> None:
        repository = self.repository(self.FILES)
        self.assertEqual(
            sorted(repository.clauses),
            ["low::List::len.many", "low::few_of.few", "low::few_of.least", "low::few_of.some"],
        )
        self.assertEqual(self.needed(repository, "low::few_of"), ["few"])
        self.assertEqual(self.needed(repository, "low::List::len.many"), ["many"])
        self.assertEqual(self.needed(repository, "all"), ["few", "many"])

    def test_constants_are_cited_by_definitions_and_by_clauses(self) -> None:
        repository = self.repository(self.FILES)
        cited = {root: [(it.name, it.value) for it in repository.constants([root])]
                 for root in ("few", "many", "low::few_of.least", "low::few_of")}
        self.assertEqual(cited, {
            "few": [("MAX", "1_000")],
            "many": [],
            "low::few_of.least": [("MIN", "3")],
            "low::few_of": [("MAX", "1_000"), ("MIN", "3")],
        })


class Types(OfSources):
    def test_types_are_cited_by_their_names_and_by_their_variants(self) -> None:
        repository = self.repository({
            "low/specs/Lib.antt": LIB,
            "low/specs/First.antt": "use Rattle.low.specs.declared.rows.Row.{Row}\n"
            "use Rattle.low.specs.declared.rows.Phase.TheVariants as phase\n"
            "use Rattle.low.specs.declared.rows.Fault.TheVariants.{Bad as BadRow}\n\n"
            "-- a\nabbrev pub pages : Row → ℕ\npages row = row.pages\n\n"
            "-- b\nabbrev pub begins : ℕ → ℕ\nbegins n = of phase.Idle n\n\n"
            "-- c\nabbrev pub code : ℕ → ℕ\ncode (BadRow n) = n\n\n"
            "-- d\nabbrev pub none : ℕ\nnone = 0\n",
            "low/src/rows.rt": "pub struct Row {\n    pub pages: u32,\n}\n\n#[derive(Clone)]\npub enum Phase {\n    Idle,\n"
            "    Checking { next: u32 },\n}\n\npub(crate) enum Fault {\n    /// Not good.\n    Bad(u32),\n}\n\npub struct Unused;\n",
            "low/src/lib.rt": "pub use call::{call};\n",
            "low/src/call.rt": "ghost use Rattle.low.specs.First.{none};\n"
            "ghost use Rattle.low.specs.declared.rows.Phase.TheVariants.{Checking};\n\n"
            "pub fn call(n: u32) -> Phase\n    ensures { result ≡ Checking none }\n{\n    n\n}\n",
        })
        cited = {root: [it.name for it in repository.types([root])] for root in ("pages", "begins", "code", "none", "low::call")}
        self.assertEqual(cited, {"pages": ["Row"], "begins": ["Phase"], "code": ["Fault"], "none": [], "low::call": ["Phase"]})


class ThisRepository(unittest.TestCase):
    """What a count of the project itself can be held against, whatever its figures are."""

    repository = Repository()

    def test_each_heading_of_a_definition_is_seen(self) -> None:
        seen = {(it.crate, it.file, it.name) for it in self.repository.definitions}
        for crate, file in {(it.crate, it.file) for it in self.repository.definitions}:
            text = (self.repository.top / "crates" / crate / "specs" / f"{file}.antt").read_text()
            for line in text.splitlines():
                words = line.split()
                if line[:1].isspace() or not words or words[0] not in ("abbrev", "unfoldable", "pub", "record", "data"):
                    continue
                # A law is `pub name : ..`, which is no definition; `abbrev mutual` is one of those that follow it.
                kinds = [word for word in words[:4] if word in ("abbrev", "unfoldable", "record", "data")]
                rest = [word for word in words if word not in ("abbrev", "unfoldable", "record", "data", "pub", "mutual")]
                if kinds and rest:
                    self.assertIn((crate, file, rest[0]), seen)

    def test_each_type_that_a_file_of_definitions_imports_is_seen(self) -> None:
        crates = self.repository.top / "crates"
        declared = {place: set(names) for crate in self.repository.crates for place, names in types_of(crates / crate).items()}
        imported = re.compile(r"^use Rattle\.(\w+)\.specs\.(declared\.[\w.]+)\.\{([^}]*)\}", re.M)
        seen = 0
        for file in sorted(crates.glob("*/specs/*.antt")):
            for owner, path, names in imported.findall(file.read_text()):
                if owner in self.repository.crates and not path.endswith("TheConstants"):
                    wanted = {name.split(" as ")[0].strip() for name in names.split(",")}
                    self.assertLessEqual(wanted, declared[owner, path], f"{file}: {path}")
                    seen += 1
        self.assertGreater(seen, 100)

    def test_the_headline_needs_no_less_than_each_of_its_parts(self) -> None:
        whole = set(self.repository.needed(definitions.HEADLINE))
        for root in definitions.HEADLINE:
            self.assertLessEqual(set(self.repository.needed([root])), whole)

    def test_a_generated_script_needs_its_blocks(self) -> None:
        needed = {it.name for it in self.repository.needed(["gen"])}
        self.assertLessEqual({"gen", "blocks", "block"}, needed)


if __name__ == "__main__":
    unittest.main()
