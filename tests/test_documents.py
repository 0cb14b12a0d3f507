#!/usr/bin/env python3
"""Checks what the documents say of the sources: names, files, links, and the toolchain that is trusted.

    tests/test_documents.py
"""
import re
import subprocess
import unittest
from pathlib import Path
from typing import Dict, Iterator, List, Tuple

from sources import TOP, Repository

PAGES = [TOP / "README.md", TOP / "CONTRIBUTING.md", *sorted((TOP / "docs").rglob("*.md")), *sorted((TOP / "examples").glob("*.md"))]
NAME = re.compile(r"`([^`]+)`")
LINK = re.compile(r"\]\(([^)\s]+)\)")
LOGIC = re.compile(r"\blogic ([0-9a-f]{16})\b")
TESTS = {"part_tests", "engine_tests", "monitor_tests", "script_tests", "replay_tests", "journal_tests", "admin_tests", "live_tests", "grammar_cases"}


def tables(page: Path) -> Iterator[Tuple[List[str], List[List[str]]]]:
    """Gives the head and the rows of each table of a page."""
    lines: List[List[str]] = []
    for line in [*page.read_text().splitlines(), ""]:
        if line.startswith("|"):
            # A bar within a cell is written `\|`.
            lines.append([cell.strip() for cell in re.split(r"(?<!\\)\|", line)[1:-1]])
        elif lines:
            yield lines[0], lines[2:]
            lines = []


def rows_with_head(page: str, *head: str) -> List[List[str]]:
    return [row for found, rows in tables(TOP / "docs" / page) if found == [*head] for row in rows]


def declares(text: str, name: str) -> bool:
    return re.search(rf"\b(fn|const|struct|enum|trait|type) {re.escape(name)}\b", text) is not None


class RuleIndex(unittest.TestCase):
    def test_each_file_and_name_is_there(self) -> None:
        rows = rows_with_head("ARCHITECTURE.md", "rule", "crate", "file", "names")
        self.assertGreater(len(rows), 40)
        for rule, crate, file, names in rows:
            path = TOP / "crates" / NAME.findall(crate)[0] / "src" / NAME.findall(file)[0]
            self.assertTrue(path.is_file(), f"{rule}: there is no {path.relative_to(TOP)}")
            self.assertTrue(NAME.findall(names), rule)
            for name in NAME.findall(names):
                self.assertTrue(declares(path.read_text(), name), f"{rule}: {path.relative_to(TOP)} has no {name}")


class Layers(unittest.TestCase):
    def test_the_table_has_each_crate_and_calls_go_down(self) -> None:
        lines = (TOP / "crates.txt").read_text().splitlines()
        uses = {line.split(":")[0].split()[0]: line.partition(":")[2].split() for line in lines if line}
        rows = rows_with_head("ARCHITECTURE.md", "layer", "crate", "its one concern", "calls", "what it does not know")
        order = [NAME.findall(crate)[0] for _, crate, *_ in rows]
        self.assertEqual(sorted(order), sorted(set(uses) - TESTS))
        for number, (_, crate, _, calls, _) in enumerate(rows):
            for called in set(NAME.findall(calls)) & set(order):
                self.assertIn(called, uses[NAME.findall(crate)[0]], f"{crate} does not use {called}")
                self.assertIn(called, order[number + 1 :], f"{called} does not stand below {crate}")


class Theorem(unittest.TestCase):
    repository = Repository()

    def test_each_definition_stands_in_the_file_that_is_named(self) -> None:
        files = "the same file"
        checked = 0
        for head, rows in tables(TOP / "docs/THEOREM.md"):
            if "definition" not in head:
                continue
            at = head.index("definition")
            for row in rows:
                files = row[at + 1] if LINK.search(row[at + 1]) else files
                for names, file in self.pairs(row[at], LINK.findall(files)):
                    for name in names:
                        self.assertTrue(self.has(file, name), f"{file} has no {name}")
                        checked += 1
        self.assertGreater(checked, 60)

    def pairs(self, names: str, files: List[str]) -> Iterator[Tuple[List[str], str]]:
        """The groups of names between semicolons, each with its file, or all of them with the only one."""
        groups = names.split(";")
        for number, group in enumerate(groups):
            yield NAME.findall(group), files[number] if len(files) == len(groups) else files[-1]

    def has(self, link: str, name: str) -> bool:
        path = (TOP / "docs" / link).resolve()
        if path.suffix == ".rt":
            return declares(path.read_text(), name)
        crate, file = path.parts[-3], path.stem
        return any((it.crate, it.file, it.name) == (crate, file, name) for it in self.repository.definitions)


class Trusted(unittest.TestCase):
    def test_the_logic_is_that_of_the_toolchain(self) -> None:
        said = subprocess.run(["rt", "version"], capture_output=True, text=True, check=True).stdout
        wanted = LOGIC.findall(said)
        self.assertEqual(len(wanted), 1, said)
        for page in (TOP / "README.md", TOP / "docs/THEOREM.md"):
            self.assertEqual(set(LOGIC.findall(page.read_text())), set(wanted), page.name)

    def test_no_page_names_one_build_of_the_toolchain(self) -> None:
        for page in PAGES:
            self.assertFalse("rattle-kit-" in page.read_text(), page.name)


class Manuals(unittest.TestCase):
    """The manual pages have the commands and the statuses of docs/FORMATS.md; a journal that is not lawful is none of `damond run`."""

    def setUp(self) -> None:
        text = (TOP / "docs/FORMATS.md").read_text()
        heads = ("Running `damond`", "Running the program")
        self.of_damond, self.of_damon = (self.statuses(text.split(f"\n## {head}\n")[1]) for head in heads)

    def test_commands(self) -> None:
        words = rows_with_head("FORMATS.md", "words", "what is read from standard input", "what is written to standard output")
        commands = [NAME.findall(row[0])[0].split()[0] for row in words]
        self.assertEqual(re.findall(r"^\.B damon (\w+)", self.section("damon.1", "SYNOPSIS"), re.M), commands)
        self.assertEqual(self.heads("damon.1"), commands)
        widths = [width.split()[1] for row in words for width in NAME.findall(row[0]) if width.startswith("heat ")]
        self.assertIn(" | ".join(widths), self.section("damon.1", "SYNOPSIS"))
        for command in commands:
            self.assertIn(command, self.of_damon["2"])
        self.assertEqual(self.heads("damond.1"), ["run"])

    def test_statuses(self) -> None:
        of_a_run = {number: line for number, line in {**self.of_damon, **self.of_damond}.items() if number != "10"}
        for page, wanted in (("damon.1", self.of_damon), ("damond.1", of_a_run)):
            text = self.section(page, "EXIT STATUS")
            said = dict(re.findall(r"^\.B (\d+)\n(?:(?!\.TP).*\n)*?\.EX\n(.*)\n\.EE$", text, re.M))
            self.assertEqual(re.findall(r"^\.B (\d+)$", text, re.M), sorted(wanted, key=int), page)
            self.assertEqual(said, {number: line for number, line in wanted.items() if number != "0"}, page)

    def statuses(self, section: str) -> Dict[str, str]:
        """The lines of the first table of statuses in a section, by number."""
        table = section.split("| status | number |")[1].split("\n\n")[0]
        return dict(re.findall(r"^\| \w+ \| (\d+) \| `?([^`|]+?)`?(?:, with .*?)? \|", table, re.M))

    def section(self, page: str, head: str) -> str:
        return (TOP / "docs" / page).read_text().split(f".SH {head}\n")[1].split("\n.SH")[0]

    def heads(self, page: str) -> List[str]:
        return re.findall(r"^\.TP\n\.B[IR]? (\w+)", self.section(page, "COMMANDS"), re.M)


class Pages(unittest.TestCase):
    def test_the_headline_is_the_same_everywhere(self) -> None:
        said = {page.name: [line for line in page.read_text().splitlines() if line.startswith("> For every script")]
                for page in (TOP / "README.md", TOP / "docs/THEOREM.md")}
        self.assertEqual([len(lines) for lines in said.values()], [1, 1])
        self.assertEqual(said["README.md"], said["THEOREM.md"])

    def test_each_link_leads_somewhere(self) -> None:
        for page in PAGES:
            for link in LINK.findall(page.read_text()):
                path, _, anchor = link.partition("#")
                if "://" in link:
                    continue
                target = (page.parent / path).resolve() if path else page
                self.assertTrue(target.exists(), f"{page.name}: {link}")
                if anchor and target.suffix == ".md":
                    self.assertIn(anchor, anchors(target), f"{page.name}: {link}")

    def test_each_page_of_docs_is_on_the_map(self) -> None:
        shown = set(LINK.findall((TOP / "README.md").read_text()))
        self.assertLessEqual({f"docs/{page.name}" for page in (TOP / "docs").glob("*.md")}, shown)


def anchors(page: Path) -> Dict[str, str]:
    """The headings of a page, by the anchors that links name."""
    heads = re.findall(r"^#+ (.*)$", page.read_text(), re.M)
    return {re.sub(r"[^\w\- ]", "", head.lower()).replace(" ", "-"): head for head in heads}


if __name__ == "__main__":
    unittest.main()
