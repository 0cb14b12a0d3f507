#!/usr/bin/env python3
"""Tests of the commands of the tutorial and of the pages about choosing and about searches."""
from __future__ import annotations

import unittest
from pathlib import Path

from page_parts import parts_of
from pages import UNTRIED, Page
from tool_runs import TOP, check_same, need_program

from webpage.d3 import BUNDLE


def setUpModule() -> None:
    need_program()


class Tutorial(Page):
    """The commands of docs/TUTORIAL.md work as printed, but for those that need valgrind, perf or gnuplot, or make another run each time."""

    HAS_D3 = BUNDLE.is_file()

    def test_commands_and_outputs(self) -> None:
        skipped = [*UNTRIED, *([] if self.HAS_D3 else ["tools/page.py"])]
        self.follow("docs/TUTORIAL.md", lambda block: any(word in block for word in skipped), self.compare_pictures)

    def compare_pictures(self, folder: Path) -> None:
        for picture in ("shop", "exact", "patient", "page-cache", "again", "reclaim", "tune", "heat"):
            check_same((folder / f"{picture}.svg").read_bytes(), TOP / f"docs/pictures/{picture}.svg")
        if self.HAS_D3:
            # Another version of D3 or of zlib would make other bytes.
            made_page, kept = (parts_of((place / "policies.html").read_text()) for place in (folder, TOP / "docs/pictures"))
            self.assertEqual((made_page.meta == kept.meta, made_page.block == kept.block, made_page.rest == kept.rest), (True, True, True))


class Choosing(Page):
    """The same of docs/CHOOSING.md, with its two fronts."""

    def test_commands_and_outputs(self) -> None:
        self.follow("docs/CHOOSING.md", lambda block: False, self.compare_pictures)

    def compare_pictures(self, folder: Path) -> None:
        for picture in ("hot", "out"):
            check_same((folder / f"{picture}.svg").read_bytes(), TOP / f"docs/pictures/search-{picture}.svg")


class Search(Page):
    """The same of docs/SEARCH.md, but for the cluster, of which tests/test_search_cluster.py has more."""

    def test_commands_and_outputs(self) -> None:
        plans = [self.plan(name) for name in ("search", "quota")]
        text = (TOP / "docs/SEARCH.md").read_text()
        for plan in plans:
            self.assertIn(f"```\n{plan}```\n", text)
        self.follow("docs/SEARCH.md", lambda block: "dask " in block or block in plans or block.startswith("command ="))

    def plan(self, name: str) -> str:
        """A plan as the page shows it, without its comments."""
        lines = (TOP / f"examples/{name}.toml").read_text().splitlines(keepends=True)
        return "".join(line for line in lines if not line.startswith("#"))


if __name__ == "__main__":
    unittest.main()
