#!/usr/bin/env python3
"""Tests of the tools on a program whose memory is known: examples/arrays.c.

arrays.txt is what the program printed before it did anything: its two arrays, and after how many
rounds over the hot one which pages of the cold one are read. From that alone it is known which pages
a scheme for cold memory takes, and when they are needed again.
"""
from __future__ import annotations

import re
import tempfile
import unittest
from pathlib import Path

from pages import Page
from tool_runs import TOP, need_program, report_of, run

PLAN = TOP / "examples/arrays.txt"
TRACE = TOP / "examples/arrays.trace.xz"
INTERVAL, AGGR = 1000, 20
AGE = 3


def setUpModule() -> None:
    need_program()


class Known:
    """What the program printed."""

    def __init__(self) -> None:
        lines = [line.split() for line in PLAN.read_text().splitlines()]
        self.hot, self.cold = ([int(address, 16) for address in words] for _, *words in lines[:2])
        self.scans = [tuple(map(int, words)) for _, *words in lines[2:]]
        """Rounds that were done before, first page, page after the last one."""
        self.hot_pages = (self.hot[1] - self.hot[0]) // 4096

    def tick(self, rounds: int) -> int:
        """The end of the aggregation with the accesses after this number of rounds; a round is one access to each hot page.

        The program does less than half an aggregation before its first round.
        """
        passed, rest = divmod(rounds * self.hot_pages, INTERVAL * AGGR)
        if rest:
            raise AssertionError("the plan has a scan at another place than where an aggregation would begin")
        return AGGR * (passed + 1)

    def span(self, first: int, after: int) -> str:
        base = self.cold[0]
        return f"{base + first * 4096:#x}-{base + after * 4096:#x}"


class Arrays(unittest.TestCase):
    known: Known
    counts: bytes

    @classmethod
    def setUpClass(cls) -> None:
        cls.known = Known()
        cls.counts = run("exact_counts.py", "--interval", str(INTERVAL), "--aggr", str(AGGR), str(TRACE)).stdout

    def compared(self, *words: str) -> list[str]:
        """The comparison for a scheme that pages out what was not accessed, in both arrays."""
        low, high = min(self.known.hot + self.known.cold), max(self.known.hot + self.known.cold)
        scheme = f"scheme 0 pageout count=0,0 age={AGE},4294967295 filter=allow:addr:{low:#x}-{high:#x}"
        script = run("trace_to_script.py", "--interval", str(INTERVAL), "--aggr", str(AGGR), "--scheme", scheme, *words, str(TRACE)).stdout
        with tempfile.TemporaryDirectory() as folder:
            path = Path(folder) / "counts"
            path.write_bytes(self.counts)
            ran = run("compare.py", str(path), "-", "--moves", text=report_of(script.decode()).encode())
        self.assertEqual(ran.stderr, b"")
        return ran.stdout.decode().splitlines()

    def test_the_plan(self) -> None:
        self.assertEqual([scan[1:] for scan in self.known.scans], [(0, 64), (0, 32), (0, 64)])
        self.assertEqual([self.known.tick(scan[0]) for scan in self.known.scans], [220, 300, 620])

    def test_one_page_a_region(self) -> None:
        """With one page a region nothing is missed, so each move can be worked out by hand.

        The program writes the cold array in the first aggregation, and scans it in those that end at 220,
        300 (the lower half) and 620. Their counts of 1 are about the same as 0, so ages rise by 1 in each
        aggregation, but for those in which the scheme takes the page, which make its age 0. So a page is
        taken every third aggregation, or later where a scan makes its count 1.
        """
        known = self.known
        lines = self.compared("--exact")
        all_pages, lower, upper = known.span(0, 64), known.span(0, 32), known.span(32, 64)
        self.assertEqual([line for line in lines if line.startswith("move")], [
            f"move: slot 0, target 1, {all_pages}, 64 pages, out at tick 60, back at tick 220",
            f"move: slot 0, target 1, {lower}, 32 pages, out at tick 240, back at tick 300",
            f"move: slot 0, target 1, {upper}, 32 pages, out at tick 240, back at tick 620",
            f"move: slot 0, target 1, {lower}, 32 pages, out at tick 320, back at tick 620",
            f"move: slot 0, target 1, {lower}, 32 pages, out at tick 640, still out at the end",
            f"move: slot 0, target 1, {upper}, 32 pages, out at tick 660, still out at the end"])
        # 64 pages go out, 64 again after the first scan, 32 after the second, and 64 after the third.
        # Each scan brings back what it reads: 64 + 32 + 64; only the 32 of the second were out for less than 5 aggregations.
        # They are out through 7 aggregations up to 220 (64 pages), 2 up to 300 (64), the upper half 15 more up to 620
        # and the lower half 14 of these, and to the end at 800 8 (lower) and 7 (upper).
        out = (64 * 7 + 64 * 2 + 32 * 16 + 32 * 14 + 32 * 8 + 32 * 7) / 40
        # Both halves are taken at 60, 120, 180 and 240; the upper one then each third time to 600 and from 660 to 780,
        # 6 and 3 times, and the lower one at 320, 380, 440, 500 and 560, and at 640, 700 and 760.
        taken = 32 * (2 * 4 + 6 + 3 + 5 + 3)
        self.assertEqual([line for line in lines if line.startswith("slot")], [
            f"slot 0 pageout: applied to {taken} page-aggregations",
            f"slot 0 pageout: {taken - 224} of these were out already: {100 * (taken - 224) / taken:.1f} %",
            "slot 0 pageout: 224 pages put out, 64 of them different",
            "slot 0 pageout: 160 refaults of these: 71.4 %; 4.0 an aggregation",
            "slot 0 pageout: 32 refaults within 5 aggregations: 14.3 %",
            f"slot 0 pageout: 64 pages out at the end; {out:.1f} on average through an aggregation"])

    def test_regions(self) -> None:
        """With regions the pages go out at other times, but what is needed again, and when, is the same."""
        known = self.known
        scans = {known.tick(rounds): set(range(first, after)) for rounds, first, after in known.scans}
        lines = self.compared()
        moves = [re.fullmatch(r"move: .* 0x(\w+)-0x(\w+), \d+ pages?, out at tick (\d+), (?:back at tick (\d+)|still out .*)", line)
                 for line in lines if line.startswith("move")]
        out_of: dict[int, list[tuple[int, int | None]]] = {page: [] for page in range(64)}
        for move in moves:
            assert move
            low, high = ((int(address, 16) - known.cold[0]) // 4096 for address in move.groups()[:2])
            for page in range(low, high):
                # A page of the hot array would not be in this table.
                out_of[page].append((int(move[3]), int(move[4]) if move[4] else None))
        for page, stays in out_of.items():
            read = [tick for tick, pages in scans.items() if page in pages]
            self.assertEqual(stays[-1][1], None)
            self.assertEqual([back for _, back in stays[:-1]], read)
            for (_, back), (out, _) in zip(stays, stays[1:]):
                assert back is not None
                self.assertLessEqual(back, out)
        self.assertIn("slot 0 pageout: 160 refaults of these: 71.4 %; 4.0 an aggregation", lines)


class Examples(Page):
    """The section of examples/README.md about this program prints what its commands write."""

    def test_commands_and_outputs(self) -> None:
        _, section = (TOP / "examples/README.md").read_text().split("\n## arrays.c\n")
        with tempfile.TemporaryDirectory() as folder:
            path = Path(folder) / "section"
            path.write_text(section)
            self.follow(str(path), lambda block: "valgrind" in block or block == PLAN.read_text())
        self.assertIn(f"```\n{PLAN.read_text()}```", section)


if __name__ == "__main__":
    unittest.main()
