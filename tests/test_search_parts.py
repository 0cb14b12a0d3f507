#!/usr/bin/env python3
"""Tests of parts of tools/search.py that need no program: exact counts, chunks of runs, lines of the file, the time left."""
from __future__ import annotations

import csv
import io
import pickle
import random
import unittest
from array import array
from typing import Sequence
from unittest import mock

from tool_runs import TOP

from measuring import truth
from measuring.truth import ACCESSED, HOT, UNTOUCHED, Range, Truths
from searching.handing import AHEAD, CHUNKS, MOST_OF_CHUNK, Pool, in_order
from searching.plan import plan_of
from searching.points import Points
from searching.remaining import Remaining, in_words
from searching.table import Row, line_of
from tracing.intervals import runs_of

RANGES = [Range(0, 16, 40), Range(0, 50, 51), Range(3, 16, 30)]
PAGES = [(one.target, page) for one in RANGES for page in range(one.first, one.after)]


class ExactCounts(unittest.TestCase):
    def setUp(self) -> None:
        source = random.Random(1)
        self.touched = [{page for page in range(len(PAGES)) if source.random() < source.choice([0.1, 0.8])} for _ in range(40)]
        self.truths = Truths(RANGES, [runs_of(sorted(pages)) for pages in self.touched], 0.5)

    def check(self, since: int, tick: int) -> None:
        """Compares all pages with counting one by one."""
        wanted = []
        for page in range(len(PAGES)):
            count = sum(page in pages for pages in self.touched[since:tick])
            wanted.append(HOT if count >= max(1, 0.5 * (tick - since)) else ACCESSED if count else UNTOUCHED)
        found = self.truths.between(since, tick)
        self.assertEqual(found.kinds, b"".join(wanted))
        self.assertEqual((found.hot, found.accessed), (wanted.count(HOT), len(wanted) - wanted.count(UNTOUCHED)))

    def test_kinds_of_pages(self) -> None:
        for since, tick in ((0, 1), (0, 5), (5, 12), (39, 40), (38, 60), (50, 60), (0, 5)):
            self.check(since, tick)
        self.assertEqual(len(self.truths.known), 6)

    def test_few_aggregations_are_kept_where_they_are_large(self) -> None:
        with mock.patch.object(truth, "MOST_BYTES", 3 * len(PAGES)):
            for since in range(20):
                self.check(since, since + 3)
                self.assertLessEqual(len(self.truths.known), 3)

    def test_pages_of_places(self) -> None:
        found, places = self.truths.between(0, 7), self.truths.places
        for number, (target, page) in enumerate(PAGES):
            place = f"{target} {page << 12:#x}-{page + 1 << 12:#x}"
            self.assertEqual(places.rows[f"{place} count={number}"], (slice(number, number + 1), number))
            self.assertEqual(places.runs[f"cold {place} score"], ("cold", 1))
        whole = [places.rows[f"{place} count=1"][0] for place in ("0 0x10000-0x28000", "0 0x32000-0x33000", "3 0x10000-0x1e000")]
        self.assertEqual(b"".join(found.kinds[pages] for pages in whole), found.kinds)
        for text in ("0 0x10000-0x29000", "0 0x28000-0x32000", "1 0x10000-0x11000", "0 0x11000-0x11000", "0 0xf000-0x11000"):
            with self.assertRaisesRegex(LookupError, f"pages that are not watched: {text}"):
                places.rows[f"{text} count=1"]
            with self.assertRaisesRegex(LookupError, f"pages that are not watched: {text}"):
                places.runs[f"pageout {text} score"]
        for text in ("0", "0 0x10000", "x 0x10000-0x11000", "0 y-0x11000", "0 0x10000-0x11000-0x12000"):
            self.assertRaises(ValueError, places.row, f"{text} count=1")
            self.assertRaises(ValueError, places.run, f"pageout {text} score")

    def test_places_are_kept_and_forgotten_where_they_are_many(self) -> None:
        sent: Truths = pickle.loads(pickle.dumps(self.truths))
        rows = sent.places.rows
        with mock.patch.object(truth, "MOST_KEPT", 3):
            for count in range(7):
                self.assertEqual(rows[f"0 0x10000-0x28000 count={count}"], (slice(0, 24), count))
                self.assertEqual(len(rows), 1 + count % 3)

    def test_no_interval(self) -> None:
        self.assertEqual(Truths(RANGES, [array("Q")], 0.5).between(0, 1).accessed, 0)


class Done:
    """The answer of a chunk, which is there at once."""

    def __init__(self, chunk: Sequence[int]) -> None:
        self.chunk = chunk

    def result(self) -> list[Row]:
        return [[str(number)] for number in self.chunk]


class Chunks(unittest.TestCase):
    def chunks(self, numbers: Sequence[int], processes: int) -> list[Sequence[int]]:
        """All chunks. Their rows come in the order of the runs."""
        chunks: list[Sequence[int]] = []

        def submit(chunk: Sequence[int]) -> Done:
            chunks.append(chunk)
            return Done(chunk)

        rows = [row for some in in_order(Pool(submit, lambda: processes), numbers) for row in some]
        self.assertEqual(rows, [[str(number)] for number in numbers])
        return chunks

    def test_all_runs_come_in_their_order(self) -> None:
        cases: list[tuple[Sequence[int], int]] = [([], 1), ([7], 4), (range(7, 5000), 4), ([9, 3, 80, 5], 2), (range(999), 3)]
        for numbers, processes in cases:
            with self.subTest(numbers=numbers, processes=processes):
                self.assertEqual([number for chunk in self.chunks(numbers, processes) for number in chunk], [*numbers])

    def test_how_long_chunks_are(self) -> None:
        self.assertEqual({len(chunk) for chunk in self.chunks(range(100_000), 4)}, {MOST_OF_CHUNK})
        self.assertEqual({len(chunk) for chunk in self.chunks(range(CHUNKS * 4 * 5), 4)}, {5})
        self.assertEqual({len(chunk) for chunk in self.chunks(range(20), 4)}, {1})

    def test_so_many_are_handed_out_ahead(self) -> None:
        chunks: list[Sequence[int]] = []

        def submit(chunk: Sequence[int]) -> Done:
            chunks.append(chunk)
            return Done(chunk)

        rows = in_order(Pool(submit, lambda: 3), range(1000))
        next(rows)
        self.assertEqual(len(chunks), AHEAD * 3 + 1)
        next(rows)
        self.assertEqual(len(chunks), AHEAD * 3 + 2)


class Numbers(unittest.TestCase):
    def test_points_that_differ_in_their_workloads(self) -> None:
        plan = plan_of(str(TOP / "examples/search.toml"))._replace(workloads=("a", "b", "c"))
        for draws in (None, 40):
            points = Points(plan, draws, 1)
            found: dict[int, list[object]] = {}
            for number in range(len(points)):
                found.setdefault(points.rest(number), []).append(points.point(number).chosen)
            self.assertEqual([some.count(some[0]) for some in found.values()], [len(some) for some in found.values()])
            self.assertEqual({len(some) for some in found.values()} == {3}, draws is None)


class Lines(unittest.TestCase):
    def test_cells_come_back(self) -> None:
        source = random.Random(3)
        for _ in range(500):
            cells = ["".join(source.choices('ab ,";\xe4', k=source.randrange(6))) for _ in range(4)]
            self.assertEqual(list(csv.reader([line_of(cells)])), [cells])
        self.assertEqual(line_of(["a b", "c,d", 'say "x"', "", "0.5"]), 'a b,"c,d","say ""x""",,0.5\n')


class Progress(unittest.TestCase):
    def test_the_time_left(self) -> None:
        seconds = iter([0.0, 0.0, 10.0, 10.0, 40.0, 40.0, 90.0, 90.0])
        stream = io.StringIO()
        remaining = Remaining(stream, lambda: next(seconds))
        remaining.begin(800)
        remaining(20)
        remaining(80)
        remaining.begin(200)
        remaining(100)
        remaining.end()
        self.assertEqual(stream.getvalue(), "note: 100 of 800 runs, 12 %; 5 min left\nnote: 200 of 1000 runs, 20 %; 6 min left\n")

    def test_words(self) -> None:
        self.assertEqual([in_words(seconds) for seconds in (0.0, 89.0, 120.0, 5399.0, 7200.0)],
                         ["0 s", "89 s", "2 min", "90 min", "2.0 h"])


if __name__ == "__main__":
    unittest.main()
