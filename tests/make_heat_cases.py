#!/usr/bin/env python3
"""Makes the cases of `damon heat`: `tests/cases/heat.jsonl`.

    tests/make_heat_cases.py

The tables that are wanted are counted here page by page, from the rows that `damon replay` reports of the same run
(`journal_runs.py`); no number in them comes from `damon heat`. Run it after a change of these cases;
`tests/test_heat_cases.py` fails until that is done.
"""
from __future__ import annotations

import hashlib
import json
import random
from collections import Counter
from pathlib import Path
from typing import Any, Dict, Iterator, List, NamedTuple, Sequence, Tuple

from journal_runs import Aggregation, Row, Run, Setup
from tool_runs import need_program

TOP = Path(__file__).resolve().parent.parent
CASES = TOP / "tests/cases/heat.jsonl"
USAGE = "usage: damon replay, json, verify, gen N, tune GOALS, heat N, admin or reclaim"
SIZES = (8, 16, 64)
MILLION = 1_048_576
LONGEST = 16_777_216
STORED = 20_000
"""Of a longer output the case has the checksum."""


class Case(NamedTuple):
    """A case of `run_cases.py`."""

    name: str
    words: Sequence[str]
    fields: Dict[str, Any]

    def line(self) -> str:
        return json.dumps({"name": self.name, "words": list(self.words), **self.fields})


# The tables, page by page.


def tables(run: Run, columns: int) -> str:
    """What `damon heat` writes of the journal of a run."""
    lines: List[str] = []
    sizes: List[int] = []
    for found in run.aggregations():
        for target, (_, pages) in enumerate(run.setup.targets):
            lines.append(f"heat {found.tick} {target} {joined(heat_of(found.rows, target, pages, columns))}")
        lines.append(f"freq {found.tick} {joined(tenths_of(found))}")
        sizes.append(sum(1 for row in found.rows if row.hits for _ in range(row.first, row.after)))
        lines.append(f"wss {found.tick} {sizes[-1]}")
    return "\n".join([*lines, last_line(sizes), ""])


def heat_of(rows: Sequence[Row], target: int, pages: int, columns: int) -> List[int]:
    """The sum of the counts of the pages of each column."""
    count = {page: row.hits for row in rows if row.target == target for page in range(row.first, row.after)}
    return [sum(count.get(page, 0) for page in range(column * pages // columns, (column + 1) * pages // columns))
            for column in range(columns)]


def tenths_of(found: Aggregation) -> List[int]:
    """How many pages have which number of tenths."""
    tenths = Counter(min(10, 10 * row.hits // found.aggr) for row in found.rows for _ in range(row.first, row.after))
    return [tenths[number] for number in range(11)]


def last_line(sizes: Sequence[int]) -> str:
    if not sizes:
        return "all reports=0"
    half = [size for size in sizes if 2 * sum(other <= size for other in sizes) >= len(sizes)]
    return f"all reports={len(sizes)} least={min(sizes)} median={min(half)} greatest={max(sizes)}"


def joined(numbers: Sequence[int]) -> str:
    return " ".join(map(str, numbers))


# Cases.


def lawful(name: str, run: Run, *columns: int) -> Iterator[Case]:
    """A run with each of these numbers of columns, or with all."""
    journal = run.journal()
    for number in columns or SIZES:
        text = tables(run, number).encode()
        wanted: Dict[str, Any] = {"stdout": text.decode()}
        if len(text) > STORED:
            wanted = {"stdout_sha256": hashlib.sha256(text).hexdigest(), "stdout_bytes": len(text)}
        yield Case(f"heat-{number}-{name}", ["heat", f"{number}"], {"input": journal, **wanted, "stderr": "", "status": 0})


def refused(name: str, words: Sequence[str], status: int, line: str, **source: Any) -> Case:
    """A case in which nothing is written but a line to standard error."""
    source = source or {"input": ""}
    stdout = {} if "stdout_to" in source else {"stdout": ""}
    return Case(f"heat-{name}", words, {**source, **stdout, "stderr": line + "\n", "status": status})


def usage() -> Iterator[Case]:
    words = ["heat", "heat 7", "heat 08", "heat 8 8", "heat 8 16", "heat 0", "heat 1", "heat 9", "heat 32", "heat 63", "heat 65",
             "heat 128", "heat 4096", "heat +8", "heat -8", "heat 0x8", "heat 8.0", "heat eight", "heat 18446744073709551624",
             "heat --help", "heat -- 8", "-heat 8", "Heat 8", "heat8", "heats 8", "8 heat", "verify 8", "heat help", "help heat"]
    parts = [line.split(" ") for line in words] + [["heat", ""], ["heat", "8 "], ["heat", " 8"], ["heat", "16\n"], ["heat 8"]]
    for number, given in enumerate(parts, 1):
        yield refused(f"usage-{number}", given, 2, USAGE)


def streams() -> Iterator[Case]:
    """What is the same for each command that reads."""
    yield refused("too-long", ["heat", "8"], 4, f"input is longer than {LONGEST} bytes", input_parts=[["x", LONGEST + 1]])
    yield refused("as-long-as-it-may-be", ["heat", "8"], 10, unlawful(1), input_parts=[["x", LONGEST]])
    yield refused("reading-fails", ["heat", "16"], 5, "reading failed", stdin_from="examples")
    yield refused("writing-fails", ["heat", "64"], 6, "writing failed", stdin_from="examples/live.journal", stdout_to="/dev/full")


# Runs.


def one_target(pages: int, aggr: int, times: int, **more: Any) -> Run:
    """Passes over a target that is one range of at most three rows, in which every row but the last is hit."""
    run = Run(Setup((3, 3, aggr), [(0, pages)], [(0, 0, pages)], **more))
    run.make_passes(times, lambda index, row: row.after < pages or row.first == 0)
    return run


def ranges_in_a_row(sizes: Sequence[int], aggr: int) -> Run:
    """A run over one target whose ranges have these pages, with a page between two of them that no range has. There are as
    many rows as there may be, so each range stays one row. At least three rows are allowed, so there are as many ranges."""
    ranges, first = [], 0
    for size in [*sizes, *[1] * (3 - len(sizes))]:
        ranges.append((0, first, first + size))
        first += size + 1
    return Run(Setup((3, len(ranges), aggr), [(0x400000, first)], ranges))


def each_count(aggr: int) -> Run:
    """One aggregation in which row i is hit in i passes."""
    run = ranges_in_a_row([2 + index % 5 for index in range(aggr + 1)], aggr)
    for number in range(aggr):
        run.make_pass(lambda index, row: index > number)
    return run


def working_sets(sizes: Sequence[int]) -> Run:
    """Aggregations in each of which one range of another size is hit."""
    run = ranges_in_a_row(sizes, 1)
    for number in range(len(sizes)):
        run.make_pass(lambda index, row: index == number)
    return run


def no_hit() -> Run:
    """Aggregations without any hit."""
    run = ranges_in_a_row([5, 2], 2)
    run.make_passes(4, lambda index, row: False)
    return run


def few_pages(pages: Sequence[int]) -> Run:
    """Targets with these numbers of pages, at addresses that fall; the first row of each is hit."""
    targets = [((len(pages) - number) << 32, count) for number, count in enumerate(pages)]
    run = Run(Setup((3, 100, 2), targets, [(number, 0, count) for number, count in enumerate(pages)]))
    run.make_passes(2, lambda index, row: row.first == 0)
    return run


def not_watched() -> Run:
    """Two of three targets have no range at all, and the third has gaps."""
    run = Run(Setup((3, 3, 3), [(0, 40), (1 << 40, 33), (1 << 50, 9)], [(1, 3, 9), (1, 12, 13), (1, 20, 31)]))
    run.make_passes(3, lambda index, row: True)
    return run


def smaller_aggr() -> Run:
    """A commit makes `aggr` smaller after four passes, so counts are above it: all tenths are ten at most."""
    run = ranges_in_a_row([5, 3, 4], 10)
    run.make_passes(4, lambda index, row: index != 1)
    run.commit("attrs 3 3 2")
    run.make_pass(lambda index, row: index == 0)
    run.make_passes(2, lambda index, row: index == 1)
    return run


def moved_ranges() -> Run:
    """Commits move the ranges: between passes, in an armed pass, which becomes void, and one that is refused."""
    run = Run(Setup((4, 12, 2), [(0x10000, 64)], [(0, 8, 40)], seed=3))
    run.make_passes(3, lambda index, row: row.first < 20)
    run.commit(run.setup.range_line(0, 0, 10), run.setup.range_line(0, 30, 64))
    run.make_passes(2, lambda index, row: row.first >= 30)
    run.void_pass("attrs 3 9 3", run.setup.range_line(0, 5, 60))
    run.make_passes(2, lambda index, row: index % 2 == 0)
    run.commit(run.setup.range_line(0, 5, 65))
    run.show()
    run.make_passes(4, lambda index, row: index % 2 == 1)
    return run


def with_schemes(version: int) -> Run:
    """Schemes with quotas, which cut rows before they are reported; in version 2 one has a time and is told its cost."""
    time = " time=5000" if version == 2 else ""
    schemes = [f"scheme 0 pageout count=0,0 quota=40960,4{time} prefer=cold", "scheme 3 lru_prio count=1,4294967295 quota=20480,2"]
    run = Run(Setup((6, 20, 2), [(0x7F0000000000, 100)], [(0, 0, 100)], unit=2, seed=11, version=version, schemes=schemes))
    for number in range(5):
        run.make_passes(2, lambda index, row: row.first // 10 == number or index == 0)
        run.commit(*(["cost 0 4000"] if version == 2 else ["metric 3"]))
    return run


def chosen_by_chance(seed: int) -> Run:
    """A run with targets, ranges, hits and commits by chance."""
    choose = random.Random(seed)
    sizes = [choose.choice([2, 7, 30, 65, 200]), *(choose.choice([1, 7, 65]) for _ in range(choose.randrange(4)))]
    unit = choose.choice([1, 1, 2])
    base, targets, ranges = choose.randrange(9) << 12, [], []
    for target, pages in enumerate(sizes):
        targets.append((base, pages))
        base += pages + choose.randrange(5) << 20
        edges = sorted(choose.sample(range(pages + 1), min(pages + 1, choose.choice([2, 2, 4]))))
        ranges += [(target, first, after) for first, after in zip(edges[::2], edges[1::2]) if after - first >= unit]
    ranges = ranges or [(0, 0, sizes[0])]
    most = len(ranges) + choose.randrange(3, 16)
    aggr = choose.choice([1, 2, 3, 7])
    run = Run(Setup((3, most, aggr), targets, ranges, unit=unit, seed=seed, version=1 + seed % 2))
    for _ in range(choose.randrange(4, 9)):
        hot = choose.sample(range(200), 60)
        for _ in range(choose.randrange(1, aggr + 2)):
            run.make_pass(lambda index, row: any(row.first <= page < row.after for page in hot[:2 + index % 3]) and choose.random() < 0.8)
        if choose.random() < 0.3:
            run.commit(f"attrs 3 {choose.randrange(len(ranges), most + 2)} {choose.choice([1, 2, 4])}")
        if choose.random() < 0.3:
            run.show()
    return run


def runs() -> Iterator[Case]:
    yield from lawful("one-page", one_target(1, 1, 1))
    yield from lawful("three-pages", one_target(3, 2, 4))
    yield from lawful("no-pass", one_target(3, 2, 0), 16)
    yield from lawful("no-aggregation", one_target(9, 5, 4), 8)
    yield from lawful("one-aggregation", one_target(30, 5, 5), 8, 64)
    yield from lawful("passes-after-the-last-one", one_target(30, 3, 8), 16)
    yield from lawful("a-million-pages", one_target(MILLION, 3, 3, seed=5), 8)
    yield from lawful("a-million-pages-less-one", one_target(MILLION - 1, 60, 60), 64)
    yield from lawful("the-last-addresses", Run(Setup((3, 3, 1), [((1 << 63) - 5 * 4096, 5)], [(0, 0, 5)])), 8)
    yield from lawful("pages-about-the-columns", few_pages([7, 8, 9, 15, 16, 17, 63, 64, 65]))
    yield from lawful("targets-of-few-pages", few_pages([1, 2, 3, 5]))
    yield from lawful("as-many-targets-as-may-be", few_pages([1 + number % 3 for number in range(64)]), 8)
    yield from lawful("not-watched", not_watched())
    yield from lawful("no-hit", no_hit(), 8)
    for aggr in (1, 3, 7, 10, 11):
        yield from lawful(f"each-count-of-{aggr}", each_count(aggr), 16)
    for sizes in ([6], [6, 2], [5, 1, 3], [4, 1, 3, 9], [7, 7, 2, 7, 2], [1, 2, 3, 4, 5, 6]):
        yield from lawful(f"median-of-{joined(sizes).replace(' ', '-')}", working_sets(sizes), 8)
    yield from lawful("smaller-aggr", smaller_aggr(), 8)
    yield from lawful("moved-ranges", moved_ranges())
    for version in (1, 2):
        yield from lawful(f"schemes-of-version-{version}", with_schemes(version), 16)
    for seed in range(1, 13):
        yield from lawful(f"by-chance-{seed}", chosen_by_chance(seed), SIZES[seed % 3])
    yield from lawful("more-than-a-piece", few_pages_often(), 64)


def few_pages_often() -> Run:
    """Enough aggregations that their tables have more than 64 KiB."""
    run = Run(Setup((3, 4, 1), [(number << 24, 64) for number in range(4)], [(number, 0, 64) for number in range(4)]))
    for number in range(150):
        run.make_pass(lambda index, row: number >> index & 1 == 1)
    return run


# Refusals.


def unlawful(line: int) -> str:
    return f"line {line}: not a lawful journal"


EDITS: Sequence[Tuple[str, int, Sequence[str], int]] = (
    ("another-header", 1, ["damon journal 3"], 1),
    ("a-unit-of-0", 3, ["unit 0"], 3),
    ("a-range-outside", 9, ["range 1 0x102000 0x10a000 0"], 9),
    ("no-begin", 10, [], 10),
    ("a-pass-too-far", 13, ["prepare 3 at 2"], 13),
    ("another-position", 13, ["prepare 2 at 3"], 13),
    ("an-aggregation-too-early", 13, ["aggregate 1 at 2", "prepare 2 at 2"], 13),
    ("a-bit-too-many", 14, ["check 2 100"], 14),
    ("no-aggregation-where-it-is-due", 15, [], 15),
    ("another-tick", 15, ["aggregate 3 at 4"], 15),
    ("two-aggregations", 15, ["aggregate 2 at 4", "aggregate 2 at 20"], 16),
    ("another-answer", 19, ["answer shown tick=3 rows=2"], 19),
    ("a-call-out-of-turn", 20, ["call 0 2 commit"], 20),
    ("a-cost-with-a-leading-zero", 22, ["cost 0 07"], 22),
    ("no-receipts-line", 30, [], 30),
    ("an-address-within-a-page", 31, ["seen 0 0 0x1001 1"], 31),
    ("a-hit-without-a-receipt", 34, [], 43),
    ("a-receipt-of-a-pass-to-come", 43, ["seen 0 1 0x108000 6"], 43),
    ("another-row-at-the-end", 51, ["row 1 0x108000-0x109000 count=2 last=2 age=0"], 51),
    ("other-totals", 52, ["end ticks=5 rows=6 checks=16 hits=14"], 52),
    ("two-ends", 52, ["end ticks=5 rows=6 checks=16 hits=13"] * 2, 53),
)
"""Each has the number of a line, the lines that stand in its place, and the line that is refused then."""


def edited_journal() -> Run:
    """The run whose journal is edited. It has version 2, two aggregations, a show and a commit."""
    run = Run(Setup((3, 8, 2), [(0, 6), (0x100000, 9)], [(0, 0, 6), (1, 2, 9)], seed=8, version=2))
    run.make_passes(3, lambda index, row: index != 1)
    run.show()
    run.commit("attrs 3 6 2", "cost 0 7")
    run.make_passes(2, lambda index, row: True)
    return run


def refusals() -> Iterator[Case]:
    """Texts that are refused as `damon verify` refuses them."""
    text = edited_journal().journal()
    lines = text.splitlines()
    yield from lawful("the-journal-that-is-edited", edited_journal(), 16)
    for name, number, new, wrong in EDITS:
        changed = "\n".join([*lines[: number - 1], *new, *lines[number:], ""])
        yield refused(f"refused-{name}", ["heat", "8"], 10, unlawful(wrong), input=changed)
    yield refused("refused-nothing", ["heat", "64"], 10, unlawful(1), input="")
    yield refused("refused-a-script", ["heat", "64"], 10, unlawful(1), stdin_from="examples/hot.damon")
    yield refused("refused-a-live-script", ["heat", "16"], 10, unlawful(1), stdin_from="examples/live.damon")
    yield refused("refused-without-the-last-lf", ["heat", "16"], 10, unlawful(len(lines)), input=text[:-1])
    yield refused("refused-text-after-the-end", ["heat", "16"], 10, unlawful(len(lines) + 1), input=text + "x")


def made() -> str:
    cases = [*runs(), *refusals(), *usage(), *streams()]
    return "".join(case.line() + "\n" for case in cases)


def main() -> None:
    need_program()
    CASES.write_text(made())


if __name__ == "__main__":
    main()
