#!/usr/bin/env python3
"""Tests of tools/exact_counts.py: the exact counts of a trace, without the monitor."""
from __future__ import annotations

import lzma
import random
import subprocess
import tempfile
import unittest
from collections import Counter
from pathlib import Path

from tool_runs import KEPT, TOOLS, Refusals, need_program, random_trace, report_of, run, script_of

TOOL = "exact_counts.py"
Page = tuple[int, int]


def setUpModule() -> None:
    need_program()


def counts(trace: bytes, *words: str) -> str:
    """What the tool writes."""
    ran = run(TOOL, *words, text=trace)
    if ran.returncode != 0:
        raise AssertionError(ran.stderr.decode())
    return ran.stdout.decode()


def pages_of(text: str) -> list[dict[Page, int]]:
    """The count of each page in each aggregation, of exact counts or of a report."""
    result: list[dict[Page, int]] = []
    for line in text.split("show ")[0].splitlines():
        word, *rest = line.split()
        if word == "aggregate":
            result.append({})
        elif word == "row":
            low, high = (int(address, 16) // 4096 for address in rest[1].split("-"))
            for page in range(low, high):
                result[-1][int(rest[0]), page] = int(rest[2].removeprefix("count="))
    return result


def touched_in(trace: bytes, interval: int, ticks: list[int]) -> list[Counter[int]]:
    """In how many intervals before each tick each page was touched. Shares nothing with the tools."""
    accesses = [line[3:].split(",") for line in trace.decode().splitlines() if line[:2] in (" L", " S", " M")]
    result = []
    for since, tick in zip([0, *ticks], ticks):
        sums: Counter[int] = Counter()
        for number in range(since, tick):
            pages = set()
            for address, size in accesses[number * interval : (number + 1) * interval]:
                pages |= {int(address, 16) // 4096, (int(address, 16) + int(size) - 1) // 4096}
            sums.update(pages)
        result.append(sums)
    return result


class Counts(unittest.TestCase):
    def test_the_counts_are_those_of_the_exact_report(self) -> None:
        for seed in range(6):
            with self.subTest(seed=seed):
                trace, words = random_trace(seed, 3000), ("--interval", str(3 + seed), "--aggr", str(2 + seed), "--gap", str(9 * seed))
                exact = report_of(script_of(trace, "--exact", *words))
                self.assertEqual(pages_of(counts(trace, *words)), pages_of(exact))

    def test_the_counts_are_those_of_the_trace(self) -> None:
        trace = random_trace(12, 3000)
        found = pages_of(counts(trace, "--interval", "7", "--aggr", "9"))
        wanted = touched_in(trace, 7, list(range(9, 9 * len(found) + 1, 9)))
        for one, other in zip(found, wanted, strict=True):
            self.assertEqual({page: count for (_, page), count in one.items() if count}, dict(other))

    def test_the_rows_cover_the_targets(self) -> None:
        trace = random_trace(3, 2000)
        for unit in ("1", "40"):
            words = ("--interval", "5", "--gap", "2", "--unit", unit)
            script = script_of(trace, *words, "--max", "200").splitlines()
            spans = [line.split()[1:] for line in script if line.startswith("target ")]
            wanted = {(target, int(base, 16) // 4096 + page) for target, (base, pages) in enumerate(spans) for page in range(int(pages))}
            for found in pages_of(counts(trace, *words)):
                self.assertEqual(set(found), wanted)

    def test_neighbours_with_one_count_are_one_row(self) -> None:
        trace = b" L 00001000,4\n L 00002000,4\n" * 2 + b" S 00005000,4\n"
        self.assertEqual(counts(trace, "--interval", "2", "--aggr", "1").splitlines(), [
            "exact counts 1", "aggregate tick=1 rows=2", "row 0 0x1000-0x3000 count=1", "row 0 0x3000-0x6000 count=0",
            "aggregate tick=2 rows=2", "row 0 0x1000-0x3000 count=1", "row 0 0x3000-0x6000 count=0",
            "aggregate tick=3 rows=2", "row 0 0x1000-0x5000 count=0", "row 0 0x5000-0x6000 count=1"])

    def test_more_pages_and_intervals_than_a_script_has_room_for(self) -> None:
        lines = [f" L {(1 << 32) + 4096 * (3 * number % 9000):09x},8\n" for number in range(90_000)]
        found = counts("".join(lines).encode(), "--interval", "3", "--aggr", "1000")
        self.assertEqual(found.count("aggregate"), 30)
        self.assertEqual(sum(pages_of(found)[0].values()), 3000)

    def test_a_clock_of_instructions(self) -> None:
        trace = random_trace(8, 3000)
        words = ("--clock", "instructions", "--interval", "6", "--aggr", "5")
        self.assertEqual(pages_of(counts(trace, *words)), pages_of(report_of(script_of(trace, "--exact", *words))))


class Scripts(Refusals):
    """The counts of a script are those of the trace that it was made of, and those of counting its touches one by one."""

    def test_they_are_those_of_the_trace(self) -> None:
        for seed in range(4):
            trace, words = random_trace(seed, 2500), ("--interval", str(4 + seed), "--aggr", str(3 + seed), "--gap", str(3 * seed))
            script = script_of(trace, *words, "--max", "200", "--at", "7:metric 5")
            self.assertEqual(counts(script.encode()), counts(trace, *words))
            self.assertEqual(counts(script.encode(), "--aggr", "9"), counts(trace, *words[:2], "--aggr", "9", *words[4:]))

    def test_targets_at_the_same_addresses_and_several_ranges(self) -> None:
        source = random.Random(5)
        ranges = [(0, 2, 6), (0, 6, 9), (0, 12, 20), (1, 2, 9), (3, 0, 3)]
        lines = ["damon script 1", "seed 1", "unit 1", "cap 100", "attrs 5 100 4", *["target 0x0 20"] * 4,
                 *[f"range {target} {first << 12:#x} {after << 12:#x} 0" for target, first, after in ranges], "begin"]
        wanted: list[dict[Page, int]] = []
        for tick in range(40):
            if tick % 4 == 0:
                wanted.append({(target, page): 0 for target, first, after in ranges for page in range(first, after)})
            touched = {(source.randrange(4), source.randrange(20)) for _ in range(6)}
            sweep = (source.randrange(4), source.randrange(10))
            lines += ["arm", *[f"touch {target} {(page << 12) + source.randrange(4096):#x}" for target, page in touched],
                      f"sweep {sweep[0]} {sweep[1] << 12:#x} {sweep[1] + 5 << 12:#x}", "finish"]
            touched |= {(sweep[0], page) for page in range(sweep[1], sweep[1] + 5)}
            for page in touched & {*wanted[-1]}:
                wanted[-1][page] += 1
        found = counts("\n".join([*lines, "end\n"]).encode())
        self.assertEqual(pages_of(found), wanted)

    def test_a_script_that_is_piped_and_one_that_is_packed(self) -> None:
        script = script_of(random_trace(1, 900), "--interval", "9").encode()
        with tempfile.TemporaryDirectory() as folder:
            path = Path(folder) / "a.xz"
            path.write_bytes(lzma.compress(script))
            self.assertEqual(counts(b"", str(path)), counts(script))

    def test_errors(self) -> None:
        script = script_of(random_trace(1, 900), "--interval", "9", "--at", "5:attrs 5 50 7").encode()
        self.refused(TOOL, ["-: its commits have a line `attrs`: use --aggr, or --like"], script)
        self.assertTrue(counts(script, "--aggr", "5").startswith("exact counts 1\naggregate tick=5 "))
        for words in (("--interval", "9"), ("--gap", "3"), ("--unit", "1"), ("--form", "perf"), ("--clock", "accesses"), ("--loads",)):
            self.refused(TOOL, [f"{words[0]} is for traces, and - is a script"], script, "--aggr", "5", *words)
        self.refused(TOOL, ["-: line 7: 'step 4': exact counts need", "`arm`, touches and `finish`"],
                     b"damon script 1\nseed 1\nunit 1\ncap 9\nattrs 3 9 4\nbegin\nstep 4\nend\n")


class Comparisons(unittest.TestCase):
    """What it writes is a first report for compare.py."""

    def compared(self, exact: str, found: str) -> list[str]:
        with tempfile.TemporaryDirectory() as folder:
            path = Path(folder) / "exact"
            path.write_text(exact)
            return run("compare.py", str(path), "-", "--moves", text=found.encode()).stdout.decode().splitlines()

    def test_the_comparison_is_the_same(self) -> None:
        trace, words = random_trace(4, 3000), ("--interval", "4", "--aggr", "8")
        found = report_of(script_of(trace, *words, "--scheme", "scheme 0 pageout count=0,0 age=1,9"))
        lines = self.compared(counts(trace, *words), found)
        self.assertGreater(len(lines), 10)
        self.assertEqual(lines, self.compared(report_of(script_of(trace, "--exact", *words)), found))

    def test_a_run_whose_commit_changes_the_passes_of_an_aggregation(self) -> None:
        trace = random_trace(6, 3000)
        script = script_of(trace, "--interval", "5", "--aggr", "9")
        passes = script.split("arm\n")
        found = report_of("arm\n".join(passes[:21]) + "commit\nattrs 10 100 4\napply\narm\n" + "arm\n".join(passes[21:]))
        ticks = [int(line.split()[1][5:]) for line in found.splitlines() if line.startswith("aggregate")]
        self.assertLessEqual({4, 9}, {after - before for before, after in zip([0, *ticks], ticks)})
        with tempfile.TemporaryDirectory() as folder:
            path = Path(folder) / "report"
            path.write_text(found)
            exact = counts(trace, "--interval", "5", "--like", str(path))
        for one, other in zip(pages_of(exact), touched_in(trace, 5, ticks), strict=True):
            self.assertEqual({page: count for (_, page), count in one.items() if count}, dict(other))
        self.assertTrue(self.compared(exact, found)[0].startswith(f"{len(ticks)} aggregations"))


class Errors(Refusals):
    def test_options(self) -> None:
        for option, value in (("--interval", "0"), ("--gap", "-1"), ("--unit", "0"), ("--aggr", "0")):
            with self.subTest(option=option):
                self.refused(TOOL, [option, "at least"], b" L 00001000,4\n", option, value)

    def test_traces(self) -> None:
        self.refused(TOOL, ["line 2"], b" L 00001000,4\nhello\n")
        self.refused(TOOL, ["no access"], b"==1== nothing\n")
        self.refused(TOOL, ["no-such-file"], b"", "no-such-file")
        self.refused(TOOL, ["--clock"], b" L 00001000,4\n", "--clock", "instructions")

    def test_a_report_of_another_run(self) -> None:
        with tempfile.TemporaryDirectory() as folder:
            path = Path(folder) / "report"
            path.write_text("aggregate tick=7 threshold=0 rows=0\n")
            self.refused(TOOL, [str(path), "tick 7", "1 interval of 3"], b" L 00001000,4\n", "--interval", "3", "--like", str(path))

    def test_a_closed_pipe_ends_it_in_silence(self) -> None:
        words = ["python3", str(TOOLS / TOOL), "--interval", "100", "--aggr", "1", str(KEPT)]
        process = subprocess.Popen(words, stdout=subprocess.PIPE, stderr=subprocess.PIPE)
        assert process.stdout and process.stderr
        process.stdout.close()
        message = process.stderr.read()
        process.stderr.close()
        process.wait()
        # A slow machine may have been told how far the reading was, which is no error.
        errors = [line for line in message.splitlines() if not line.endswith(b"million lines read")]
        self.assertEqual(errors, [])


if __name__ == "__main__":
    unittest.main()
