#!/usr/bin/env python3
"""Tests of tools/trace_to_script.py: the counts of traces, scripts, and errors."""
from __future__ import annotations

import io
import lzma
import tempfile
import unittest
from collections import Counter
from pathlib import Path

from tool_runs import KEPT, Refusals, counts_of_report, need_program, notes_of, random_trace, report_of, run, script_of

from tracing.accesses import TraceError
from tracing.areas import chosen, group_pages
from tracing.intervals import record, union
from tracing.lackey import LackeyTrace, decode

TOOL = "trace_to_script.py"


def setUpModule() -> None:
    need_program()


def counts_of_trace(trace: list[str], letters: str, interval: int, aggr: int) -> list[Counter[int]]:
    """For each aggregation and page the intervals with an access. Shares nothing with the tools."""
    taken = [line[3:].split(",") for line in trace if line[:1] in "I " and line[:2].strip() in letters]
    result: list[Counter[int]] = []
    for start in range(0, len(taken) - len(taken) % interval + 1, interval):
        touched: set[int] = set()
        for address, size in taken[start : start + interval]:
            touched.update((int(address, 16) // 4096, (int(address, 16) + int(size) - 1) // 4096))
        if start // interval % aggr == 0:
            result.append(Counter())
        result[-1].update(touched)
    return result


class ExactCounts(unittest.TestCase):
    """With one page a region the counts are those of the trace."""

    def compare(self, trace: bytes, letters: str, interval: int, aggr: int, *words: str) -> None:
        script = script_of(trace, "--interval", str(interval), "--aggr", str(aggr), *words)
        wanted = counts_of_trace(trace.decode().splitlines(), letters, interval, aggr)
        self.same(counts_of_report(report_of(script)), wanted)

    def same(self, given: list[dict[int, int]], wanted: list[Counter[int]]) -> None:
        self.assertGreater(len(given), 1)
        self.assertIn(len(wanted) - len(given), (0, 1))
        for one, other in zip(wanted, given):
            self.assertEqual(dict(one), {page: count for page, count in other.items() if count})

    def test_kept_trace(self) -> None:
        self.compare(lzma.decompress(KEPT.read_bytes()), "LSM", 3000, 20, "--exact")

    def test_random_traces(self) -> None:
        for seed in range(12):
            with self.subTest(seed=seed):
                interval, aggr = 1 + seed * 7, 1 + seed % 5
                self.compare(random_trace(seed, 2000), "LSM", interval, aggr, "--exact", "--gap", str(seed % 4 * 10))

    def test_settings_of_one_page_a_region(self) -> None:
        self.compare(random_trace(99, 900), "LSM", 30, 4, "--unit", "1", "--min", "300", "--max", "400", "--cap", "500")

    def test_kinds_of_accesses(self) -> None:
        for letters, words in (("I", ["--fetches"]), ("LM", ["--loads"]), ("SM", ["--stores"]),
                               ("ILSM", ["--loads", "--stores", "--fetches"])):
            with self.subTest(letters=letters):
                self.compare(random_trace(5, 1500), letters, 17, 3, "--exact", *words)


class Scripts(unittest.TestCase):
    def test_a_small_script(self) -> None:
        trace = b"==7== x\n L 00010ffc,8\n S 00010000,4\n M 1ffeffd008,1\nI  00099000,3\n L 00013000,1\n"
        words = ("--interval", "2", "--gap", "2", "--aggr", "1", "--seed", "9", "--scheme", "scheme 0 stat count=0,0",
                 "--metric", "1:300")
        self.assertEqual(script_of(trace, *words).splitlines(), [
            "damon script 1", "seed 9", "unit 1", "cap 100", "attrs 10 100 1", "target 0x10000 4",
            "target 0x1ffeffd000 1", "range 0 0x10000 0x14000 0", "range 1 0x1ffeffd000 0x1ffeffe000 0",
            "scheme 0 stat count=0,0", "begin", "arm", "sweep 0 0x10000 0x12000", "finish", "commit", "metric 300",
            "apply", "arm", "touch 0 0x13000", "touch 1 0x1ffeffd000", "finish", "show", "end"])

    def test_the_program_takes_scripts_of_all_settings(self) -> None:
        for words in (["--unit", "40"], ["--cap", "4000"], ["--min", "3", "--max", "5"], ["--aggr", "1000"]):
            with self.subTest(words=words):
                report_of(script_of(random_trace(3, 500), "--interval", "5", *words))

    def test_watermarks_follow_the_metrics(self) -> None:
        report = report_of(script_of(random_trace(2, 3000), "--interval", "10", "--aggr", "10", "--metric", "100:300",
                                     "--metric", "150:600", "--scheme", "scheme 2 pageout marks=500,400,200"))
        active = [line.startswith("slot 2 left") for line in report.splitlines() if line.startswith("slot ")]
        self.assertEqual(active, [False] * 10 + [True] * 5 + [False] * (len(active) - 15))

    def test_left_out_areas_are_noted(self) -> None:
        lines = [f" L {0x100000 * (number + 1):08x},4\n" * (2 + number) for number in range(70)]
        ran = run(TOOL, "--interval", "10", "--aggr", "1", "--gap", "0", text="".join(lines).encode())
        self.assertEqual(ran.returncode, 0)
        self.assertIn(b"left out 6 areas with 6 pages and 27 accesses", ran.stderr)
        self.assertEqual(ran.stdout.count(b"target "), 64)
        self.assertNotIn(b"target 0x600000 ", ran.stdout)
        report_of(ran.stdout.decode())

    def test_fit_holds_the_limits_and_is_short(self) -> None:
        trace = random_trace(8, 60_000)
        # With this cap there is room for 1,023 intervals.
        ran = run(TOOL, "--interval", "1", "--fit", "--min", "3", "--cap", "4096", text=trace)
        self.assertEqual(ran.returncode, 0, ran.stderr)
        report_of(ran.stdout.decode())
        self.assertGreater(ran.stdout.count(b"\narm\n"), 600)

    def test_fit_keeps_an_interval_that_fits(self) -> None:
        trace = random_trace(8, 3000)
        self.assertEqual(script_of(trace, "--interval", "70", "--fit"), script_of(trace, "--interval", "70"))

    def test_compressed_traces(self) -> None:
        trace = random_trace(4, 300)
        with tempfile.TemporaryDirectory() as folder:
            path = Path(folder) / "a.xz"
            path.write_bytes(lzma.compress(trace))
            self.assertEqual(script_of(b"", "--interval", "9", str(path)), script_of(trace, "--interval", "9"))


class Names(unittest.TestCase):
    TRACE = b" L 00108000,4\n L 00109000,4\n L 00000000048470f0,8\n S 1ffeffe000,4\n"
    MAPS = ("00108000-00110000 r--p 00000000 fe:00 248066   /usr/bin/sqlite3\n04847000-0486d000 r--p 00000000 fe:00 332835   /lib/my libc.so\n"
            "1ffeffe000-1fff001000 rw-p 00000000 00:00 0\n")

    def setUp(self) -> None:
        folder = tempfile.TemporaryDirectory()
        self.addCleanup(folder.cleanup)
        self.maps, self.names = (Path(folder.name) / name for name in ("maps", "names"))
        self.maps.write_text(self.MAPS)

    def notes(self, trace: bytes, *words: str) -> str:
        return notes_of(trace, "--interval", "3", "--aggr", "1", "--names", str(self.names), *words)

    def test_the_file(self) -> None:
        notes = self.notes(self.TRACE, "--maps", str(self.maps))
        self.assertIn(f"note: names of 3 of 3 targets are in {self.names}\n", notes)
        self.assertEqual(self.names.read_text(), "0x108000-0x10a000 sqlite3\n0x4847000-0x4848000 my libc.so\n0x1ffeffe000-0x1ffefff000 stack\n")
        self.assertIn("names of 1 of 3 targets", self.notes(self.TRACE))
        self.assertEqual(self.names.read_text(), "0x1ffeffe000-0x1ffefff000 stack\n")

    def test_what_has_no_names(self) -> None:
        self.assertIn("names of 0 of 1 target ", self.notes(b"1.5 0x1000\n"))
        self.assertEqual(self.names.read_text(), "")

    def test_other_tools_read_it(self) -> None:
        report = report_of(script_of(self.TRACE, "--interval", "3", "--aggr", "1", "--names", str(self.names), "--maps", str(self.maps))).encode()
        labels = ("--label", "0=sqlite3", "--label", "1=my libc.so", "--label", "2=stack")
        for tool in ("picture.py", "hot.py"):
            by_file, by_label = run(tool, "--names", str(self.names), text=report), run(tool, *labels, text=report)
            self.assertEqual((by_file.returncode, by_file.stdout), (0, by_label.stdout), by_file.stderr)
            self.assertIn(b"my libc.so", by_file.stdout)


class Errors(Refusals):
    def taken_from(self, parts: list[str], trace: bytes, *words: str) -> None:
        self.refused(TOOL, parts, trace, *words)

    def test_limits_of_settings(self) -> None:
        trace = random_trace(1, 100)
        for option, value, name in (("--cap", "5000", "cap"), ("--min", "2", "min"), ("--max", "9", "m"),
                                    ("--aggr", "1001", "aggr"), ("--unit", "0", "unit"), ("--seed", "-1", "seed"),
                                    ("--max", "5000", "cap"), ("--interval", "0", "--interval"), ("--gap", "-1", "--gap")):
            with self.subTest(option=option, value=value):
                self.taken_from([name, "--"], trace, option, value)

    def test_limits_of_scripts(self) -> None:
        trace = random_trace(1, 60_000)
        self.taken_from(["work", "16777216", "--fit"], trace, "--interval", "1", "--cap", "4096")
        self.taken_from(["max is 3", "--gap"], trace, "--min", "3", "--max", "3")
        self.taken_from(["cap", "4096", "--exact"], b" L 00001000,1\n L 02001000,1\n", "--exact", "--gap", "9000")

    def test_limit_of_bytes(self) -> None:
        lines = [f" L {(0x10000 + 2 * page) << 12:08x},4\n" for page in range(2000)] * 500
        self.taken_from(["16777216 bytes", "--interval"], "".join(lines).encode(), "--interval", "2000", "--cap", "100")

    def test_malformed_lines(self) -> None:
        good = b" L 00001000,4\n" * 70_000
        for bad in (b" L 00001000\n", b"L 00001000,4\n", b" X 00001000,4\n", b" L 0000100g,4\n", b"\n", b" L 1000,0\n",
                    b"hello\n", b"\xff\n"):
            with self.subTest(bad=bad):
                self.taken_from(["line 70001"], good + bad + good)

    def test_no_access(self) -> None:
        self.taken_from(["no access"], b"==1== nothing\nI  00001000,4\n")

    def test_options(self) -> None:
        trace = random_trace(1, 100)
        self.taken_from(["--scheme"], trace, "--scheme", "range 0 0x0 0x1000 0")
        self.taken_from(["--scheme"], trace, "--scheme", "scheme 0 stat\nbegin")
        self.taken_from(["--metric"], trace, "--metric", "5")
        self.taken_from(["--exact"], trace, "--exact", "--cap", "9")
        for words, other in ((("a",), "the trace"), (("--keep", "./a"), "that of --keep"), (("--maps", "a"), "that of --maps")):
            self.taken_from([f"--names needs a file of its own, and not {other}\n"], trace, "--names", "a", *words)

    def test_files(self) -> None:
        self.taken_from(["no-such-file: No such file or directory\n"], b"", "no-such-file")
        self.taken_from(["no-maps: No such file"], b"", "--maps", "no-maps")


class Parts(unittest.TestCase):
    def test_lines(self) -> None:
        self.assertEqual(decode(b" L 00001ffe,2\n", b"L"), (1,))
        self.assertEqual(decode(b" M 00001ffe,3\n", b"LM"), (1, 2))
        self.assertEqual(decode(b"I  04016d80,3", b"L"), ())
        self.assertEqual(decode(b" S 7ffffffffff8,8\n", b"S"), ((1 << 35) - 1,))
        with self.assertRaises(TraceError):
            decode(b" S 7ffffffffff9,8\n", b"S")

    def test_number_of_a_line_in_a_later_batch(self) -> None:
        lines = [b" L 00001000,4\n"] * 200_000
        lines[150_000] = b"?\n"
        with self.assertRaisesRegex(TraceError, "^line 150001:"):
            list(LackeyTrace(io.BytesIO(b"".join(lines)), b"L"))

    def test_areas(self) -> None:
        def spans(gap: int, unit: int) -> list[tuple[int, int, int]]:
            return [(area.first, area.after, area.accesses) for area in group_pages({5: 1, 6: 2, 9: 3, 20: 4}, gap, unit)]

        self.assertEqual(spans(0, 1), [(5, 7, 3), (9, 10, 3), (20, 21, 4)])
        self.assertEqual(spans(2, 1), [(5, 10, 6), (20, 21, 4)])
        self.assertEqual(spans(0, 4), [(5, 10, 6), (20, 24, 4)])

    def test_pages_of_areas_are_limited(self) -> None:
        found = chosen(group_pages({0: 9, (1 << 20) - 1: 9, 1 << 22: 1, 1 << 23: 2}, 1 << 20, 1))
        self.assertEqual([area.first for area in found.kept], [0])
        self.assertEqual(sum(area.accesses for area in found.left_out), 3)

    def test_doubling_joins_neighbours(self) -> None:
        trace = [(page,) for page in (1, 2, 9, 4, 5)]
        found = record(trace, 1, lambda recording: len(recording.intervals) > 2)
        self.assertEqual((found.length, [list(runs) for runs in found.intervals]), (2, [[1, 3], [4, 5, 9, 10], [5, 6]]))

    def test_union(self) -> None:
        found = record([(1,), (3,), (2,), (2,)], 2, lambda recording: False).intervals
        self.assertEqual(list(union(found)), [1, 4])


if __name__ == "__main__":
    unittest.main()
