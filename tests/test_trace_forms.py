#!/usr/bin/env python3
"""Tests of the forms of traces: lackey, a view of a memtrace, pinatrace, samples of perf, and plain lines; and of time as a clock.

The traces in tests/traces have the same accesses, those of perf and the plain one at the same times. Those of a memtrace and of
pinatrace were written from the documents of these tools, and not by them.
"""
from __future__ import annotations

import unittest

from tool_runs import TOP, Refusals, counts_of_report, need_program, notes_of, report_of, run, script_of

from tracing.accesses import TraceError
from tracing.clocks import TimeClock
from tracing.forms import FORMS, form_of
from tracing.instrumented import Access, memtrace_access, pinatrace_access
from tracing.intervals import record
from tracing.samples import Sample, Samples, perf_sample, plain_sample

TOOL, COUNTS = "trace_to_script.py", "exact_counts.py"
KEPT = {form: (TOP / f"tests/traces/{form}.trace").read_bytes() for form in FORMS}
TIMED = ("perf", "plain")
BY_ACCESSES = ("arm\nsweep 0 0x10000 0x12000\nfinish\narm\ntouch 0 0x10000\nsweep 0 0x12000 0x14000\nfinish\n"
               "arm\ntouch 1 0x7ffd0000\nfinish\nshow\nend\n")
BY_TIME = ("arm\nsweep 0 0x10000 0x12000\nfinish\narm\ntouch 0 0x10000\ntouch 0 0x13000\nfinish\narm\nfinish\narm\nfinish\n"
           "arm\ntouch 0 0x12000\ntouch 1 0x7ffd0000\nfinish\nshow\nend\n")
MILLISECOND = ("--clock", "microseconds", "--interval", "1000")
RECORD = b"  8  1:  4711 read  8 byte(s) @ 0x0000000000010000 by PC 0x0000000000400500\n"
LINES = {"lackey": b" L 00010000,8\n", "memtrace": RECORD, "pinatrace": b"0x400500: R 0x10000\n",
         "perf": b"sh 7 12.000350: page-faults: 10000\n", "plain": b"12.00035 0x10000\n"}


def setUpModule() -> None:
    need_program()


class Kept(unittest.TestCase):
    def test_scripts_by_accesses(self) -> None:
        for form in FORMS:
            with self.subTest(form=form):
                script = script_of(KEPT[form], "--interval", "3")
                self.assertIn("target 0x10000 4\ntarget 0x7ffd0000 1\nrange", script)
                self.assertEqual(script.split("begin\n")[1], BY_ACCESSES)
                self.assertEqual(script_of(KEPT[form], "--interval", "3", "--form", form), script)

    def test_scripts_by_time(self) -> None:
        for form in TIMED:
            with self.subTest(form=form):
                self.assertEqual(script_of(KEPT[form], *MILLISECOND).split("begin\n")[1], BY_TIME)

    def test_notes(self) -> None:
        self.assertIn("note: 5000 microseconds with 7 accesses in 5 intervals of 1000; 2 aggregations; 2 targets with 5 pages;",
                      notes_of(KEPT["perf"], *MILLISECOND, "--aggr", "2"))
        self.assertIn("left out 1 sample with the address 0, which means none", notes_of(KEPT["perf"], "--interval", "3"))
        for form in FORMS:
            self.assertIn("left out 1 access at addresses that are not below 2^47", notes_of(KEPT[form], "--interval", "3"))

    def test_exact_counts_are_those_of_the_script(self) -> None:
        for form in TIMED:
            with self.subTest(form=form):
                words = (*MILLISECOND, "--aggr", "2")
                counts = run(COUNTS, *words, text=KEPT[form])
                self.assertEqual(counts.returncode, 0, counts.stderr)
                given = counts_of_report(report_of(script_of(KEPT[form], *words, "--exact")))
                self.assertEqual(given[0], {0x10: 2, 0x11: 1, 0x12: 0, 0x13: 1, 0x7FFD0: 0})
                self.assertEqual(counts.stdout.decode().splitlines()[1:6], [
                    "aggregate tick=2 rows=5", "row 0 0x10000-0x11000 count=2", "row 0 0x11000-0x12000 count=1",
                    "row 0 0x12000-0x13000 count=0", "row 0 0x13000-0x14000 count=1"])

    def test_places_of_valgrind_are_not_those_of_others(self) -> None:
        self.assertIn("0=stack", notes_of(b" S 1ffeffe000,4\n", "--interval", "3"))
        self.assertNotIn("stack", notes_of(b"1 0x1ffeffe000\n", "--interval", "3"))


class Lines(unittest.TestCase):
    def test_plain(self) -> None:
        self.assertEqual(plain_sample(b"0 0x0\n"), Sample(0, 0))
        self.assertEqual(plain_sample(b"12.5 \t 0x7F0000001000\r\n"), Sample(12_500_000_000, 0x7F0000001000))
        self.assertEqual(plain_sample(b"9999999999.000000001 0xffffffffffffffff"), Sample(9_999_999_999_000_000_001, (1 << 64) - 1))
        for line in (b"1 1000\n", b"1. 0x1\n", b".5 0x1\n", b"-1 0x1\n", b"1 0x\n", b"1 0x1 0x2\n", b" 1 0x1\n",
                     b"1e3 0x1\n", b"\n", b"1 0x11111111111111111\n", b"1.0000000001 0x1\n", b"1 0x1g\n", b"1\n", b"\xff 0x1\n"):
            with self.subTest(line=line), self.assertRaises(TraceError):
                plain_sample(line)

    def test_perf(self) -> None:
        for line, time in ((b"              sh 23388  2743.539579: page-faults:     55f91c161240\n", 2_743_539_579_000),
                           (b" 2743.539579280: page-faults:     55f91c161240\n", 2_743_539_579_280),
                           (b" 2743.539579:     55f91c161240\n", 2_743_539_579_000),
                           (b"page-faults:     55f91c161240\n", None),
                           (b"a: 1.5: 7 [003] 2743.539579:     1 cycles:P:  55f91c161240 ffffffff81752b6a elf_load+0x28a ([k])\n",
                            2_743_539_579_000),
                           (b"sh 7 2743.539579: 1 cpu/mem-loads,ldlat=30/P: 55f91c161240 |OP LOAD|LVL L1 hit| 7 main\n",
                            2_743_539_579_000)):
            with self.subTest(line=line):
                self.assertEqual(perf_sample(line), Sample(time, 0x55F91C161240))

    def test_perf_without_an_address(self) -> None:
        for line in (b"sh 7 2743.539579:          1 page-faults:  ffffffff81752b6a elf_load+0x28a ([kernel.kallsyms])\n",
                     b"sh 7 2743.539579:          1 page-faults:  ffffffff81752b6a [unknown] (/bin/sh)\n",
                     b"sh 7 2743.539579:          1 page-faults: \n", b"sh 7 2743.539579: \n",
                     b"\tffffffff81752b6a elf_load+0x28a\n", b"2743.539579:          1     55f91c161240\n", b"12.35: 1000\n", b"\n"):
            with self.subTest(line=line), self.assertRaisesRegex(TraceError, "perf script -F comm,tid,time,event,addr"):
                perf_sample(line)

    def test_number_of_a_line_in_a_later_batch(self) -> None:
        for form in TIMED:
            trace = Samples([LINES[form]] * 150_000 + [b"?\n"] + [LINES[form]] * 9, form)
            with self.subTest(form=form), self.assertRaisesRegex(TraceError, "^line 150001:"):
                list(trace)

    def test_forms(self) -> None:
        for form, line in LINES.items():
            self.assertEqual(form_of(line), form)
        self.assertEqual((form_of(b"==7== x\n"), form_of(b"hello\n"), form_of(b"\n")), ("lackey", None, None))


class Instrumented(unittest.TestCase):
    def test_a_memtrace_has_instructions_and_kinds_as_lackey(self) -> None:
        for words in (("--clock", "instructions", "--interval", "2"), ("--loads", "--interval", "2"), ("--stores", "--interval", "1"),
                      ("--fetches", "--interval", "2")):
            self.assertEqual(script_of(KEPT["memtrace"], *words), script_of(KEPT["lackey"].replace(b" M", b" L"), *words))

    def test_kinds_of_pinatrace(self) -> None:
        self.assertEqual(script_of(KEPT["pinatrace"], "--stores", "--interval", "1").split("begin\n")[1],
                         "arm\ntouch 0 0x10000\nfinish\narm\ntouch 0 0x12000\nfinish\nshow\nend\n")

    def test_lines(self) -> None:
        for line, wanted in ((b"T342625   ifetch      10 byte(s) @ 0x00007f8c4c9e7100\n", Access(b"I", 0x7F8C4C9E7100, 10)),
                             (b"  8  1:  4711 write  16 byte(s) @ 0x0000000000010ff8 by PC 0x0000000000400500\r\n", Access(b"S", 0x10FF8, 16)),
                             (b"  8  1:  4711 pref-r-L1  1 byte(s) @ 0x0000000000010ff8\n", None), (b"T7 <marker: timestamp 9>\n", None)):
            self.assertEqual(memtrace_access(line), wanted)
        for line in (b"  8  1:  4711 read  8 bytes @ 0x1\n", b"read 8 byte(s) @ 0x1\n", b"8 1: 7 read x byte(s) @ 0x1\n", b"hello\n"):
            with self.subTest(line=line), self.assertRaises(TraceError):
                memtrace_access(line)
        self.assertEqual(pinatrace_access(b"0x7f907b8f6a03: W 0x7ffd5e2a4b58\n"), Access(b"S", 0x7FFD5E2A4B58, 1))
        for line in (b"0x1: M 0x2\n", b"0x1: R\n", b"1: R 0x2\n", b"0x1: R 0x2 8\n"):
            with self.subTest(line=line), self.assertRaises(TraceError):
                pinatrace_access(line)


class Time(unittest.TestCase):
    def test_intervals(self) -> None:
        trace = [(5_000, 1), (6_999, 2), (7_000, 3), (7_000, 4), (12_999, 5)]
        found = record(iter(trace), 2, lambda recording: False, TimeClock)
        self.assertEqual([list(runs) for runs in found.intervals], [[1, 3], [3, 5], [], [5, 6]])
        self.assertEqual((found.length, found.duration, found.accesses), (2, 8, 5))

    def test_joined_intervals(self) -> None:
        trace = [(0, 1), (9_000, 2), (10_000, 3)]
        found = record(iter(trace), 1, lambda recording: len(recording.intervals) > 2, TimeClock)
        self.assertEqual([list(runs) for runs in found.intervals], [[1, 2], [], [2, 4]])
        self.assertEqual((found.length, found.duration), (4, 12))

    def test_fit(self) -> None:
        trace = b"".join(b"%d.%03d 0x%x000\n" % (*divmod(number, 1000), 16 + number % 40) for number in range(9000))
        words = ("--clock", "microseconds", "--fit", "--interval", "1000", "--cap", "4096", "--min", "3")
        script = script_of(trace, *words)
        report_of(script)
        self.assertGreater(script.count("\narm\n"), 600)
        self.assertIn("9000 accesses", notes_of(trace, *words))

    def test_a_gap_of_years_fits(self) -> None:
        script = script_of(b"1 0x1000\n999999999 0x2000\n", "--clock", "microseconds", "--fit", "--cap", "4096")
        self.assertEqual((script.count("touch 0 0x1000"), script.count("touch 0 0x2000")), (1, 1))


class Errors(Refusals):
    def taken_from(self, parts: list[str], trace: bytes, *words: str) -> None:
        for tool in (TOOL, COUNTS):
            with self.subTest(tool=tool, words=words):
                self.refused(tool, parts, trace, *words)

    def test_malformed_lines(self) -> None:
        kinds = {"lackey": "not a line of lackey", "memtrace": "not a line of a memtrace view", "pinatrace": "not a line of pinatrace",
                 "perf": "not a line of perf script", "plain": "not SECONDS ADDRESS"}
        for form, kind in kinds.items():
            for bad in (b"hello\n", b"\n", b"\xff\n", *(line for other, line in LINES.items() if other != form)):
                with self.subTest(form=form, bad=bad):
                    self.taken_from([f"line 4: {kind}"], LINES[form] * 3 + bad + LINES[form])

    def test_no_form(self) -> None:
        self.taken_from(["line 2: not a line of lackey, of a memtrace view, of pinatrace, of perf script or of the form SECONDS ADDRESS: "
                         "'hello'"], b"# x\nhello\n")
        self.taken_from(["line 1: a name follows the address", "perf script -F comm,tid,time,event,addr"],
                        b"sh 7 2743.539579:          1 page-faults:  ffffffff81752b6a elf_load+0x28a ([kernel.kallsyms])\n")
        self.taken_from(["line 1: not a line of lackey: '12.00035"], LINES["plain"], "--form", "lackey")
        self.taken_from(["line 1: not SECONDS ADDRESS"], LINES["lackey"], "--form", "plain")
        self.taken_from(["no access"], b"# x\n")
        self.taken_from(["no access"], b"# x\n12.0")
        self.taken_from(["no access"], b"12.0")

    def test_times_that_fall(self) -> None:
        for trace in (b"2 0x1000\n3.5 0x1000\n3.4 0x1000\n", b"e: 1000\n sh 3.500000: e: 1000\n sh 3.400000: e: 1000\n"):
            for words in ((), ("--clock", "microseconds")):
                wanted = ["line 3: its time is before 3.500000000", "sort"] if not words or trace[:1] == b"2" else ["line 1: no time"]
                self.taken_from(wanted, trace, *words)

    def test_clocks(self) -> None:
        for form in ("lackey", "memtrace", "pinatrace"):
            self.taken_from([f"{form} has no times", "--clock accesses"], LINES[form], "--clock", "microseconds")
        for words in (("--clock", "instructions"), ("--fetches",)):
            self.taken_from(["form pinatrace has no instructions"], LINES["pinatrace"], *words)
        self.taken_from(["line 2: no time", "--clock accesses"], LINES["perf"] + b"e: 1000\n", "--clock", "microseconds")
        for form in TIMED:
            self.taken_from([f"form {form} has no instructions"], LINES[form], "--clock", "instructions")
            for kind in ("loads", "stores", "fetches"):
                self.taken_from([f"form {form} does not say which accesses are {kind}"], LINES[form], f"--{kind}")

    def test_a_gap_of_years(self) -> None:
        trace = b"1 0x1000\n999999999 0x2000\n"
        self.refused(TOOL, ["work", "--fit"], trace, "--clock", "microseconds")
        self.refused(COUNTS, ["more than 1048576 intervals", "--interval"], trace, "--clock", "microseconds")


if __name__ == "__main__":
    unittest.main()
