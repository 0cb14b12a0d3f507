#!/usr/bin/env python3
"""Tests of tools/trace_to_script.py: instructions as a clock, odd traces, progress, and names of targets."""
from __future__ import annotations

import io
import tempfile
import unittest
from pathlib import Path

from tool_runs import counts_of_report, need_program, notes_of, random_trace, report_of, run, script_of

from tracing.areas import Area
from tracing.clocks import InstructionClock
from tracing.intervals import record
from tracing.lackey import INSTRUCTION, LackeyTrace
from tracing.names import mappings, names_by_maps, names_by_place
from tracing.progress import BACK_TO_START, Progress

TOOL = "trace_to_script.py"
MAPS = """\
00108000-00110000 r--p 00000000 fe:00 248066                             /usr/bin/sqlite3
00110000-0013e000 r-xp 00008000 fe:00 248066                             /usr/bin/sqlite3
04000000-04033000 r--p 00000000 fe:00 332383                             /usr/lib/ld-linux-x86-64.so.2
04033000-04035000 rw-p 00033000 fe:00 332383                             /usr/lib/ld-linux-x86-64.so.2
04035000-04056000 rwxp 00000000 00:00 0
04835000-04837000 rw-p 00000000 00:00 0
04847000-0486d000 r--p 00000000 fe:00 332835                             /usr/lib/libc.so.6 (deleted)
1ffeffe000-1fff001000 rw-p 00000000 00:00 0
7ffc8e187000-7ffc8e1a8000 rw-p 00000000 00:00 0                          [stack]
7ffd00000000-7ffd00001000 rw-p 00000000 00:00 0                          [anon:jit code]
"""


def setUpModule() -> None:
    need_program()


class InstructionsAsClock(unittest.TestCase):
    def test_counts(self) -> None:
        for seed in range(6):
            trace, interval = random_trace(seed, 3000), 7 + seed
            script = script_of(trace, "--clock", "instructions", "--interval", str(interval), "--exact", "--aggr", "1")
            given = [set(one) for one in touched_pages(counts_of_report(report_of(script)))]
            self.assertEqual(given, pages_by_instructions(trace.decode().splitlines(), interval))

    def test_intervals_without_accesses_are_kept(self) -> None:
        trace = b"I  00001000,4\n L 00010000,4\n" + b"I  00001000,4\n" * 9 + b" S 00010000,4\n"
        script = script_of(trace, "--clock", "instructions", "--interval", "2", "--aggr", "1")
        self.assertEqual(script.split("begin\n")[1], "arm\ntouch 0 0x10000\nfinish\n" + "arm\nfinish\n" * 3
                         + "arm\ntouch 0 0x10000\nfinish\nshow\nend\n")
        self.assertIn("10 instructions with 2 accesses in 5 intervals of 2; 5 aggregations",
                      notes_of(trace, "--clock", "instructions", "--interval", "2", "--aggr", "1"))

    def test_fetches_can_be_taken_too(self) -> None:
        trace = b"I  00001000,4\nI  00002000,4\nI  00003000,4\n"
        script = script_of(trace, "--clock", "instructions", "--interval", "1", "--fetches")
        self.assertEqual(script.count("touch 0"), 3)

    def test_joined_intervals(self) -> None:
        trace = [(INSTRUCTION,), (5,), (INSTRUCTION, 7), (INSTRUCTION,), (6,), (INSTRUCTION,), (INSTRUCTION,), (9,)]
        found = record(trace, 1, lambda recording: len(recording.intervals) > 2, InstructionClock)
        self.assertEqual((found.length, found.duration, found.accesses), (2, 5, 4))
        self.assertEqual([list(runs) for runs in found.intervals], [[5, 6, 7, 8], [6, 7], [9, 10]])

    def test_a_trace_without_instructions(self) -> None:
        ran = run(TOOL, "--clock", "instructions", text=b" L 00001000,4\n")
        self.assertEqual((ran.returncode, ran.stderr.count(b"\n")), (2, 1))
        self.assertIn(b"no instructions", ran.stderr)


def touched_pages(counts: list[dict[int, int]]) -> list[list[int]]:
    return [[page for page, count in one.items() if count] for one in counts]


def pages_by_instructions(trace: list[str], interval: int) -> list[set[int]]:
    """For each interval of this number of lines `I` the pages of loads and stores. Shares nothing with the tools."""
    result: list[set[int]] = [set()]
    fetched = 0
    for line in trace:
        if line[0] == "I":
            if fetched and fetched % interval == 0:
                result.append(set())
            fetched += 1
        elif line[:2] in (" L", " S", " M"):
            address, size = line[3:].split(",")
            result[-1].update((int(address, 16) // 4096, (int(address, 16) + int(size) - 1) // 4096))
    return result


class OddTraces(unittest.TestCase):
    def test_a_last_line_that_is_cut_off(self) -> None:
        whole = b" L 00001000,4\n" * 30
        for cut in (b" ", b" L", b" L 0000", b" L 00001000,", b"=", b"I"):
            with self.subTest(cut=cut):
                self.assertEqual(script_of(whole + cut, "--interval", "10"), script_of(whole, "--interval", "10"))
                self.assertIn(f"left out the last line of the trace, which is cut off: {cut.decode()!r}",
                              notes_of(whole + cut, "--interval", "10"))
        self.assertNotIn("cut off", notes_of(whole + b" L 00001000,4", "--interval", "10"))

    def test_addresses_beyond_user_space(self) -> None:
        whole = b" L 00001000,4\n" * 30
        beyond = whole + b" L ffffffffff600000,8\n" * 2 + b" S 800000000000,1\nI  ffffffffff600000,3\n"
        self.assertEqual(script_of(beyond, "--interval", "10"), script_of(whole, "--interval", "10"))
        self.assertIn("left out 3 accesses at addresses that are not below 2^47", notes_of(beyond, "--interval", "10"))

    def test_numbers_with_one(self) -> None:
        notes = notes_of(b" L 00001000,4\n", "--interval", "10")
        self.assertIn("1 access in 1 interval of 10; 0 aggregations; 1 target with 1 page;", notes)

    def test_progress_in_a_log(self) -> None:
        seconds = iter([0.0, 10.0, 31.0, 40.0, 62.0])
        stream = io.StringIO()
        progress = Progress(stream, lambda: next(seconds))
        for lines in (1_000_000, 2_000_000, 3_000_000, 4_100_000):
            progress(lines)
        progress.end()
        self.assertEqual(stream.getvalue(), "note: 2.0 million lines read\nnote: 4.1 million lines read\n")

    def test_progress_on_a_terminal(self) -> None:
        class Terminal(io.StringIO):
            def isatty(self) -> bool:
                return True

        seconds, stream = iter([0.0, 0.5, 1.5]), Terminal()
        progress = Progress(stream, lambda: next(seconds))
        progress(1_000_000)
        progress(2_000_000)
        progress.end()
        self.assertEqual(stream.getvalue(), f"{BACK_TO_START}2.0 million lines read{BACK_TO_START}")

    def test_progress_while_a_trace_is_read(self) -> None:
        said: list[int] = []
        list(LackeyTrace(io.BytesIO(b" L 00001000,4\n" * 150_000), b"L", progress=said.append))
        self.assertEqual(said, [65_536, 131_072, 150_000])


class Names(unittest.TestCase):
    AREAS = [Area(0x108, 0x110, 9), Area(0x4027, 0x4049, 9), Area(0x4835, 0x486D, 9), Area(0x1FFEFFD, 0x1FFF001, 9)]

    def test_maps(self) -> None:
        uses = {0x108: 5, 0x4028: 6, 0x4036: 7, 0x4836: 2, 0x4848: 1, 0x1FFEFFE: 3}
        found = names_by_maps(self.AREAS, uses, mappings(MAPS.splitlines()))
        self.assertEqual(found, {0: "sqlite3", 1: "heap", 2: "anonymous", 3: "stack"})
        uses[0x4849] = 4
        uses[0x4028] = 9
        found = names_by_maps(self.AREAS, uses, mappings(MAPS.splitlines()))
        self.assertEqual((found[1], found[2]), ("ld-linux-x86-64.so.2", "libc.so.6"))

    def test_names_in_brackets(self) -> None:
        self.assertEqual([one.name for one in mappings(MAPS.splitlines())][-2:], ["stack", "jit code"])

    def test_names_are_printable(self) -> None:
        for text, name in (("[anon:]", "anonymous"), ("/tmp/a\tb", "a?b"), ("/tmp/ a ", "a"), ("/tmp/\N{BULLET}", "?")):
            self.assertEqual([one.name for one in mappings([f"00400000-00401000 r--p 00000000 fe:00 10   {text}"])], [name])

    def test_a_program_without_a_loader(self) -> None:
        maps = mappings(["00400000-00401000 r--p 00000000 fe:00 10                  /bin/static", "004a8000-004ad000 rw-p 00000000 00:00 0 ",
                         "04000000-04022000 rwxp 00000000 00:00 0 "])
        self.assertEqual([one.name for one in maps], ["static", "anonymous", "heap"])

    def test_places_of_valgrind(self) -> None:
        self.assertEqual(names_by_place(self.AREAS), {1: "heap", 3: "stack"})
        self.assertEqual(names_by_place([Area(0x400, 0x500, 1), Area(0x4000, 0x4001, 1), Area(0x7FFE0, 0x7FFE9, 1)]), {})

    def test_the_note(self) -> None:
        trace = b" L 00108000,4\n L 00000000048470f0,8\n S 1ffeffe000,4\n"
        self.assertIn("tools/picture.py: --label 2=stack\n", notes_of(trace, "--interval", "3"))
        with tempfile.TemporaryDirectory() as folder:
            path = Path(folder) / "maps"
            path.write_text(MAPS)
            notes = notes_of(trace, "--interval", "3", "--maps", str(path))
            self.assertIn("tools/picture.py: --label 0=sqlite3 --label 1=libc.so.6 --label 2=stack\n", notes)
            path.write_text(MAPS + "nothing\n")
            ran = run(TOOL, "--maps", str(path), text=trace)
            self.assertEqual((ran.returncode, b"maps: line 11: not a line of /proc/PID/maps" in ran.stderr), (2, True))


if __name__ == "__main__":
    unittest.main()
