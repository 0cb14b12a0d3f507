#!/usr/bin/env python3
"""Tests of traces that are read once: what --keep writes, and what is made of it; interrupts, and archives that are cut."""
from __future__ import annotations

import gzip
import hashlib
import json
import lzma
import os
import signal
import subprocess
import sys
import tempfile
import time
import unittest
from pathlib import Path

from tool_runs import PROGRAM, SECONDS, TOOLS, TOP, Refusals, need_program, notes_of, random_trace, run, script_of

from tracing.forms import FORMS
from tracing.source import Interrupt

TOOL, COUNTS = "trace_to_script.py", "exact_counts.py"
CUT = "the archive of the trace is cut off: what it has was taken"
STOPPED = "the reading was stopped by an interrupt; the program that writes the trace may go on until it is ended by its number"


def setUpModule() -> None:
    need_program()


class Folders(unittest.TestCase):
    """Each test has a folder."""

    def setUp(self) -> None:
        folder = tempfile.TemporaryDirectory()
        self.addCleanup(folder.cleanup)
        self.folder = Path(folder.name)
        self.kept = str(self.folder / "a.cut")

    def keep(self, trace: bytes, *words: str) -> None:
        script_of(trace, "--keep", self.kept, *words)


class Kept(Folders):
    def same(self, trace: bytes, *words: str) -> None:
        """The script and the exact counts of the kept trace are those of the trace."""
        whole = tuple(word for word in words if word not in ("--fetches", "--loads", "--stores"))
        self.assertEqual(script_of(b"", self.kept, *whole), script_of(trace, *words))
        given, wanted = run(COUNTS, self.kept, *whole), run(COUNTS, *words, text=trace)
        self.assertEqual((given.returncode, given.stdout), (0, wanted.stdout), given.stderr)

    def test_scripts_and_counts_are_those_of_the_trace(self) -> None:
        for seed in range(4):
            trace = random_trace(seed, 3000)
            self.keep(trace, "--interval", "60", "--grain", str(5 * (seed + 1)))
            for interval in (60, 120, 300, 5000 * 60):
                with self.subTest(seed=seed, interval=interval):
                    self.same(trace, "--interval", str(interval), "--aggr", "3", "--gap", str(5 * seed))

    def test_all_clocks_and_forms(self) -> None:
        trace = random_trace(7, 2000)
        for kind in ("--fetches", "--loads"):
            self.keep(trace, "--clock", "instructions", "--interval", "8", "--grain", "4", kind)
            self.same(trace, "--clock", "instructions", "--interval", "20", "--aggr", "4", kind)
        for form in FORMS:
            trace = (TOP / f"tests/traces/{form}.trace").read_bytes()
            self.keep(trace, "--interval", "1")
            self.same(trace, "--interval", "3", "--form", form)
            self.assertIn("left out 1 access at addresses that are not below 2^47", notes_of(b"", "--interval", "3", self.kept))
        self.keep(trace, "--clock", "microseconds", "--interval", "500")
        self.same(trace, "--clock", "microseconds", "--interval", "1000", "--aggr", "2")

    def test_names_by_maps(self) -> None:
        trace = b" L 00108000,4\n L 00000000048470f0,8\n S 1ffeffe000,4\n"
        (self.folder / "maps").write_text("00108000-00110000 r--p 00000000 fe:00 248066                             /usr/bin/sqlite3\n")
        self.keep(trace, "--interval", "1")
        self.assertIn("--label 0=sqlite3\n", notes_of(b"", "--interval", "3", "--maps", str(self.folder / "maps"), self.kept))
        self.assertIn("--label 2=stack\n", notes_of(b"", "--interval", "3", self.kept))

    def test_fit(self) -> None:
        trace = random_trace(8, 60_000)
        words = ("--fit", "--min", "3", "--cap", "4096")
        self.keep(trace, "--interval", "1", *words)
        length = json.loads(Path(self.kept).read_bytes().split(b"\n", 3)[2])["length"]
        self.assertEqual(script_of(b"", self.kept, *words), script_of(trace, "--interval", str(length), *words))

    def test_the_hash_is_that_of_the_trace(self) -> None:
        trace = random_trace(1, 400)
        path = self.folder / "a.gz"
        path.write_bytes(gzip.compress(trace))
        for words, text, whole in (((), trace, trace), ((str(path),), b"", path.read_bytes())):
            self.keep(text, "--interval", "9", *words)
            said = json.loads(Path(self.kept).read_bytes().split(b"\n", 3)[2])
            self.assertEqual(said["hash"], hashlib.sha256(whole).hexdigest())

    def test_a_script_with_too_much_work_does_not_lose_the_trace(self) -> None:
        trace = random_trace(1, 60_000)
        ran = run(TOOL, "--interval", "1", "--cap", "4096", "--keep", self.kept, text=trace)
        self.assertEqual((ran.returncode, ran.stdout), (2, b""))
        self.assertIn(f"need more: use --fit, a larger --interval or a smaller --cap (the trace is kept in {self.kept})", ran.stderr.decode())
        self.same(trace, "--interval", "100")

    def test_it_is_small_and_the_note_says_so(self) -> None:
        notes = notes_of(random_trace(1, 3000), "--interval", "100", "--grain", "50", "--keep", self.kept)
        self.assertLess(Path(self.kept).stat().st_size, 20_000)
        self.assertRegex(notes, r"note: kept \d+ intervals of 50, which can take the place of the trace\n")
        self.assertEqual(os.listdir(self.folder), ["a.cut"])


class Errors(Refusals, Folders):
    def test_what_was_kept_otherwise(self) -> None:
        self.keep(random_trace(1, 900), "--interval", "20")
        for words, part in ((("--interval", "30"), "has intervals of 20: --interval must be a multiple"),
                            (("--interval", "20", "--clock", "instructions"), "was kept with 'accesses' for --clock, and not 'instructions'"),
                            (("--interval", "20", "--form", "perf"), "was kept with 'lackey' for --form, and not 'perf'"),
                            (("--interval", "20", "--loads"), "was kept with 'loads stores' for the kinds of accesses, and not 'loads'")):
            for tool in (TOOL, COUNTS):
                with self.subTest(tool=tool, words=words):
                    self.refused(tool, [self.kept, part], b"", *words, self.kept)

    def test_damaged_files(self) -> None:
        self.keep(random_trace(1, 900), "--interval", "20")
        whole = Path(self.kept).read_bytes()
        for place in (30, 90, 200, len(whole) - 5):
            for text in (whole[:place], whole[:place] + bytes([whole[place] ^ 1]) + whole[place + 1 :]):
                Path(self.kept).write_bytes(text)
                with self.subTest(place=place, bytes=len(text)):
                    self.refused(TOOL, [self.kept, "this kept trace is damaged"], b"", "--interval", "20", self.kept)

    def test_a_file_of_an_older_version(self) -> None:
        self.keep(random_trace(1, 900), "--interval", "20")
        whole = Path(self.kept).read_bytes()
        Path(self.kept).write_bytes(whole.replace(b"damon trace 2", b"damon trace 1", 1))
        self.refused(TOOL, [self.kept, "or of an older version: keep it again with --keep"], b"", "--interval", "20", self.kept)

    def test_options(self) -> None:
        trace = random_trace(1, 100)
        for words in (("--grain", "5"), ("--grain", "5", "--fit", "--keep", self.kept)):
            self.refused(TOOL, ["--grain is for --keep without --fit"], trace, *words)
        for grain in ("0", "7", "40"):
            self.refused(TOOL, ["--interval must be a multiple of --grain"], trace, "--interval", "20", "--grain", grain, "--keep", self.kept)
        self.refused(TOOL, ["No such file or directory"], trace, "--keep", "no-such-folder/a.cut")
        (self.folder / "a.trace").write_bytes(trace)
        self.refused(TOOL, ["--keep needs a file of its own"], b"", "--keep", self.kept.replace("a.cut", "./a.trace"), str(self.folder / "a.trace"))


class CutArchives(Folders):
    def test_what_is_there_is_taken(self) -> None:
        lines = random_trace(4, 30_000)
        for name, packed in (("a.xz", lzma.compress(lines)), ("a.gz", gzip.compress(lines))):
            path = self.folder / name
            path.write_bytes(packed[: len(packed) // 2])
            there = self.unpacked(packed[: len(packed) // 2])
            self.assertGreater(len(there), len(lines) // 4)
            with self.subTest(name=name):
                ran = run(TOOL, "--interval", "50", str(path))
                self.assertEqual(ran.stdout.decode(), script_of(there[: there.rindex(b"\n") + 1], "--interval", "50"))
                self.assertIn(f"note: {CUT}\n", ran.stderr.decode())

    def unpacked(self, packed: bytes) -> bytes:
        """What the packers themselves give of an archive that ends early."""
        words = ["xz", "-dc"] if packed.startswith(b"\xfd7zXZ") else ["gzip", "-dc"]
        return subprocess.run(words, input=packed, capture_output=True).stdout

    def test_archives_with_an_error_in_the_middle(self) -> None:
        for name, packed in (("a.xz", lzma.compress(random_trace(4, 30_000))), ("a.gz", gzip.compress(random_trace(4, 30_000)))):
            path = self.folder / name
            path.write_bytes(packed[:2000] + b"\xff" * 500 + packed[2500:])
            ran = run(TOOL, str(path))
            self.assertEqual((ran.returncode, ran.stdout, ran.stderr.count(b"\n")), (2, b"", 1), ran.stderr)
            self.assertIn(str(path).encode(), ran.stderr)


class Interrupts(Folders):
    """The program that writes the trace is this test, which goes on writing or waits."""

    def started(self, *words: str) -> subprocess.Popen[bytes]:
        # A command in the background of a shell ignores this signal, and so would what it starts.
        tool = subprocess.Popen([sys.executable, TOOLS / TOOL, *words], stdin=subprocess.PIPE, stdout=subprocess.PIPE, stderr=subprocess.PIPE,
                                preexec_fn=lambda: signal.signal(signal.SIGINT, signal.SIG_DFL), env={**os.environ, "DAMON": str(PROGRAM)})
        self.addCleanup(tool.wait)
        self.addCleanup(tool.kill)
        return tool

    def test_the_first_one_ends_the_reading(self) -> None:
        trace = b" L 00001000,4\n S 00005000,4\n" * 100_000
        tool = self.started("--interval", "1000", "--keep", self.kept)
        assert tool.stdin and tool.stdout and tool.stderr
        # A pipe does not hold so much, so the tool reads by then; and it waits for more.
        tool.stdin.write(trace)
        tool.stdin.flush()
        time.sleep(0.5)
        tool.send_signal(signal.SIGINT)
        # Standard input is still open.
        script, notes = tool.stdout.read(), tool.stderr.read().decode()
        tool.communicate(timeout=SECONDS)
        self.assertEqual((tool.returncode, script.decode()), (0, script_of(trace, "--interval", "1000")))
        self.assertIn(f"note: {STOPPED}\n", notes)
        self.assertIn(f"note: {STOPPED}\n", notes_of(b"", "--interval", "1000", self.kept))

    def test_the_second_one_ends_the_tool(self) -> None:
        before = signal.getsignal(signal.SIGINT)
        self.addCleanup(signal.signal, signal.SIGINT, before)
        signal.signal(signal.SIGINT, signal.default_int_handler)
        with self.assertRaises(KeyboardInterrupt), Interrupt() as interrupt:
            os.kill(os.getpid(), signal.SIGINT)
            self.assertTrue(interrupt.came)
            os.kill(os.getpid(), signal.SIGINT)
        self.assertIs(signal.getsignal(signal.SIGINT), signal.default_int_handler)

    def test_it_stays_ignored(self) -> None:
        before = signal.signal(signal.SIGINT, signal.SIG_IGN)
        self.addCleanup(signal.signal, signal.SIGINT, before)
        with Interrupt() as interrupt:
            os.kill(os.getpid(), signal.SIGINT)
            self.assertFalse(interrupt.came)

    def test_nothing_was_read(self) -> None:
        tool = self.started()
        assert tool.stdin
        tool.stdin.write(b"==1== Lackey\n" * 10_000)
        tool.stdin.flush()
        time.sleep(0.5)
        tool.send_signal(signal.SIGINT)
        said = tool.communicate(timeout=SECONDS)[1]
        self.assertEqual((tool.returncode, said), (2, b"trace_to_script.py: the trace has no access that is taken\n"))


if __name__ == "__main__":
    unittest.main()
