#!/usr/bin/env python3
"""Tests of the built program `damond`: its statuses and lines, and that each journal is one of its script.

What a journal must be is proved; these tests look at what no contract says, such as lines on standard error, and
at whole texts of runs whose order nobody gave.
"""
import os
import subprocess
import sys
import unittest
from contextlib import contextmanager
from typing import Dict, Iterator, List, Tuple

from tool_runs import BUILT, TOP, need_program

DAMOND = BUILT["damond"]

EXAMPLE = TOP / "examples/live.damon"
WORKERS = TOP / "examples/workers.damon"
PAGE = 4096
HEAD = "damon live 1\nseed 1\nunit 1\ncap 8\nattrs 3 8 2\ntarget 0x0 64\nrange 0 0x0 0x40000 0\n"
WORKER = "worker\nsweep 0 0x0 0x10000\ntouch 0 0x20000\nsweep 0 0x0 0x10000\n"
CONTROLLER = "controller\nshow\ncommit\nattrs 3 4 1\napply\nshow\ncommit\nrange 0 0x0 0x20000 1\napply\n"


def setUpModule() -> None:
    need_program(DAMOND)


def run(script: str, *words: str) -> Tuple[int, str, str]:
    done = subprocess.run([str(DAMOND), *(words or ("run",))], input=script, capture_output=True, text=True, timeout=60)
    return done.returncode, done.stdout, done.stderr


class Asked:
    """What a live script asks for: its passes, the pages of each worker, and how many calls each controller makes."""

    def __init__(self, script: str) -> None:
        self.workers: List[List[str]] = []
        self.calls: List[int] = []
        for words in (line.split(" ") for line in script.splitlines()):
            if words[0] == "passes":
                self.passes = int(words[1])
            elif words[0] == "worker":
                self.workers.append([])
            elif words[0] == "controller":
                self.calls.append(0)
            elif words[0] == "touch":
                self.workers[-1].append(f"{words[1]} {int(words[2], 16) // PAGE * PAGE:#x}")
            elif words[0] == "sweep":
                pages = range(int(words[2], 16), int(words[3], 16), PAGE)
                self.workers[-1] += [f"{words[1]} {page:#x}" for page in pages]
            elif words[0] in ("show", "apply"):
                self.calls[-1] += 1


def setup_of(script: str) -> List[str]:
    lines = script.splitlines()
    return lines[1 : next(at for at, line in enumerate(lines) if line.startswith("passes "))]


class Journals(unittest.TestCase):
    def check(self, script: str) -> None:
        status, journal, errors = run(script)
        self.assertEqual((status, errors), (0, ""))
        asked = Asked(script)
        lines = journal.splitlines()
        begin, receipts, settled = (lines.index(line) for line in ("begin", "receipts", "settled"))
        self.assertEqual(lines[0], script.split("\n", 1)[0].replace("live", "journal"))
        self.assertEqual(lines[1:begin], setup_of(script))
        entries = [line.split(" ") for line in lines[begin + 1 : receipts]]
        prepared = [int(words[1]) for words in entries if words[0] == "prepare"]
        self.assertEqual(prepared, list(range(1, asked.passes + 1)))
        ended = [int(words[1]) for words in entries if words[0] in ("check", "void")]
        self.assertEqual(ended, prepared)
        made: Dict[int, List[int]] = {}
        for words in entries:
            if words[0] == "call":
                made.setdefault(int(words[1]), []).append(int(words[2]))
        self.assertEqual([made.get(at, []) for at in range(len(asked.calls))], [[*range(n)] for n in asked.calls])
        seen: List[List[str]] = [[] for _ in asked.workers]
        for line in lines[receipts + 1 : settled]:
            _, worker, target, address, tag = line.split(" ")
            seen[int(worker)].append(f"{target} {address}")
            self.assertLessEqual(int(tag), asked.passes)
        self.assertEqual(seen, asked.workers)
        hits = sum(words[2].count("1") for words in entries if words[0] == "check")
        checks = sum(len(words[2]) for words in entries if words[0] == "check")
        self.assertIn(f" checks={checks} hits={hits}", lines[-1])

    def test_the_example(self) -> None:
        for _ in range(20):
            self.check(EXAMPLE.read_text())

    def test_workers_and_controllers(self) -> None:
        for workers, controllers in ((0, 0), (1, 0), (0, 1), (2, 2), (16, 4)):
            with self.subTest(workers=workers, controllers=controllers):
                for _ in range(5):
                    self.check(f"{HEAD}passes 50\n{WORKER * workers}{CONTROLLER * controllers}end\n")

    def test_one_processor(self) -> None:
        before = os.sched_getaffinity(0)
        try:
            os.sched_setaffinity(0, {min(before)})
            self.check(f"{HEAD}passes 50\n{WORKER * 4}{CONTROLLER * 2}end\n")
        finally:
            os.sched_setaffinity(0, before)


@contextmanager
def busy_machine() -> Iterator[None]:
    """Two busy processes for each processor."""
    spinning = [subprocess.Popen([sys.executable, "-c", "while True: pass"]) for _ in range(2 * (os.cpu_count() or 1))]
    try:
        yield
    finally:
        for process in spinning:
            process.kill()
            process.wait()


class Found(unittest.TestCase):
    """That passes find touches, however busy the machine is: they are spread over them."""

    RUNS = 20
    # The least number of them that have hits.
    MOST = 15
    # Three workers touch each of 16 pages: fewer touches than passes.
    FEW = (
        "damon live 1\nseed 1\nunit 1\ncap 8\nattrs 3 8 2\ntarget 0x0 16\nrange 0 0x0 0x10000 0\npasses 200\n"
        + "worker\nsweep 0 0x0 0x10000\n" * 3
        + "end\n"
    )

    def hits(self, script: str) -> List[int]:
        """How many hits each of some runs has."""
        ends = [run(script)[1].rsplit("\n", 2)[1] for _ in range(self.RUNS)]
        return [int(end.rpartition("hits=")[2]) for end in ends]

    def test_on_a_busy_machine(self) -> None:
        with busy_machine():
            for name, script in (("workers", WORKERS.read_text()), ("live", EXAMPLE.read_text()), ("few touches", self.FEW)):
                with self.subTest(script=name):
                    found = self.hits(script)
                    # A system may still run one thread to its end before another one begins.
                    self.assertGreaterEqual(sum(1 for hits in found if hits), self.MOST, found)

    def test_on_one_processor(self) -> None:
        before = os.sched_getaffinity(0)
        try:
            os.sched_setaffinity(0, {min(before)})
            found = self.hits(WORKERS.read_text())
        finally:
            os.sched_setaffinity(0, before)
        self.assertGreaterEqual(sum(1 for hits in found if hits), self.MOST, found)


class Refusals(unittest.TestCase):
    def refused(self, script: str, status: int, line: str, *words: str) -> None:
        self.assertEqual(run(script, *words), (status, "", line + "\n"))

    def test_words(self) -> None:
        for words in (("Run",), ("replay",), ("run", "run"), ("--help",), ("",)):
            self.refused("", 2, "usage: damond run", *words)

    def test_scripts(self) -> None:
        body = f"{HEAD}passes 1\n"
        for script, line in (
            ("", "line 1: input ends early"),
            ("damon script 1\n", "line 1: no header"),
            (HEAD, "line 8: input ends early"),
            (f"{HEAD}passes 0\n", "line 8: out of limit"),
            (f"{HEAD}passes 1000001\n", "line 8: out of limit"),
            (f"{HEAD}begin\n", "line 8: unexpected word"),
            (body + "worker\n" * 17 + "end\n", "line 25: out of limit"),
            (body + "controller\n" * 5 + "end\n", "line 13: out of limit"),
            (f"{body}worker\ntouch 0 0x40000\nend\n", "line 10: outside span"),
            (f"{body}controller\nworker\nend\n", "line 10: unexpected word"),
            (f"{body}end\nx", "line 10: text after end"),
        ):
            with self.subTest(line=line):
                self.refused(script, 3, line)

    def test_the_most_touches_and_calls(self) -> None:
        # The line before the one that is named was taken, so as many as the limit says may stand there.
        head = HEAD.replace("target 0x0 64", "target 0x0 1048576")
        touches = f"{head}passes 1\nworker\nsweep 0 0x0 0x100000000\ntouch 0 0x0\n"
        self.refused(touches, 3, "line 11: too much work")
        two_workers = f"{head}passes 1\nworker\nsweep 0 0x0 0xfffff000\nworker\ntouch 0 0x0\ntouch 0 0x0\n"
        self.refused(two_workers, 3, "line 13: too much work")
        calls = f"{HEAD}passes 1\ncontroller\n" + "show\n" * 65537
        self.refused(calls, 3, "line 65546: too much work")

    def test_a_long_input(self) -> None:
        self.refused("x" * 16_777_217, 4, "input is longer than 16777216 bytes")

    def test_too_many_passes(self) -> None:
        many = HEAD.replace("cap 8", "cap 4096")
        self.assertEqual(run(f"{many}passes 1024\nend\n")[0], 0)
        self.refused(f"{many}passes 1025\nend\n", 9, "passes times cap is above 4194304")


if __name__ == "__main__":
    unittest.main()
