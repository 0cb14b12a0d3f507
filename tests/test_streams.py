#!/usr/bin/env python3
"""Tests of the built programs over the streams of the system: each read and write that fails, streams that are closed
or full, readers that leave, input in small pieces, and little memory.

The statuses are clauses of the programs' top calls, and so is what was written. These tests look at the system's calls
below, and at the lines on standard error.
"""
import fcntl
import os
import shutil
import signal
import subprocess
import tempfile
import unittest
from pathlib import Path
from typing import Dict, Iterator, List, Mapping, NamedTuple, Optional, Tuple

from tool_runs import BUILT, TOP, need_program

DAMON, DAMOND = BUILT["damon"], BUILT["damond"]

OK, USAGE, READ_FAULT, WRITE_FAULT, MEMORY = 0, 2, 5, 6, 7
LINES = {OK: b"", READ_FAULT: b"reading failed\n", WRITE_FAULT: b"writing failed\n", MEMORY: b"out of memory\n"}
MIB = 1 << 20
# Bytes of a read or a write where each call shall move few, and where it shall move the least.
FEW, LEAST = 7, 1
ENTRIES = b"begin\n"
"""What the entries of a journal come after."""
# The call of Linux that sets the room of a pipe, which Python names from 3.10 on, and the least room.
F_SETPIPE_SZ = 1031
SMALL_PIPE = 4096
SECONDS = 60


def setUpModule() -> None:
    need_program(DAMON, DAMOND)


class Command(NamedTuple):
    program: Path
    words: List[str]
    text: bytes

    @property
    def line(self) -> List[str]:
        return [str(self.program), *self.words]


class Ended(NamedTuple):
    status: int
    stdout: bytes
    stderr: bytes


class Counted(NamedTuple):
    ended: Ended
    reads: int
    writes: int


def commands() -> Iterator[Command]:
    """Each command that reads, over an example."""
    script = (TOP / "examples/cold.damon").read_bytes()
    yield Command(DAMON, ["replay"], script)
    yield Command(DAMON, ["json"], script)
    yield Command(DAMON, ["reclaim"], script)
    yield Command(DAMON, ["tune", "0:cold:500:4096:81920"], script)
    yield Command(DAMON, ["admin"], (TOP / "examples/contexts.admin").read_bytes())
    journal = (TOP / "examples/live.journal").read_text()
    yield Command(DAMON, ["verify"], journal.encode())
    yield Command(DAMON, ["heat", "8"], aggregated(journal).encode())
    yield Command(DAMOND, ["run"], (TOP / "examples/live.damon").read_bytes())


def aggregated(journal: str) -> str:
    """The same journal with an aggregation after its pass."""
    for old, new in (("attrs 3 3 5", "attrs 3 3 1"), ("check 1 1", "check 1 1\naggregate 1 at 1"), ("count=1 last=0", "count=0 last=1")):
        journal = journal.replace(old, new)
    return journal


def long_report() -> Command:
    """A script whose report has some 650 KB."""
    shows = "step 10\nshow\n" * 600
    script = f"damon script 1\nseed 7\nunit 1\ncap 64\nattrs 8 64 4\ntarget 0x0 256\nrange 0 0x0 0x100000 0\nbegin\n{shows}end\n"
    return Command(DAMON, ["replay"], script.encode())


def run(command: Command, line: Optional[List[str]] = None, given: Mapping[str, str] = {}) -> Ended:
    done = subprocess.run(line or command.line, input=command.text, capture_output=True, timeout=SECONDS, env={**os.environ, **given})
    return Ended(done.returncode, done.stdout, done.stderr)


def in_shell(redirection: str, command: Command) -> List[str]:
    """The command with a redirection of the shell, such as the closing of a stream, and nothing else between."""
    return ["sh", "-c", f'{redirection}; exec "$@"', "sh", *command.line]


class Streams(unittest.TestCase):
    def assert_ended(self, ended: Ended, status: int) -> None:
        self.assertEqual(ended.status, status)
        self.assertEqual(ended.stderr, LINES[status])


@unittest.skipUnless(shutil.which("cc"), "there is no cc")
class FailingCalls(Streams):
    def setUp(self) -> None:
        folder = tempfile.TemporaryDirectory()
        self.addCleanup(folder.cleanup)
        self.library = Path(folder.name) / "trouble_streams.so"
        self.calls = Path(folder.name) / "calls.txt"
        source = TOP / "tests/trouble_streams.c"
        subprocess.run(["cc", "-O2", "-shared", "-fPIC", "-o", str(self.library), str(source)], check=True)

    def count(self, command: Command, **trouble: int) -> Counted:
        self.calls.unlink(missing_ok=True)
        given: Dict[str, str] = {name: str(number) for name, number in trouble.items()}
        ended = run(command, given={"LD_PRELOAD": str(self.library), "CALLS": str(self.calls), **given})
        reads, writes = map(int, self.calls.read_text().split())
        return Counted(ended, reads, writes)

    def pieces(self) -> Iterator[Tuple[Command, int]]:
        """Each command with few bytes a call, and a small script with one byte a call."""
        for command in commands():
            yield command, FEW
        yield Command(DAMON, ["replay"], (TOP / "examples/first.damon").read_bytes()), LEAST

    def test_small_pieces_change_nothing(self) -> None:
        for command, most in self.pieces():
            with self.subTest(command.words, most=most):
                counted = self.count(command, MOST_BYTES=most)
                self.assert_ended(counted.ended, OK)
                self.assertEqual(counted.reads, -(-len(command.text) // most) + 1)
                self.assertEqual(counted.writes, -(-len(counted.ended.stdout) // most))
                if command.program == DAMON:
                    self.assertEqual(counted.ended.stdout, run(command).stdout)

    def test_each_read_that_fails(self) -> None:
        """No read follows a read that failed, and nothing is written."""
        for command, most in self.pieces():
            for at in range(1, self.count(command, MOST_BYTES=most).reads + 1):
                with self.subTest(command.words, most=most, at=at):
                    counted = self.count(command, MOST_BYTES=most, READ_FAILS_AT=at)
                    self.assert_ended(counted.ended, READ_FAULT)
                    self.assertEqual((counted.reads, counted.writes), (at, 0))
                    self.assertEqual(counted.ended.stdout, b"")

    def test_each_write_that_fails(self) -> None:
        """No write follows a write that failed, and what the earlier ones took is the first part of the whole."""
        for command, most in self.pieces():
            whole = self.count(command, MOST_BYTES=most)
            # In threads each run may write another journal; the lines of its setup are the same.
            last = whole.writes if command.program == DAMON else (whole.ended.stdout.index(ENTRIES) + len(ENTRIES)) // most + 1
            for at in range(1, last + 1):
                with self.subTest(command.words, most=most, at=at):
                    counted = self.count(command, MOST_BYTES=most, WRITE_FAILS_AT=at)
                    self.assert_ended(counted.ended, WRITE_FAULT)
                    self.assertEqual((counted.reads, counted.writes), (whole.reads, at))
                    self.assertEqual(counted.ended.stdout, whole.ended.stdout[: (at - 1) * most])


class EndsOfStreams(Streams):
    def test_standard_input_is_closed(self) -> None:
        for command in commands():
            with self.subTest(command.words):
                ended = run(command, in_shell("exec <&-", command))
                self.assert_ended(ended, READ_FAULT)
                self.assertEqual(ended.stdout, b"")

    def test_gen_reads_nothing(self) -> None:
        command = Command(DAMON, ["gen", "6"], b"")
        self.assertEqual(run(command, in_shell("exec <&-", command)), run(command))

    def test_standard_output_is_closed_or_full(self) -> None:
        for command in commands():
            for redirection in ("exec >&-", "exec >/dev/full"):
                with self.subTest(command.words, redirection=redirection):
                    self.assert_ended(run(command, in_shell(redirection, command)), WRITE_FAULT)

    def test_standard_error_is_closed(self) -> None:
        """The status is what it would be."""
        for command in commands():
            with self.subTest(command.words):
                self.assertEqual(run(command, in_shell("exec 2>&-", command)).status, OK)
                self.assertEqual(run(command, in_shell("exec >/dev/full 2>&-", command)).status, WRITE_FAULT)
                wrong = Command(command.program, ["--help"], b"")
                self.assertEqual(run(wrong, in_shell("exec 2>&-", wrong)).status, USAGE)

    def test_a_folder_is_no_input(self) -> None:
        for command in commands():
            with self.subTest(command.words):
                self.assert_ended(run(command, in_shell("exec </", command)), READ_FAULT)

    def read_some(self, command: Command, some: int) -> Ended:
        """Runs a command whose reader reads some bytes, and leaves."""
        reader, writer = os.pipe()
        fcntl.fcntl(writer, F_SETPIPE_SZ, SMALL_PIPE)
        with tempfile.TemporaryFile() as source:
            source.write(command.text)
            source.seek(0)
            with subprocess.Popen(command.line, stdin=source, stdout=writer, stderr=subprocess.PIPE) as child:
                os.close(writer)
                got = b""
                while len(got) < some and (piece := os.read(reader, some - len(got))):
                    got += piece
                os.close(reader)
                _, errors = child.communicate(timeout=SECONDS)
        return Ended(child.returncode, got, errors)

    def test_the_reader_leaves(self) -> None:
        command = long_report()
        whole = run(command).stdout
        for some in (0, *range(1, len(whole) - 2 * SMALL_PIPE, 1777), len(whole) - SMALL_PIPE - 1):
            with self.subTest(some=some):
                ended = self.read_some(command, some)
                self.assert_ended(ended, WRITE_FAULT)
                self.assertEqual(ended.stdout, whole[:some])

    def test_input_that_comes_slowly(self) -> None:
        """A byte at a time through a pipe; between two of them the program is stopped, and goes on."""
        for command in commands():
            with self.subTest(command.words):
                with subprocess.Popen(command.line, stdin=subprocess.PIPE, stdout=subprocess.PIPE, stderr=subprocess.PIPE, bufsize=0) as child:
                    assert child.stdin
                    for at, byte in enumerate(command.text):
                        child.stdin.write(bytes([byte]))
                        if at % 50 == 0:
                            child.send_signal(signal.SIGSTOP)
                            child.send_signal(signal.SIGCONT)
                    written, errors = child.communicate(timeout=SECONDS)
                self.assert_ended(Ended(child.returncode, written, errors), OK)
                if command.program == DAMON:
                    self.assertEqual(written, run(command).stdout)


class LittleMemory(Streams):
    """The address space of a run is limited. With 2 MiB the system itself cannot load a program."""

    def test_runs_end_with_ok_or_memory(self) -> None:
        wide = b"damon script 1\nseed 7\nunit 1\ncap 4096\nattrs 1000 4096 4\ntarget 0x0 1048576\nrange 0 0x0 0x100000000 0\nbegin\n"
        touches = b"".join(b"touch 0 0x%x\n" % (page << 12) for page in range(100_000))
        large = Command(DAMON, ["replay"], wide + b"arm\n" + touches + b"finish\nshow\nend\n")
        for command in (*commands(), large):
            ends = []
            for limit in range(4, 65):
                with self.subTest(command.words, limit=limit):
                    ended = run(command, in_shell(f"ulimit -v {limit * MIB // 1024}", command))
                    self.assertIn(ended.status, (OK, MEMORY))
                    self.assert_ended(ended, ended.status)
                    ends.append(ended)
            whole = run(command)
            if command.program == DAMON:
                self.assertTrue(all(whole.stdout.startswith(ended.stdout) for ended in ends))
            self.assertEqual(ends[-1].status, OK)


if __name__ == "__main__":
    unittest.main()
