#!/usr/bin/env python3
"""Tests of the runs of a search: a program is run as `subprocess` runs it, within a limit of time."""
from __future__ import annotations

import os
import signal
import subprocess
import tempfile
import time
import unittest
from pathlib import Path

from tool_runs import SECONDS

from searching.running import Ended, ran

BODIES = {
    "writes what it reads": "cat",
    "reads nothing": "echo end",
    "writes nothing": "cat > /dev/null",
    "fails with a reason": "echo line 5: bad attrs >&2; exit 3",
    "fails after a part of its report": "head -c 10; exit 7",
    "writes much to both": "head -c 3000000 /dev/zero | tr '\\0' x; head -c 200000 /dev/zero | tr '\\0' y >&2",
    "writes bytes that are not ASCII": "printf '\\377\\000\\344'",
    "is ended by a signal": "echo some; kill -9 $$",
    "is ended by a signal that Python ignores": "kill -PIPE $$",
    "says its command and a variable": 'echo "$# $1 $SEARCHED"',
    "says its open files": "ls /proc/$$/fd | head -c 6",
}
SCRIPTS = (b"a script\n", b"", b"a longer script\n" * 20_000)


class Programs(unittest.TestCase):
    """Each test has a folder for programs."""

    def setUp(self) -> None:
        folder = tempfile.TemporaryDirectory()
        self.addCleanup(folder.cleanup)
        self.folder = Path(folder.name)

    def program(self, name: str, body: str) -> str:
        path = self.folder / name.replace(" ", "-")
        path.write_text(f"#!/bin/sh\n{body}\n")
        path.chmod(0o755)
        return str(path)

    def ran(self, body: str, script: bytes = b"", seconds: float = SECONDS) -> Ended | None:
        return ran([self.program("program", body), "replay"], script, seconds)


class Running(Programs):
    def test_it_is_what_subprocess_gives(self) -> None:
        os.environ["SEARCHED"] = "f\xfcr"
        self.addCleanup(os.environ.pop, "SEARCHED")
        for name, body in BODIES.items():
            words = [self.program(name, body), "replay"]
            for script in SCRIPTS:
                with self.subTest(name=name, bytes=len(script)):
                    wanted = subprocess.run(words, input=script, capture_output=True, timeout=SECONDS)
                    given = ran(words, script, SECONDS)
                    assert given is not None
                    self.assertEqual(given.status, wanted.returncode)
                    self.assertEqual(given.report.encode("latin-1"), wanted.stdout)
                    self.assertEqual(given.errors.encode("latin-1"), wanted.stderr)

    def test_programs_that_cannot_be_run(self) -> None:
        (self.folder / "text").write_text("echo end\n")
        (self.folder / "closed").write_text("#!/bin/sh\n")
        (self.folder / "text").chmod(0o755)
        for name in ("nothing", "text", "closed", "."):
            path = str(self.folder / name)
            with self.assertRaises(OSError) as wanted:
                subprocess.run([path, "replay"])
            with self.assertRaises(OSError) as given:
                ran([path, "replay"], b"", SECONDS)
            self.assertEqual(given.exception.errno, wanted.exception.errno)

    def test_no_file_is_left_open(self) -> None:
        before = os.listdir("/proc/self/fd")
        self.ran("cat", b"some")
        self.ran("sleep 9", b"some", 0.1)
        self.assertEqual(os.listdir("/proc/self/fd"), before)


class Limits(Programs):
    def test_a_run_that_takes_too_long(self) -> None:
        since = time.monotonic()
        self.assertIsNone(self.ran("echo $$; exec sleep 30", seconds=0.2))
        self.assertGreaterEqual(time.monotonic() - since, 0.2)
        self.assertIsNotNone(self.ran("sleep 0.2", seconds=1e12))

    def test_it_is_gone_then(self) -> None:
        path = self.folder / "number"
        self.assertIsNone(self.ran(f"echo $$ > {path}; exec sleep 60", seconds=5.0))
        with self.assertRaises(ProcessLookupError):
            os.kill(int(path.read_text()), 0)

    def test_nobody_waits_for_what_it_started(self) -> None:
        since = time.monotonic()
        self.assertIsNone(self.ran("sleep 60 & sleep 60", seconds=0.2))
        self.assertEqual(self.ran("sleep 60 & echo end"), Ended(0, "end\n", ""))
        self.assertLess(time.monotonic() - since, 50)

    def test_an_interrupt_ends_the_run(self) -> None:
        path = self.folder / "number"
        before = signal.signal(signal.SIGALRM, self.interrupt)
        self.addCleanup(signal.signal, signal.SIGALRM, before)
        signal.setitimer(signal.ITIMER_REAL, 5.0)
        with self.assertRaises(KeyboardInterrupt):
            self.ran(f"echo $$ > {path}; exec sleep 60")
        with self.assertRaises(ProcessLookupError):
            os.kill(int(path.read_text()), 0)

    def interrupt(self, number: int, frame: object) -> None:
        raise KeyboardInterrupt


if __name__ == "__main__":
    unittest.main()
