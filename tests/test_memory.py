#!/usr/bin/env python3
"""Tests of what a run allocates: nothing for its passes and aggregations, and for its commits only what the script needs."""
import shutil
import tempfile
import unittest
from pathlib import Path

from refuse_memory import DAMON, MEMORY, OK, Refuser, Run, fault_of
from tool_runs import need_program

HEAD = (
    "damon script 1\nseed 7\nunit 1\ncap 64\nattrs 8 64 4\ntarget 0x0 256\nrange 0 0x0 0x100000 0\n"
    "scheme 0 pageout age=1,4294967295 quota=40960,8\nbegin\nsweep 0 0x0 0x20000\n"
)
COMMIT = "commit\nmetric 5\napply\nstep 200\n"


def setUpModule() -> None:
    need_program(DAMON)


def replay(body: str) -> Run:
    return Run("a script", DAMON, ["replay"], f"{HEAD}{body}end\n".encode())


@unittest.skipUnless(shutil.which("cc"), "there is no cc")
class Allocations(unittest.TestCase):
    def setUp(self) -> None:
        folder = tempfile.TemporaryDirectory()
        self.addCleanup(folder.cleanup)
        self.refuser = Refuser(Path(folder.name))

    def test_passes_and_aggregations_take_none(self) -> None:
        """The buffer of the report grows up to its 64 KiB, so both runs write more than that."""
        few, many = (self.refuser.count(replay(f"step {steps}\n")) for steps in (100_000, 200_000))
        self.assertEqual(few, many)

    def test_a_commit_takes_its_place_in_the_script(self) -> None:
        """One for each commit that is read, and the list of commands grows; the commits themselves take none."""
        few, many = (self.refuser.count(replay("step 100000\n" + COMMIT * commits)) for commits in (100, 300))
        self.assertIn(many - few - 200, range(8))

    def test_each_refusal_ends_with_memory_or_ok(self) -> None:
        run = replay("step 1000\nshow\n")
        whole = self.refuser.end(run, 0)
        for at in range(1, self.refuser.count(run) + 1):
            with self.subTest(at=at):
                end = self.refuser.end(run, at)
                self.assertIn(end.status, (OK, MEMORY))
                self.assertIsNone(fault_of(run, whole, end))


if __name__ == "__main__":
    unittest.main()
