#!/usr/bin/env python3
"""Tests of the table of the gate's times: how processes of the prover are told apart, and what is printed.

    tests/test_gate_times.py
"""
import contextlib
import io
import sys
import tempfile
import unittest
from pathlib import Path
from typing import Iterator, Tuple
from unittest import mock

import gate_times
from gate_times import Job, Process, Table, costs_of, job_of, lines_of, times_of

PROVER = "/opt/kit/bin/rattle"


class Jobs(unittest.TestCase):
    def test_a_proof_and_its_tests(self) -> None:
        words = [PROVER, "build", "--crate-name", "low", "src/lib.rt", "--incremental", "out/incremental"]
        self.assertEqual(job_of(words, "/top/crates/low"), Job("low", "proof"))
        self.assertEqual(job_of([*words, "--test"], "/top/crates/low"), Job("low", "tests"))

    def test_edits_and_what_they_begin_with(self) -> None:
        words = [PROVER, "check", "--crate-name", "low", "src/lib.rt"]
        self.assertEqual(job_of([*words, "--incremental", "/rt/a/seed"], "/rt/rt-edit-1/low"), Job("low", "base"))
        self.assertEqual(job_of([*words, "--incremental", "/rt/a/kept"], "/rt/rt-edit-1/low"), Job("low", "edits"))
        # A toolchain without a base of its own gives its edits no such folder.
        self.assertEqual(job_of(words, "/rt/rt-edit-1/low"), Job("low", "edits"))
        self.assertEqual(job_of([*words, "--incremental"], "/rt/rt-edit-1/low"), Job("low", "edits"))

    def test_other_processes_prove_nothing(self) -> None:
        for words in ([""], ["/bin/rattle-link", "--crate-name", "low"], [PROVER, "fmt"], [PROVER, "--crate-name"]):
            self.assertIsNone(job_of(words, "/top/crates/low"))


class Times(unittest.TestCase):
    def test_a_number_that_comes_again_is_another_process(self) -> None:
        begun = iter(range(100))

        def processes() -> Iterator[Tuple[int, Process, Job]]:
            number = next(begun)
            yield 7, Process(1, number, 2.0, 1_000 * (number % 2 + 1)), Job("low", "proof")
            yield 8, Process(1, 0, 1.0, 500), Job("low", "proof")

        # Long enough for two looks.
        command = [sys.executable, "-c", "import time; time.sleep(0.8)"]
        with mock.patch.object(gate_times, "processes", processes), mock.patch.object(gate_times, "is_below", return_value=True):
            times = times_of(command)
        self.assertEqual(times.seconds["low"]["proof"], 2.0 * next(begun) + 1.0)
        self.assertGreater(times.seconds["low"]["proof"], 3.0)
        # The memory is that of both processes, at the look where it was greatest.
        self.assertEqual(times.memory["low"]["proof"], 2_500)


class Printing(unittest.TestCase):
    def test_a_kind_that_was_not_seen_has_no_column(self) -> None:
        table: Table = {"low": {"proof": 12.0, "edits": 3.0}, "high": {"proof": 20.0}}
        memory: Table = {"low": {"proof": 1.5e9, "edits": 0.4e9}, "high": {"proof": 2.25e9}}
        self.assertEqual(list(lines_of(table, memory)), [
            "crate              proof   edits     all    GB   (seconds of processor time, greatest memory)",
            "high                  20       0      20   2.2",
            "low                   12       3      15   1.5",
            "all crates            32       3      35   2.2",
        ])
        self.assertEqual(list(costs_of(table, memory)), ["crate,seconds,gigabytes", "high,20,2.2", "low,12,1.5"])

    def test_a_command_without_proofs_gives_its_status_and_an_empty_table(self) -> None:
        said = io.StringIO()
        with contextlib.redirect_stdout(said):
            status = gate_times.main([sys.executable, "-c", "raise SystemExit(3)"])
        self.assertEqual(status, 3)
        self.assertIn("all crates             0       0   0.0", said.getvalue())


class Gate(unittest.TestCase):
    def test_the_gate_is_asked_to_begin_anew_only_where_it_can(self) -> None:
        for says, wanted in (("rt ci [--anew]  the gate", ["rt", "ci", "--anew"]), ("rt ci  the gate", ["rt", "ci"])):
            with tempfile.TemporaryDirectory() as folder:
                stand_in = Path(folder, "rt")
                stand_in.write_text(f"#!/bin/sh\necho '{says}'\n")
                stand_in.chmod(0o755)
                with mock.patch.dict("os.environ", {"PATH": f"{folder}:/usr/bin:/bin"}):
                    self.assertEqual(gate_times.gate(), wanted)


if __name__ == "__main__":
    unittest.main()
