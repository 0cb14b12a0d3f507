#!/usr/bin/env python3
"""Tests of --cluster of tools/search.py and tools/study.py: a scheduler and two workers on this machine, one of which is killed half way.

The tools run with an interpreter that has dask.distributed: for Debian's `apt-get install python3-distributed` installs it.
Without one these tests are skipped.
"""
from __future__ import annotations

import json
import os
import pickle
import signal
import subprocess
import sys
import tempfile
import time
import unittest
from pathlib import Path
from typing import Callable

from tool_runs import DEBIANS_PYTHON, PROGRAM, SECONDS, TOOLS, TOP, Refusals, interpreter_with, need_program, random_trace, run

from searching.cluster import Sent, archive, has_package
from searching.plan import plan_of
from searching.points import Points
from searching.runs import Inputs, row_of
from searching.traces import trace_workloads

TOOL = "search.py"
PLAN = """\
traces = ["a.trace"]
schemes = ["scheme 0 pageout count=0,0 age={age},4294967295 prefer=cold"]
[settings]
interval = [10, 20]
max = { from = 9, to = 18 }
aggr = [2, 5]
seed = [1, 2]
[values]
age = [1, 3]
"""
RUNS = 160
SMALLEST = "sort"
"""The program of the study whose runs are made again."""


def setUpModule() -> None:
    need_program()


class WithoutIt(Refusals):
    def test_the_tool_says_which_interpreter_to_use(self) -> None:
        if has_package(sys.executable):
            self.skipTest(f"{sys.executable} has dask.distributed")
        with tempfile.TemporaryDirectory() as folder:
            # There is no trace: it would be read after this.
            plan = Path(folder) / "plan.toml"
            plan.write_text(PLAN)
            wanted = f"run {DEBIANS_PYTHON} tools/search.py" if has_package(DEBIANS_PYTHON) else "apt-get install python3-distributed"
            self.refused(TOOL, [wanted], b"", str(plan), str(Path(folder) / "a.csv"), "--cluster", "127.0.0.1:1")


class Cluster(unittest.TestCase):
    @classmethod
    def setUpClass(cls) -> None:
        if interpreter_with("distributed") is None:
            raise unittest.SkipTest("no python3 has dask.distributed (Debian's python3-distributed): search.py --cluster was not tested")

    def setUp(self) -> None:
        folder = tempfile.TemporaryDirectory()
        self.addCleanup(folder.cleanup)
        self.folder = Path(folder.name)
        self.plan = self.folder / "plan.toml"
        self.plan.write_text(PLAN)
        (self.folder / "a.trace").write_bytes(random_trace(1, 1500))

    def server(self, name: str, *words: str) -> subprocess.Popen[bytes]:
        """A scheduler or a worker, which is ended with the test."""
        with open(self.folder / f"{name}.log", "ab") as log:
            found = subprocess.Popen([interpreter_with("distributed") or "", "-m", f"distributed.cli.{name}", *words], stdout=log, stderr=log,
                                     cwd=self.folder)
        self.addCleanup(found.wait)
        self.addCleanup(found.kill)
        return found

    def scheduler(self) -> str:
        """The address of a new scheduler on a loopback address."""
        path = self.folder / "scheduler.json"
        self.server("dask_scheduler", "--host", "127.0.0.1", "--port", "0", "--no-dashboard", "--scheduler-file", str(path))
        self.wait_until(lambda: path.exists() and path.read_text().endswith("}"))
        address: str = json.loads(path.read_text())["address"]
        return address

    def worker(self, address: str) -> subprocess.Popen[bytes]:
        return self.server("dask_worker", address, "--no-nanny", "--nthreads", "1", "--no-dashboard", "--local-directory",
                           str(self.folder))

    def wait_until(self, is_so: Callable[[], bool]) -> None:
        end = time.monotonic() + SECONDS
        while not is_so():
            self.assertLess(time.monotonic(), end)
            time.sleep(0.02)

    def workers_known(self) -> int:
        return (self.folder / "dask_scheduler.log").read_text().count("Register worker")

    def slow_program(self) -> Path:
        path = self.folder / "program"
        path.write_text(f'#!/bin/sh\nsleep 0.05\nexec {PROGRAM} "$@"\n')
        path.chmod(0o755)
        return path

    def test_a_worker_that_is_killed(self) -> None:
        one = self.folder / "one.csv"
        ran = run(TOOL, str(self.plan), str(one))
        self.assertEqual(ran.returncode, 0, ran.stderr)
        self.assertEqual(one.read_bytes().count(b"\n"), RUNS + 1)
        address = self.scheduler()
        first, second = self.worker(address), self.worker(address)
        self.wait_until(lambda: self.workers_known() == 2)
        two = self.folder / "two.csv"
        words = [interpreter_with("distributed") or "", str(TOOLS / TOOL), str(self.plan), str(two), "--cluster", address]
        with subprocess.Popen(words, stderr=subprocess.PIPE, env={**os.environ, "DAMON": str(self.slow_program())}) as tool:
            self.wait_until(lambda: two.exists() and two.read_bytes().count(b"\n") > RUNS // 4)
            first.send_signal(signal.SIGKILL)
            rows = two.read_bytes().count(b"\n") - 1
            said = tool.communicate(timeout=SECONDS)[1]
        self.assertEqual(tool.returncode, 0, said)
        self.assertLess(rows, RUNS)
        self.assertIsNone(second.poll())
        self.assertEqual(two.read_bytes(), one.read_bytes())
        self.goes_on_with_two_workers(address, one.read_bytes())

    def goes_on_with_two_workers(self, address: str, whole: bytes) -> None:
        """A third worker comes later, and a file that is cut is made whole."""
        self.worker(address)
        self.wait_until(lambda: self.workers_known() == 3)
        cut = self.folder / "cut.csv"
        cut.write_bytes(whole[: len(whole) // 2])
        ran = subprocess.run([interpreter_with("distributed") or "", TOOLS / TOOL, self.plan, cut, "--cluster", address], capture_output=True,
                             timeout=SECONDS, env={**os.environ, "DAMON": str(PROGRAM)})
        self.assertEqual((ran.returncode, cut.read_bytes()), (0, whole), ran.stderr)
        # Each program has the name of its hash on the workers.
        self.assertEqual(len({path.name for path in self.folder.rglob("damon-*")}), 2)

    def test_errors(self) -> None:
        address = self.scheduler()
        ran = subprocess.run([interpreter_with("distributed") or "", TOOLS / TOOL, self.plan, self.folder / "a.csv", "--cluster", address],
                             capture_output=True, timeout=SECONDS, env={**os.environ, "DAMON": str(PROGRAM)})
        said = ran.stderr.decode().splitlines()
        self.assertEqual((ran.returncode, said[0]), (2, f"search.py: --cluster {address}: the scheduler has no worker"))
        # On a busy machine dask.distributed says behind it that it waited too long for its own end.
        self.assertNotIn("Traceback", "\n".join(said))

    def test_a_study(self) -> None:
        """The runs of two plans on a program come back as the rows that are kept."""
        address = self.scheduler()
        self.worker(address)
        self.worker(address)
        self.wait_until(lambda: self.workers_known() == 2)
        words = ["--programs", str(TOP / f"study/traces/{SMALLEST}.cut"), "--plan", "fixed", "--plan", "goals", "--out", str(self.folder)]
        ran = subprocess.run([interpreter_with("distributed") or "", TOOLS / "study.py", *words, "--cluster", address], capture_output=True,
                             timeout=SECONDS, env={**os.environ, "DAMON": str(PROGRAM)})
        self.assertEqual(ran.returncode, 0, ran.stderr)
        for name in ("programs", "fixed", "goals"):
            header, *kept = (TOP / f"study/results/{name}.csv").read_text().splitlines()
            at = header.split(",").index("program")
            wanted = [line for line in kept if line.split(",")[at] == SMALLEST]
            self.assertGreater(len(wanted), 0)
            self.assertEqual((self.folder / f"results/{name}.csv").read_text().splitlines(), [header, *wanted])


class Sending(unittest.TestCase):
    def test_what_workers_are_sent_makes_the_same_rows(self) -> None:
        with tempfile.TemporaryDirectory() as folder:
            path = Path(folder) / "plan.toml"
            path.write_text(PLAN)
            (Path(folder) / "a.trace").write_bytes(random_trace(1, 1500))
            plan = plan_of(str(path))
            points = Points(plan, None, 1)
            workloads = dict(trace_workloads(plan, "a.trace", points.keys(True)["a.trace"]))
        sent = Sent(Inputs(plan, points, workloads, str(PROGRAM.resolve()), SECONDS), b"")
        for _ in range(2):
            # The second time what runs left behind is sent too.
            copy = pickle.loads(pickle.dumps(sent))
            rows = [[row_of(one.inputs, number) for number in range(27, 33)] for one in (sent, copy)]
            self.assertEqual(rows[0], rows[1])
            self.assertEqual([row[-1] for row in rows[0]], ["ok"] * 6)


class Archive(unittest.TestCase):
    def test_its_name_is_that_of_its_content(self) -> None:
        with tempfile.TemporaryDirectory() as folder, tempfile.TemporaryDirectory() as other:
            self.assertEqual(archive(Path(folder)).name, archive(Path(other)).name)


if __name__ == "__main__":
    unittest.main()
