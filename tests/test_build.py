#!/usr/bin/env python3
"""Tests of the build that `./damon` starts, over small crates and with a stand-in for `rt` that proves nothing.

    tests/test_build.py
"""
import json
import os
import shutil
import subprocess
import sys
import tempfile
import unittest
from pathlib import Path
from typing import Dict, List, NamedTuple

TOP = Path(__file__).resolve().parent.parent

# It notes when it began and ended, and with how many jobs. `lib` fails if a crate below is not built, and `run`
# builds it, as `rt` does. The crates of MEET wait for each other, and fail if they are not built at the same time.
RT = """#!/usr/bin/env python3
import json, os, pathlib, sys, time
here = pathlib.Path.cwd()
def meet(names):
    folder = pathlib.Path(os.environ["NOTES"]).parent
    if name in names:
        (folder / f"begun-{name}").touch()
        while not all((folder / f"begun-{it}").exists() for it in names):
            if time.monotonic() > begun + 30:
                sys.exit(f"{names} are not built at the same time")
            time.sleep(0.01)
verb, name, begun = sys.argv[1], here.name, time.monotonic()
jobs = int(sys.argv[sys.argv.index("--jobs") + 1])
uses = dict(line.split(":") for line in (here.parent.parent / "crates.txt").read_text().splitlines())
lacking = [it for it in uses[name].split() if not (here.parent / it / "out/rlib/stamp").exists()]
if name == os.environ.get("KILLED_CRATE"):
    sys.exit(247)
if verb == "run":
    for it in lacking:
        (here.parent / it / "out/rlib").mkdir(parents=True)
        (here.parent / it / "out/rlib/stamp").write_text("built")
elif lacking or name == os.environ.get("BAD_CRATE"):
    sys.exit(f"error in {name}, lacking {lacking}")
(here / "out").mkdir(exist_ok=True)
if verb == "lib":
    meet(os.environ.get("MEET", "").split())
    (here / "out/rlib").mkdir(exist_ok=True)
    (here / "out/rlib/stamp").write_text("built")
    (here / "out/incremental").mkdir(exist_ok=True)
    (here / "out/incremental/work").write_text("proved")
else:
    (here / "out" / name).write_text("#!/bin/sh\\necho ran \\"$@\\"\\n")
    (here / "out" / name).chmod(0o755)
with open(os.environ["NOTES"], "a") as notes:
    print(json.dumps([name, verb, jobs, begun, time.monotonic()]), file=notes)
"""
# Two crates over one, one over both, a program, and a crate that it does not need.
CRATES = {"low": "", "left": "low", "right": "low", "high": "left right", "damon": "high", "other": "low"}


class Run(NamedTuple):
    name: str
    verb: str
    jobs: int
    begun: float
    ended: float


class Building(unittest.TestCase):
    def setUp(self) -> None:
        folder = tempfile.TemporaryDirectory()
        self.addCleanup(folder.cleanup)
        self.top = Path(folder.name)
        for file in ("damon", "build.py"):
            shutil.copy2(TOP / file, self.top / file)
        shutil.copytree(TOP / "building", self.top / "building", ignore=shutil.ignore_patterns("__pycache__", "costs.csv"))
        (self.top / "crates.txt").write_text("".join(f"{name}: {uses}\n" for name, uses in CRATES.items()))
        for name in CRATES:
            source = self.top / "crates" / name / "src/lib.rt"
            source.parent.mkdir(parents=True)
            source.write_text("// a line\n")
        stand_in = self.top / "bin/rt"
        stand_in.parent.mkdir()
        stand_in.write_text(RT)
        stand_in.chmod(0o755)

    def run_it(self, *words: str, **environment: str) -> "subprocess.CompletedProcess[str]":
        path = f"{self.top / 'bin'}:{os.environ['PATH']}"
        notes = str(self.top / "notes")
        given = {**os.environ, "PATH": path, "NOTES": notes, **environment}
        program = [sys.executable] if words[0].endswith(".py") else []
        command = [*program, str(self.top / words[0]), *words[1:]]
        return subprocess.run(command, env=given, capture_output=True, text=True)

    def measured(self, seconds: Dict[str, float], gigabytes: float = 1) -> None:
        """What the proofs of crates took, as the build knows it."""
        rows = "".join(f"{name},{took},{gigabytes}\n" for name, took in seconds.items())
        (self.top / "building/costs.csv").write_text(f"crate,seconds,gigabytes\n{rows}")

    def jobs(self) -> Dict[str, int]:
        return {name: run.jobs for name, run in self.runs().items()}

    def runs(self) -> Dict[str, Run]:
        lines = (self.top / "notes").read_text().splitlines()
        return {run.name: run for run in (Run(*json.loads(line)) for line in lines)}

    def names_in(self, said: str) -> List[str]:
        return [line.split(": ")[1].split(",")[0] for line in said.splitlines() if line.startswith("crate ")]

    def test_each_crate_comes_after_those_it_uses(self) -> None:
        done = self.run_it("build.py", "--jobs", "4")
        self.assertEqual(done.returncode, 0, done.stderr)
        runs = self.runs()
        self.assertEqual(set(runs), set(CRATES) - {"other"})
        for name, run in runs.items():
            for used in CRATES[name].split():
                self.assertLessEqual(runs[used].ended, run.begun)

    def test_crates_that_do_not_need_each_other_are_built_at_the_same_time(self) -> None:
        done = self.run_it("build.py", "--jobs", "4", MEET="left right")
        self.assertEqual(done.returncode, 0, done.stderr)

    def test_idle_processors_go_to_a_crate_that_stands_alone(self) -> None:
        # Of a line, all these seconds are shared.
        self.measured({name: 0.01 for name in CRATES})
        self.run_it("build.py", "--jobs", "4")
        self.assertEqual(self.jobs(), {"low": 4, "left": 2, "right": 2, "high": 4, "damon": 1})

    def test_a_crate_that_would_not_end_sooner_has_one_process(self) -> None:
        # A thousand lines share 15 seconds: of 20 that leaves 12.5, 10 and 8.75 with two to four processes, of 100 it leaves 92.5.
        for name in ("low", "high"):
            (self.top / f"crates/{name}/src/lib.rt").write_text("// a line\n" * 1000)
        self.measured({"low": 20, "left": 10, "right": 10, "high": 100, "damon": 10})
        self.run_it("build.py", "--jobs", "4")
        self.assertEqual(self.jobs(), {"low": 4, "left": 1, "right": 1, "high": 1, "damon": 1})

    def test_one_processor_builds_one_crate_at_a_time(self) -> None:
        self.run_it("build.py", "--jobs", "1")
        runs = sorted(self.runs().values(), key=lambda run: run.begun)
        self.assertTrue(all(first.ended <= second.begun for first, second in zip(runs, runs[1:])))
        self.assertEqual({run.jobs for run in runs}, {1})

    def test_it_says_how_far_it_is(self) -> None:
        said = self.run_it("build.py", "--jobs", "4").stderr
        self.assertEqual(sorted(self.names_in(said)), sorted(set(CRATES) - {"other"}))
        lines = said.splitlines()
        self.assertRegex(lines[0], r"^building damon: 5 crates are proved first, in about 0 minutes; .* cd crates/damon && rt try ")
        self.assertRegex(lines[1], r"^crate 1 of 5: low, \d s \(20% after 0:0\d min of about 0\)$")
        self.assertRegex(lines[5], r"^crate 5 of 5: damon, \d s \(100% after 0:0\d min of about 0\)$")

    def test_the_wait_is_told_by_what_was_measured(self) -> None:
        self.measured({"low": 600, "left": 300, "right": 1200, "high": 60, "damon": 60})
        # The longest chain, low, right, high and then damon, decides how long two processors take.
        self.assertIn("in about 32 minutes", self.run_it("build.py", "--jobs", "2").stderr)

    def test_crates_with_too_little_memory_are_proved_one_after_another(self) -> None:
        self.measured({name: 10 for name in CRATES}, gigabytes=900000)
        self.assertEqual(self.run_it("build.py", "--jobs", "4").returncode, 0)
        runs = sorted(self.runs().values(), key=lambda run: run.begun)
        self.assertTrue(all(first.ended <= second.begun for first, second in zip(runs, runs[1:])))

    def test_a_crate_that_is_not_proved_ends_the_build_with_its_log(self) -> None:
        done = self.run_it("build.py", "--jobs", "4", BAD_CRATE="left")
        self.assertEqual(done.returncode, 1)
        self.assertIn("error in left", done.stderr)
        self.assertNotIn("high", self.runs())
        self.assertFalse((self.top / "crates/damon/out/damon").exists())

    def test_only_what_changed_and_what_stands_on_it_is_built_again(self) -> None:
        self.run_it("build.py", "--jobs", "4")
        (self.top / "notes").unlink()
        (self.top / "crates/right/src/lib.rt").write_text("// another line\n")
        said = self.run_it("build.py", "--jobs", "4").stderr
        self.assertEqual(set(self.runs()), {"right", "high", "damon"})
        self.assertIn("crate 3 of 3: damon, ", said)

    def test_files_that_are_newer_but_the_same_are_not_built_again(self) -> None:
        self.run_it("damon", "gen", "1")
        (self.top / "notes").unlink()
        later = (self.top / "crates/damon/out/damon").stat().st_mtime + 5
        for source in self.top.glob("crates/*/src/lib.rt"):
            os.utime(source, (later, later))
        again = self.run_it("damon", "gen", "2")
        self.assertEqual((again.returncode, again.stdout, again.stderr), (0, "ran gen 2\n", ""))
        self.assertFalse((self.top / "notes").exists())

    def test_a_build_that_was_broken_off_goes_on_where_it_was(self) -> None:
        self.run_it("build.py", "--jobs", "4", BAD_CRATE="high")
        (self.top / "notes").unlink()
        self.run_it("build.py", "--jobs", "4")
        self.assertEqual(set(self.runs()), {"high", "damon"})

    def test_a_file_that_is_removed_counts(self) -> None:
        more = self.top / "crates/left/src/more.rt"
        more.write_text("// more\n")
        self.run_it("build.py", "--jobs", "4")
        (self.top / "notes").unlink()
        more.unlink()
        self.run_it("build.py", "--jobs", "4")
        self.assertEqual(set(self.runs()), {"left", "high", "damon"})

    def test_without_rt_nothing_is_done(self) -> None:
        done = self.run_it("build.py", PATH=str(self.top))
        self.assertEqual(done.returncode, 1)
        self.assertEqual(done.stderr, "build.py: there is no rt, which proves and builds\n")

    def test_after_a_killed_proof_the_rest_is_left_to_rt(self) -> None:
        done = self.run_it("build.py", "--jobs", "4", KILLED_CRATE="high")
        self.assertEqual(done.returncode, 0, done.stderr)
        self.assertIn("the proof of high was killed", done.stderr)

    def test_what_was_built_stands_in_each_crate(self) -> None:
        self.run_it("build.py", "--jobs", "2")
        for name in ("low", "left", "right", "high"):
            self.assertEqual((self.top / "crates" / name / "out/rlib/stamp").read_text(), "built")
            self.assertEqual((self.top / "crates" / name / "out/incremental/work").read_text(), "proved")

    def test_a_failed_proof_keeps_what_earlier_ones_have_left(self) -> None:
        self.run_it("build.py", "--jobs", "4")
        work = self.top / "crates/left/out/incremental/work"
        work.write_text("proved before")
        self.run_it("build.py", "--jobs", "4", BAD_CRATE="left")
        self.assertEqual(work.read_text(), "proved before")

    def test_a_program_that_is_built_is_only_run(self) -> None:
        first = self.run_it("damon", "gen", "1")
        self.assertEqual((first.returncode, first.stdout), (0, "ran gen 1\n"), first.stderr)
        (self.top / "notes").unlink()
        again = self.run_it("damon", "gen", "2")
        self.assertEqual((again.returncode, again.stdout, again.stderr), (0, "ran gen 2\n", ""))
        self.assertFalse((self.top / "notes").exists())

    def test_a_link_from_elsewhere_runs_the_program_of_the_checkout(self) -> None:
        elsewhere = self.top / "home of a user/bin"
        elsewhere.mkdir(parents=True)
        (self.top / "damond").symlink_to("damon")
        for link, target in (("damon", self.top / "damon"), ("damond", self.top / "damond")):
            (elsewhere / link).symlink_to(target)
        done = self.run_it(f"{elsewhere.relative_to(self.top)}/damon", "gen", "1")
        self.assertEqual((done.returncode, done.stdout), (0, "ran gen 1\n"), done.stderr)
        # The link of a link has the name of the other program, which these small crates do not have.
        failed = self.run_it(f"{elsewhere.relative_to(self.top)}/damond", "run")
        self.assertEqual((failed.returncode, failed.stdout, failed.stderr), (1, "", "build.py: crates.txt has no crate damond\n"))
        self.assertEqual(sorted(path.name for path in elsewhere.iterdir()), ["damon", "damond"])

    def test_an_old_program_is_not_run_when_a_proof_fails(self) -> None:
        self.run_it("damon", "gen", "1")
        source = self.top / "crates/left/src/lib.rt"
        source.write_text("// a line that does not prove\n")
        later = (self.top / "crates/damon/out/damon").stat().st_mtime + 5
        os.utime(source, (later, later))
        failed = self.run_it("damon", "gen", "1", BAD_CRATE="left")
        self.assertEqual((failed.returncode, failed.stdout), (1, ""))


if __name__ == "__main__":
    unittest.main()
