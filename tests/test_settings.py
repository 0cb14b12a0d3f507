#!/usr/bin/env python3
"""Tests of tools/settings.py: other settings for a script that is there."""
from __future__ import annotations

import os
import shutil
import subprocess
import sys
import tempfile
import unittest
from pathlib import Path

from tool_runs import KEPT, TOOLS, TOP, Refusals, need_program, random_trace, report_of, run, script_of

TOOL = "settings.py"
COLD = "scheme 0 pageout count=0,1 age=1,4294967295 quota=409600,10 weights=0,1,3 prefer=cold"
TRACE = random_trace(7, 3000)


def setUpModule() -> None:
    need_program()


def changed(script: str, *words: str) -> str:
    """The script with these settings, which must be taken."""
    ran = run(TOOL, *words, text=script.encode())
    if ran.returncode != 0:
        raise AssertionError(ran.stderr.decode())
    return ran.stdout.decode()


def notes_of(script: str, *words: str) -> list[str]:
    return run(TOOL, *words, text=script.encode()).stderr.decode().splitlines()


class SameAsFromTheTrace(unittest.TestCase):
    """A changed script is the one that the trace gives with these settings."""

    def test_settings(self) -> None:
        usual = script_of(TRACE, "--interval", "20")
        for words in (["--max", "60", "--cap", "60"], ["--max", "300"], ["--aggr", "7", "--seed", "99"], ["--min", "30", "--unit", "2"],
                      ["--cap", "200"], ["--scheme", COLD, "--scheme", "scheme 4 stat age=3,9"]):
            with self.subTest(words=words):
                wanted = script_of(TRACE, "--interval", "20", *words)
                # A unit also makes small targets larger; here none is that small.
                self.assertEqual(changed(usual, *words), wanted)
                self.assertEqual(report_of(changed(usual, *words)), report_of(wanted))

    def test_a_scheme_takes_the_place_of_that_of_its_slot(self) -> None:
        words = ["--interval", "20", "--scheme", "scheme 2 stat", "--scheme"]
        script = script_of(TRACE, *words, "scheme 1 stat", "--scheme", "scheme 12 cold")
        self.assertEqual(changed(script, "--scheme", "scheme 1 cold"),
                         script_of(TRACE, *words, "scheme 1 cold", "--scheme", "scheme 12 cold"))
        self.assertEqual(changed(script, "--drop", "1"), script_of(TRACE, *words, "scheme 12 cold"))
        self.assertEqual(changed(script, "--drop", "2", "--drop", "12", "--drop", "1"), script_of(TRACE, "--interval", "20"))

    def test_commits(self) -> None:
        usual = script_of(TRACE, "--interval", "20")
        words = ["--at", "5:attrs 5 90 10", "--at", "5:scheme 1 stat", "--metric", "5:7", "--at", "5:drop 3", "--metric", "0:9"]
        self.assertEqual(changed(usual, *words), script_of(TRACE, "--interval", "20", *words))

    def test_version_2_with_a_cost(self) -> None:
        """By hand: a commit before the tenth interval."""
        scheme = "scheme 0 stat quota=409600,10 time=1000"
        usual = script_of(TRACE, "--interval", "20")
        places = [place for place in range(len(usual)) if usual.startswith("\narm\n", place)]
        wanted = f"{usual[:places[9]]}\ncommit\ncost 0 4000\napply{usual[places[9]:]}".replace("script 1", "script 2", 1)
        self.assertEqual(changed(usual, "--version", "2", "--at", "9:cost 0 4000", "--scheme", scheme), wanted.replace("\nbegin\n",
            f"\n{scheme}\nbegin\n"))

    def test_commits_come_behind_those_that_are_there(self) -> None:
        first, second = ["--metric", "5:1", "--metric", "8:2"], ["--metric", "5:3", "--metric", "6:4"]
        self.assertEqual(changed(script_of(TRACE, "--interval", "20", *first), *second), script_of(TRACE, "--interval", "20", *first, *second))

    def test_no_change(self) -> None:
        """Each script of damon among the examples; a live script is for damond."""
        scripts = [path for path in sorted((TOP / "examples").glob("*.damon"))
                   if not path.read_bytes().startswith(b"damon live")]
        self.assertGreater(len(scripts), 1)
        for path in scripts:
            with self.subTest(path=path.name):
                self.assertEqual(run(TOOL, str(path)).stdout, path.read_bytes())

    def test_five_settings_of_one_script(self) -> None:
        with tempfile.TemporaryDirectory() as folder:
            path = Path(folder) / "shop.damon"
            path.write_text(script_of(b"", "--interval", "3000", str(KEPT)))
            reports = {report_of(run(TOOL, "--max", str(most), str(path)).stdout.decode()) for most in (20, 50, 100, 200, 400)}
        self.assertEqual(len(reports), 5)


class Notes(unittest.TestCase):
    SCRIPT = (TOP / "examples/watermarks.damon").read_text()

    def test_a_cap_that_follows(self) -> None:
        script = script_of(TRACE, "--interval", "20")
        self.assertEqual(notes_of(script, "--max", "300"), ["note: cap was 100, and is 300 now, as --max is above it"])
        self.assertEqual(notes_of(script, "--max", "90"), [])

    def test_metrics_of_the_body_count(self) -> None:
        metrics = [int(line.split()[1]) for line in self.SCRIPT.splitlines() if line.startswith("metric ")]
        for marks, wanted in ((f"{metrics[0] + 1},{metrics[0] + 1},{metrics[0]}", []), ("9999,9998,9997", [
                "note: slot 9: it is never active in a replay: it has watermarks, and no metric from 9997 to 9997 comes"])):
            notes = notes_of(self.SCRIPT, "--scheme", f"scheme 9 stat marks={marks}")
            self.assertEqual([note for note in notes if "slot 9" in note], wanted)

    def test_schemes_that_do_nothing(self) -> None:
        script = script_of(TRACE, "--interval", "20", "--scheme", "scheme 0 stat count=15,20")
        self.assertEqual(notes_of(script, "--aggr", "10"), ["note: slot 0: it matches nothing: a count of 15 is above aggr, 10"])
        self.assertEqual(notes_of(script, "--aggr", "15"), [])
        self.assertIn("add prefer=cold", notes_of(script, "--scheme", "scheme 1 pageout quota=8192,10")[0])

    def test_without_a_program(self) -> None:
        """In a checkout that has built none the script is not checked."""
        with tempfile.TemporaryDirectory() as folder:
            copy = Path(folder) / "a checkout/tools"
            shutil.copytree(TOOLS, copy)
            environment = {name: value for name, value in os.environ.items() if name != "DAMON"}
            # `-I` leaves out the folder of the tool, which finds its packages nevertheless.
            ran = subprocess.run([sys.executable, "-I", copy / TOOL, "--max", "2"], input=self.SCRIPT.encode(), capture_output=True, env=environment)
        self.assertEqual(ran.returncode, 0, ran.stderr)
        self.assertIn(f"was not checked: there is no program {copy.parent}/crates".encode(), ran.stderr)

    def test_commits_that_are_refused_or_too_late(self) -> None:
        script = script_of(TRACE, "--interval", "20")
        count = script.count("\narm\n")
        self.assertEqual(notes_of(script, "--at", "3:attrs 6 5 5", "--at", "4:drop 1", "--metric", f"{count}:7"), [
            f"note: the commit before interval {count} is left out: there are {count} intervals",
            "note: the commit before interval 3 is refused: bad-attrs min-over-max"])


class Errors(Refusals):
    def test_damon_judges_the_new_script(self) -> None:
        script = script_of(TRACE, "--interval", "20").encode()
        for words, parts in (
            (["--max", "9"], ["line 5: bad attrs: min 10 is above max 9"]),
            (["--cap", "99"], ["line 5: max over cap: max 100 above cap 99"]),
            (["--unit", "0"], ["line 3: out of limit: unit is 0"]),
            (["--seed", "-1"], ["line 2: bad number: '-1'"]),
            (["--scheme", "scheme 0 stat age=1,2 count=0,0"], ["bad form: key 'count' after 'age'"]),
        ):
            with self.subTest(words=words):
                self.refused(TOOL, ["damon rejects the new script", *parts], script, *words)

    def test_work(self) -> None:
        script = script_of(b"".join(b" L %08x,4\n" % (0x10000 + page % 7 * 4096) for page in range(3000)), "--interval", "1")
        self.refused(TOOL, ["too much work", "each of which counts 8195 with cap 4096: a smaller cap"], script.encode(), "--cap", "4096")

    def test_options_and_files(self) -> None:
        script = script_of(TRACE, "--interval", "20").encode()
        self.refused(TOOL, ["--drop names slot 3"], script, "--drop", "3")
        self.refused(TOOL, ["--at needs INTERVAL:LINE", "metric, cost"], script, "--at", "5 drop 0")
        self.refused(TOOL, ["bad form: there is no key 'time' in version 1"], script, "--scheme", "scheme 0 stat quota=4096,5 time=9")
        ran = run(TOOL, text=script, program=Path("/no/damon"))
        self.assertEqual((ran.returncode, ran.stdout), (2, b""))
        self.assertIn(b"there is no program /no/damon, which DAMON in the environment names", ran.stderr)
        self.refused(TOOL, ["--scheme needs a line"], script, "--scheme", "scheme 0 stat\nscheme 1 stat")
        self.refused(TOOL, ["-: there is no line `begin`"], b"damon script 1\nseed 1\n")
        self.refused(TOOL, ["there is no line `cap`"], b"damon script 1\nseed 1\nbegin\n", "--cap", "5")
        self.refused(TOOL, ["no-such-file: No such file or directory\n"], b"", "no-such-file")


if __name__ == "__main__":
    unittest.main()
