#!/usr/bin/env python3
"""Tests of the measurements: the order of turns, what is kept of them, and the tables that are made of a file.

    tests/test_measure.py
"""
import os
import re
import shutil
import tempfile
import unittest
from argparse import ArgumentTypeError
from pathlib import Path
from typing import List, Sequence, Tuple
from unittest import mock


import measure
import measure_tools
import speed_bounds
import speed_profile
from figures import Figures, Measured, Subject, joined, lines_of, load, save, written
from measure import Inputs, Job, Program, jobs_of, order_of, parse_words, program_of
from speed_bounds import Bound, asked, bounds_table, load_bounds, save_bounds, timed
from speed_workloads import WORKLOADS, Workload
from tool_runs import need_program

from searching.plan import plan_of

SMALL = Workload("small", "a small one", "lines", ("replay",), (3, 1), lambda size: b"line\n" * size)
OTHER = Workload("other", "another one", "", ("json",), (2,), lambda size: b"x" * size)
PAGE = "before\n<!-- figures -->\nold\n<!-- end -->\nbetween\n<!-- growth -->\nold\n<!-- end -->\nafter\n"


def program_in(folder: str, name: str, body: str) -> Program:
    """A program that is a script."""
    file = Path(folder) / name
    file.write_text(f"#!/bin/sh\n{body}\n")
    os.chmod(file, 0o755)
    return Program(name, {"damon": file})


def jobs_in(folder: str, body: str = "cat >/dev/null") -> List[Job]:
    programs = [program_in(folder, name, body) for name in ("one", "two")]
    return [Job(program, workload, workload.sizes[0]) for workload in (SMALL, OTHER) for program in programs]


class Turns(unittest.TestCase):
    def test_each_turn_has_all_jobs_in_an_order_of_its_own(self) -> None:
        with tempfile.TemporaryDirectory() as folder:
            jobs = jobs_in(folder)
            orders = [order_of(jobs, 1, turn) for turn in range(20)]
            for order in orders:
                self.assertEqual(sorted(map(str, order)), sorted(map(str, jobs)))
            self.assertGreater(len({str(order) for order in orders}), 5)
            self.assertEqual(orders, [order_of(jobs, 1, turn) for turn in range(20)])
            self.assertNotEqual(orders, [order_of(jobs, 2, turn) for turn in range(20)])

    @unittest.skipUnless(Path(measure.TIMER).exists(), f"there is no {measure.TIMER}")
    def test_all_times_are_kept(self) -> None:
        with tempfile.TemporaryDirectory() as folder:
            jobs = jobs_in(folder)
            found = measure.measure(4, jobs, 1, Inputs(folder))
        self.assertEqual(list(found), [job.subject() for job in jobs])
        for it in found.values():
            self.assertEqual(len(it.milliseconds), 4)
            self.assertTrue(all(0 < time < 60_000 for time in it.milliseconds))
            self.assertGreater(it.peak_kib, 100)

    def test_a_program_that_fails_ends_it(self) -> None:
        with tempfile.TemporaryDirectory() as folder, self.assertRaisesRegex(SystemExit, "ended with status 3"):
            job = jobs_in(folder, "exit 3")[0]
            measure.milliseconds(job.command(), Inputs(folder).path(job))

    def test_a_program_gets_the_input_and_the_words(self) -> None:
        with tempfile.TemporaryDirectory() as folder:
            job = Job(program_in(folder, "one", f'echo "$@" > {folder}/got; cat >> {folder}/got'), SMALL, 3)
            measure.milliseconds(job.command(), Inputs(folder).path(job))
            self.assertEqual(Path(folder, "got").read_text(), "replay\nline\nline\nline\n")

    @unittest.skipUnless(shutil.which(measure.COUNTER), f"there is no {measure.COUNTER}")
    def test_instructions_are_counted(self) -> None:
        with tempfile.TemporaryDirectory() as folder:
            job = Job(Program("true", {"damon": Path("/bin/true")}), SMALL, 3)
            self.assertGreater(measure.instructions(job, Inputs(folder).path(job)), 10_000)


class Words(unittest.TestCase):
    def test_programs_are_named(self) -> None:
        with tempfile.TemporaryDirectory() as folder:
            one = program_in(folder, "one", "true").files["damon"]
            self.assertEqual(program_of(f"a={one}"), Program("a", {"damon": one}))
            self.assertEqual(program_of(f"a={one},{one}"), Program("a", {"damon": one, "damond": one}))
            for word, said in (("a=none", "there is no none: .*cargo build"), (str(one), "is not NAME=DAMON")):
                with self.assertRaisesRegex(ArgumentTypeError, said):
                    program_of(word)

    def test_jobs_are_those_of_the_programs(self) -> None:
        both = Program("both", {"damon": Path("a"), "damond": Path("b")})
        one = Program("one", {"damon": Path("c")})
        jobs = jobs_of([both, one], "", False)
        self.assertEqual(len(jobs), len(WORKLOADS) + sum(it.program == "damon" for it in WORKLOADS))
        self.assertTrue(all(job.size == job.workload.sizes[0] for job in jobs))
        sized = jobs_of([both, one], "verify", True)
        self.assertEqual([(it.workload.name, it.size, it.program.name) for it in sized], [
            ("verify", 70_000, "both"), ("verify", 7_000, "both"), ("verify", 700, "both"), ("verify", 70_000, "one"),
            ("verify wide", 10, "both"), ("verify wide", 1, "both"), ("verify wide", 10, "one"),
        ])
        with self.assertRaisesRegex(SystemExit, "no workload begins with none"):
            jobs_of([both], "none", False)

    def test_a_run_needs_turns(self) -> None:
        self.assertEqual(parse_words(["7"]).turns, 7)
        self.assertTrue(parse_words(["--check"]).check)
        self.assertEqual(parse_words(["--instructions", "one=a", "two=b"]).programs, ["one=a", "two=b"])
        self.assertEqual(parse_words(["3", "--bounds", "one=a"]).programs, ["one=a"])
        with self.assertRaises(SystemExit), mock.patch("sys.stderr"):
            parse_words([])


class Workloads(unittest.TestCase):
    def test_each_has_a_name_a_row_and_sizes_that_fall(self) -> None:
        self.assertEqual(len(WORKLOADS), 41)
        self.assertEqual(len({it.name for it in WORKLOADS}), 41)
        for it in WORKLOADS:
            self.assertTrue(it.says)
            self.assertEqual(list(it.sizes), sorted(it.sizes, reverse=True))

    def test_inputs_are_the_same_each_time_and_grow_with_their_size(self) -> None:
        for it in WORKLOADS:
            if it.words[0] not in ("verify", "heat", "gen"):
                self.assertEqual(it.text(1), it.text(1), it.name)
                self.assertLessEqual(len(it.text(2)), len(it.text(20)), it.name)


def made_up() -> Measured:
    """Figures whose statistics are plain to see."""
    return {
        Subject("small", 3, "proved"): Figures([4.0, 1.0, 2.0, 3.0, 5.0], 2048, 300),
        Subject("small", 1, "proved"): Figures([0.5], 1024),
        Subject("small", 3, "plain"): Figures([2.0, 6.0, 4.0], 1024, 200),
        Subject("other", 2, "proved"): Figures([8.0, 9.0], 1536),
        Subject("other", 2, "plain"): Figures([10.0, 10.0], 1536),
    }


class Kept(unittest.TestCase):
    def test_statistics(self) -> None:
        it = made_up()[Subject("small", 3, "proved")]
        self.assertEqual((it.best(), it.median(), it.quartiles()), (1.0, 3.0, (2.0, 4.0)))
        self.assertEqual(Figures([7.0]).quartiles(), (7.0, 7.0))

    def test_a_file_gives_back_what_was_kept(self) -> None:
        with tempfile.TemporaryDirectory() as folder:
            path = Path(folder) / "figures.csv"
            self.assertEqual(load(path), {})
            save(path, made_up())
            self.assertEqual(load(path), made_up())
            path.write_text(path.read_text().replace("4.000 1.000", "4.000"))
            with self.assertRaisesRegex(ValueError, "has 4 times in 5 turns"):
                load(path)

    def test_figures_are_added_to_those_before(self) -> None:
        subject = Subject("small", 3, "proved")
        both = joined(made_up(), {subject: Figures([9.0], 4096), Subject("new", 1, "plain"): Figures([1.0])})
        self.assertEqual(both[subject], Figures([4.0, 1.0, 2.0, 3.0, 5.0, 9.0], 4096, 300))
        self.assertEqual(joined(made_up(), {subject: Figures(instructions=7)})[subject].instructions, 7)
        self.assertEqual(len(both), 6)

    def test_lines_have_ratios_to_the_last_program(self) -> None:
        lines = lines_of(made_up(), ["proved", "plain"])
        self.assertRegex(lines[1], r"^small +3 proved +1\.00 +2\.00 +3\.00 +4\.00 +5 +2\.0 +0\.0 +0\.50 0\.75 1\.50$")
        self.assertRegex(lines[3], r"^small +3 plain +2\.00 .* 3 +1\.0 +0\.0$")
        self.assertEqual(len(lines), 6)


class Page(unittest.TestCase):
    def test_tables_are_made_between_the_marks(self) -> None:
        page = written(PAGE, made_up(), [SMALL, OTHER])
        self.assertIn("| a small one | 1.0 ms | 2.0 ms | 0.50 | 3.0 ms | 2.0 to 4.0 | 4.0 ms | 3.0 to 5.0 | 0.75 "
                      "| 3 and 5 | 1.50 | 2.0 MiB | 1.0 MiB |\n", page)
        self.assertIn("| another one | 8.0 ms | 10.0 ms | 0.80 | 8.5 ms | 8.2 to 8.8 | 10.0 ms | 10.0 to 10.0 | 0.85 "
                      "| 2 |  | 1.5 MiB | 1.5 MiB |\n", page)
        self.assertIn("| small | lines | 3 | 1.00 ms | 1 | 0.50 ms |  |  |\n", page)
        self.assertNotIn("old", page)
        self.assertTrue(page.startswith("before\n") and page.endswith("after\n") and "\nbetween\n" in page)
        self.assertEqual(written(page, made_up(), [SMALL, OTHER]), page)

    def test_write_and_check(self) -> None:
        with tempfile.TemporaryDirectory() as folder:
            page, kept = Path(folder) / "PAGE.md", Path(folder) / "figures.csv"
            page.write_text(PAGE)
            with mock.patch.object(measure, "PAGE", page), mock.patch.object(measure, "TOP", Path(folder)), mock.patch("builtins.print") as said:
                with self.assertRaisesRegex(SystemExit, "there is no "):
                    measure.main(["--check", "--csv", str(kept)])
                save(kept, made_up())
                self.assertEqual(measure.main(["--check", "--csv", str(kept)]), 1)
                said.assert_called_once_with("PAGE.md is stale: run tests/measure.py --write")
                self.assertEqual(measure.main(["--write", "--csv", str(kept)]), 0)
                self.assertEqual(measure.main(["--check", "--csv", str(kept)]), 0)

    def test_the_page_has_only_tables_between_its_marks(self) -> None:
        """Sentences that are written by hand stand beside them, and stay."""
        page = measure.PAGE.read_text()
        rows = "".join(re.findall(r"<!-- (?:figures|growth|bounds) -->\n(.*?)<!-- end -->", page, re.DOTALL)).splitlines()
        self.assertEqual([row for row in rows if row and not row.startswith("| ") and not row.startswith("|-")], [])
        new, old = ([line for line in text.splitlines() if line and not line.startswith("|")] for text in (written(page, {}, WORKLOADS), page))
        self.assertEqual(new, old)

    def test_a_table_of_bounds_is_made_where_these_are_kept(self) -> None:
        with tempfile.TemporaryDirectory() as folder:
            page, kept = Path(folder) / "PAGE.md", Path(folder) / "figures.csv"
            page.write_text(PAGE + "<!-- bounds -->\nold\n<!-- end -->\n")
            save(kept, made_up())
            with mock.patch.object(measure, "PAGE", page), mock.patch.object(measure, "TOP", Path(folder)), \
                    mock.patch.object(measure, "WORKLOADS", [SMALL]), mock.patch("builtins.print"):
                self.assertEqual(measure.main(["--write", "--csv", str(kept)]), 0)
                self.assertIn("<!-- bounds -->\nold\n", page.read_text())
                measure.keep_bounds(kept.with_name("bounds.csv"), {"small": BOUND})
                self.assertEqual(measure.main(["--check", "--csv", str(kept)]), 1)
                self.assertEqual(measure.main(["--write", "--csv", str(kept)]), 0)
                self.assertEqual(measure.main(["--check", "--csv", str(kept)]), 0)
                self.assertNotIn("old", page.read_text())

    @unittest.skipUnless(measure.KEPT.exists(), "no figures are kept: tests/measure.py TURNS --csv docs/performance.csv makes them")
    def test_the_page_is_that_of_its_figures(self) -> None:
        self.assertEqual(measure.main(["--check"]), 0)
        self.assertEqual(speed_profile.main(["--check"]), 0)


BOUND = Bound(15, 40_000, 1000, 300, 30, 16, 0.5, 0.25, 1.0, 0.25)


class Bounds(unittest.TestCase):
    def asked_of(self, words: Tuple[str, ...], text: bytes, output: str) -> Bound:
        """The bound of a program that reads its input and writes this."""
        with tempfile.TemporaryDirectory() as folder:
            source = Path(folder) / "input"
            source.write_bytes(text)
            return asked(SMALL._replace(words=words), ["sh", "-c", f"cat >/dev/null; printf '{output}'"], source)

    def test_what_a_run_asks_for(self) -> None:
        text = b"attrs 3 8 2\ntarget 0x0 100\ntarget 0x0 29\nbegin\nend\n"
        ends, found = "end ticks=3 rows=4 checks=10 hits=1\\n", Bound(len(text), 72, 10 + 2 * 8, 10, 4, 3)
        self.assertEqual(self.asked_of(("replay",), text, f"aggregate tick=2 threshold=0 rows=4\\n{ends}"), found)
        lines = '{"kind":"aggregate","tick":2}\\n{"checks":10,"kind":"end","ticks":3}\\n'
        self.assertEqual(self.asked_of(("json",), text, lines), found._replace(written=67))

    def test_a_journal_says_which_words_were_drawn(self) -> None:
        text = b"attrs 3 8 2\ntarget 0x0 64\nbegin\naggregate 2 at 8\nend ticks=3 rows=4 checks=10 hits=1\n"
        self.assertEqual(self.asked_of(("verify",), text, "lawful\\n"), Bound(len(text), 7, 26, 0, 0, 1))

    def test_a_generated_run_has_the_setup_of_the_page(self) -> None:
        found = self.asked_of(("gen", "1"), b"", "gen 1 ticks=2000 rows=9 checks=50001 hits=5 applied=6\\n")
        self.assertEqual(found, Bound(0, 54, 50_001 + 100 * 200, 50_001, 26, 16))
        self.assertIn(speed_bounds.GENERATED.decode(), (measure.TOP / "docs/FORMATS.md").read_text())

    def test_each_loop_has_its_own_start_taken_off(self) -> None:
        asked_for: List[Tuple[str, ...]] = []

        def timer(command: Sequence[str], source: Path) -> float:
            asked_for.append((*command[1:], source.name))
            return 7.0 if source.name == "input" or int([*command[1:], "0"][1]) > 0 else 5.0

        found = timed(BOUND._replace(words=0), Path("input"), timer)
        self.assertEqual(found, Bound(15, 40_000, 0, 300, 30, 16, 2.0, 2.0, 0.0, 2.0))
        self.assertEqual(asked_for, [("read", "input"), ("read", "null"), ("write", "40000", "null"), ("write", "0", "null"),
                                     ("access", "300", "30", "16", "null"), ("access", "0", "30", "16", "null")])

    def test_a_file_gives_back_what_was_kept(self) -> None:
        with tempfile.TemporaryDirectory() as folder:
            path = Path(folder) / "bounds.csv"
            self.assertEqual(load_bounds(path), {})
            save_bounds(path, {"small": BOUND, "other": BOUND._replace(read=0)})
            self.assertEqual(load_bounds(path), {"small": BOUND, "other": BOUND._replace(read=0)})

    def test_a_row_has_the_time_less_the_start(self) -> None:
        bounds = {"small": BOUND, "other": Bound(9, 0, 0, 0, 0, 1, 0.04)}
        self.assertEqual(len(bounds_table(bounds, made_up(), [SMALL, OTHER])), 2)
        figures = {**made_up(), Subject("start", 1, "proved"): Figures([0.75, 0.5])}
        self.assertEqual(bounds_table(bounds, figures, [SMALL, OTHER])[2:], [
            "| a small one | 15 | 40,000 | 1,000 | 600 | 2.0 ms | 0.5 ms | 0.2 |",
            "| another one | 9 |  |  |  | 0.0 ms | 7.5 ms |  |",
        ])


class Tools(unittest.TestCase):
    def test_the_commands_of_the_tutorial(self) -> None:
        commands = measure_tools.commands_of(measure_tools.PAGE.read_text())
        self.assertIn("--keep out/shop.cut", commands[1])
        self.assertGreater(len(commands), 30)
        self.assertEqual([line for line in commands if "valgrind" in line or "./damond run" in line], [])

    def test_a_command_that_fails_is_no_time(self) -> None:
        with self.assertRaisesRegex(RuntimeError, "^tools/flat.py no-such-file: status 2$"):
            measure_tools.tutorial(["tools/flat.py no-such-file"])

    def test_the_plans_of_searches(self) -> None:
        with tempfile.TemporaryDirectory() as folder:
            path, found = Path(folder) / "plan.toml", []
            for _, text in measure_tools.plans(measure_tools.PLAN.read_text()):
                path.write_text(text)
                found.append(plan_of(str(path)))
        whole, checks, small = found
        self.assertGreater(len(whole.measures), 5)
        self.assertEqual(checks, whole._replace(measures=("checks",)))
        self.assertEqual((len(small.seeds), small.are_traces), (measure_tools.SMALL_RUNS, False))
        self.assertTrue(all(Path(name).is_file() for plan in found for name in plan.workloads))

    def test_a_search_beside_its_runs(self) -> None:
        need_program()
        with tempfile.TemporaryDirectory() as folder:
            plan = Path(folder) / "small.toml"
            plan.write_text(measure_tools.SMALL.format(path=measure.TOP / "examples/cold.damon", runs=20))
            found = measure_tools.searched(plan, 1)
        self.assertEqual(found.runs, 20)
        self.assertGreater(found.whole, found.alone)
        self.assertGreater(found.alone, 0)



ANNOTATED = """
--------------------------------------------------------------------------------
Ir
--------------------------------------------------------------------------------
2,000,000 (100.0%)  PROGRAM TOTALS

1,118,200 (55.91%)  ???:scheme_engine::candidates::gather [/crates/damon/out/damon]
  334,000 (16.70%)  ???:sampler::picks::pick_drawn::<#7d7afd824526ae40> [/crates/damon/out/damon]
   80,000 ( 4.00%)  ./string/memmove.S:__memcpy_avx_unaligned_erms [/usr/lib/libc.so.6]
   20,000 ( 1.00%)  ???:a::fourth::function [/crates/damon/out/damon]
"""


class Profiles(unittest.TestCase):
    found = {
        Subject("small", 1, "proved"): speed_profile.profile_of(ANNOTATED),
        Subject("small", 1, "plain"): speed_profile.Profile(1_500_000, {"all": 90}),
    }

    def test_functions_that_take_most(self) -> None:
        self.assertEqual(self.found[Subject("small", 1, "proved")], speed_profile.Profile(
            2_000_000, {"scheme_engine::candidates::gather": 56, "sampler::picks::pick_drawn": 17, "__memcpy_avx_unaligned_erms": 4}))

    def test_a_file_is_read_back(self) -> None:
        with tempfile.TemporaryDirectory() as folder:
            path = Path(folder) / "profile.csv"
            self.assertEqual(speed_profile.load_profiles(path), {})
            speed_profile.save_profiles(path, self.found)
            self.assertEqual(speed_profile.load_profiles(path), self.found)

    def test_a_row_has_both_programs(self) -> None:
        self.assertEqual(speed_profile.table(self.found)[2:], [
            "| small | 1 | 2.0 | `scheme_engine::candidates::gather` 56 %, `sampler::picks::pick_drawn` 17 %, `__memcpy_avx_unaligned_erms` 4 % "
            "| 1.5 | `all` 90 % |"])

    def test_workloads_that_take_more(self) -> None:
        def measured(ours: Figures, other: Figures) -> Measured:
            return {Subject("small", 3, "proved"): ours, Subject("small", 3, "plain"): other}

        less, more = Figures([1.0], 0, 10), Figures([2.0], 0, 10)
        self.assertEqual(speed_profile.are_slower(measured(less, more), [SMALL, OTHER]), [])
        self.assertEqual(speed_profile.are_slower(measured(more, less), [SMALL, OTHER]), [SMALL])
        self.assertEqual(speed_profile.are_slower(measured(Figures([1.0], 0, 11), more), [SMALL]), [SMALL])


if __name__ == "__main__":
    unittest.main()
