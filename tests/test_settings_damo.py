#!/usr/bin/env python3
"""Tests of `tools/settings.py --damo` and `--as damo`: settings of a machine as lines of a script, and back."""
from __future__ import annotations

import json
import random
import re
import unittest
from fractions import Fraction

from tool_runs import TOP, Refusals, need_program, run

from common import UsageError
from scripts import kernel
from scripts.amounts import share_words
from scripts.damo import clock_of, lines_of, wanted_of
from scripts.setup import Script

TOOL = "settings.py"
SCRIPT = (TOP / "examples/filters.damon").read_bytes()
EVER = (1 << 32) - 1


def setUpModule() -> None:
    need_program()


def setup_of(words: str, aggr: int = 20, tick: int = 5000) -> list[str]:
    """The attributes and schemes that a text of damo asks for, where a script has this number of passes in an aggregation."""
    wanted = wanted_of(words)
    clock = clock_of(wanted, Fraction(tick), aggr)
    return [" ".join(["attrs", *wanted.regions, str(clock.aggr)]), *lines_of(wanted, clock)]


def setup(*words: str) -> list[str]:
    """The first line, the attributes and the schemes of the script with these settings, which must be taken."""
    ran = run(TOOL, *words, text=SCRIPT)
    if ran.returncode != 0:
        raise AssertionError(ran.stderr.decode())
    lines = ran.stdout.decode().split("\nbegin\n")[0].splitlines()
    return [line for line in lines if line.startswith(("damon", "attrs", "scheme"))]


def said_of(lines: list[str], aggr: int = 20, tick: int = 5000) -> str:
    """What --as damo says of a script with these schemes."""
    script = Script.of(SCRIPT)
    script.set_line("attrs", 3, 4, aggr)
    for slot in ("0", "5"):
        script.drop(slot)
    for line in lines:
        script.set_scheme(line)
    return "\n".join([*kernel.lines_of(kernel.machine_of(script, Fraction(tick)), Fraction(tick)), ""])


def values_of(said: str) -> dict[str, str]:
    """The values of the kernel's files."""
    lines = said.split("contexts/0\n")[1].split("\n\n")[0].splitlines()
    return dict(line.split("  #")[0].split() for line in lines)


def command_of(said: str) -> str:
    """The command of damo without its target."""
    return said[said.index("damo start") :].split("  TARGET")[0].replace("\\\n", "")


class FromDamo(unittest.TestCase):
    """By hand: 5 ms in a sampling interval, 20 of them in an aggregation, which are 100 ms."""

    ATTRS = "attrs 10 1000 20"
    INTERVALS = "--monitoring_intervals 5ms 100ms 1s --monitoring_nr_regions_range 10 1000"

    def test_options(self) -> None:
        for words, wanted in (
            ("--damos_action pageout --damos_sz_region 4K max --damos_access_rate 0% 0% --damos_age 5s max",
             "pageout size=1,4294967295 count=0,0 age=50,4294967295"),
            ("--damos_action stat --damos_access_rate 25% 80%", "stat count=5,16"),
            ("--damos_action stat --damos_access_rate 1% 99%", "stat count=1,19"),
            ("--damos_action hugepage --damos_sz_region 2MiB 1G --damos_age 0 100ms", "hugepage size=512,262144 age=0,1"),
            ("--damos_action lru_prio --damos_quotas 10 128M 1s 0 1000 0", "lru_prio quota=134217728,200 time=10000000 weights=0,1000,0"),
            ("--damos_action lru_deprio --damos_quotas 0ms 4096 2m 0 0 100%", "lru_deprio quota=4096,24000 weights=0,0,1000 prefer=cold"),
            ("--damos_action pageout --damos_quotas 1500us 0 1s", "pageout quota=18446744073709551615,200 time=1500000 weights=0,0,0 prefer=cold"),
            ("--damos_action pageout --damos_quotas 0 0 1s 0 0 0", "pageout"),
            ("--damos_action cold --damos_wmarks free_mem_rate 5s 50% 400 200", "cold marks=500,400,200"),
            ("--damos_action cold --damos_wmarks none 0 0 0 0", "cold"),
            ("--damos_action stat --damos_filter allow addr 4096 0x3000 --damos_filter reject none target 1",
             "stat filter=allow:addr:0x1000-0x3000 filter=reject:not-target:1"),
            ("--damos_action stat --damos_filter target matching 0", "stat filter=reject:target:0"),
            ("--damos_action stat --damos_filter target nomatching 0", "stat filter=reject:not-target:0"),
        ):
            with self.subTest(words=words):
                self.assertEqual(setup_of(f"damo start {self.INTERVALS} {words}"), [self.ATTRS, f"scheme 0 {wanted}"])

    def test_several_schemes_take_the_place_of_all(self) -> None:
        words = ("--damos_action pageout --damos_age 100ms max --damos_action stat --damos_age 200ms max "
                 "--damos_access_rate 0% 0% --damos_quotas 1ms 0 1s")
        self.assertEqual(setup("--aggr", "20", "--damo", words), [
            "damon script 2", "attrs 3 4 20",
            "scheme 0 pageout count=0,0 age=1,4294967295 quota=18446744073709551615,200 time=1000000 weights=0,0,0 prefer=cold",
                "scheme 1 stat age=2,4294967295"])

    def test_intervals_alone_leave_the_schemes(self) -> None:
        schemes = setup()[2:]
        self.assertEqual(len(schemes), 2)
        self.assertEqual(setup("--damo", "-s 1000 -a 10000 -u 1s -n 3 -m 8"), ["damon script 1", "attrs 3 8 10", *schemes])

    def test_times_go_by_the_tick(self) -> None:
        words = ["--aggr", "10", "--damo", "--damos_action stat --damos_age 1s max"]
        self.assertEqual(setup(*words)[-1], "scheme 0 stat age=20,4294967295")
        self.assertEqual(setup("--tick", "10ms", *words)[-1], "scheme 0 stat age=10,4294967295")

    def test_json(self) -> None:
        scheme = {"action": "pageout", "access_pattern": {"sz_bytes": {"min": "4 KiB", "max": "max"}, "nr_accesses": {"min": "0 %", "max": "5 %"},
                                                          "age": {"min": "1 s", "max": "max"}},
                  "apply_interval_us": "0 us", "target_nid": "-1", "filters": [],
                  "quotas": {"time_ms": "0 ns", "sz_bytes": "1 MiB", "reset_interval_ms": "1 s", "goals": [],
                             "weights": {"sz_permil": "0 %", "nr_accesses_permil": "10 %", "age_permil": "90 %"}},
                  "watermarks": {"metric": "free_mem_rate", "interval_us": "5 s", "high_permil": "50 %", "mid_permil": "40 %", "low_permil": "20 %"}}
        line = "scheme 0 pageout size=1,4294967295 count=0,1 age=10,4294967295 quota=1048576,200 weights=0,100,900 prefer=cold marks=500,400,200"
        self.assertEqual(setup_of(json.dumps([scheme])), ["attrs 20", line])
        context = {"intervals": {"sample_us": "5 ms", "aggr_us": "100 ms", "ops_update_us": "1 s"}, "nr_regions": {"min": "10", "max": "1,000"},
            "schemes": [scheme]}
        for text in (context, {"kdamonds": [{"state": None, "contexts": [context]}]}):
            self.assertEqual(setup("--damo", json.dumps(text)), ["damon script 1", self.ATTRS, line])

    def test_notes(self) -> None:
        words = ("--monitoring_intervals 7ms 70ms 1s --damos_action stat --damos_age 1s max --damos_quotas 10ms 4096 1s 1 1 1 "
                 "--damos_wmarks free_mem_rate 5s 5 4 2")
        notes = run(TOOL, "--damo", words, text=SCRIPT).stderr.decode()
        for part in ("the interval of updates of the regions is left out",
            "the age 1s is not a whole number of aggregations of 70ms: it is taken as 15",
                     "the reset interval 1s is not a whole number of sampling intervals: it is taken as 143", "for stat it is prefer=hot here",
                     "the script is of version 2 now", "how often it is looked at is left out"):
            self.assertIn(part, notes)


class AsDamo(unittest.TestCase):
    LOST = "# without a counterpart"

    def test_values_and_units(self) -> None:
        said = said_of(["scheme 3 pageout size=2,64 count=0,1 age=5,9 quota=409600,20 time=1500000 weights=0,1,3 prefer=cold marks=500,400,200 "
                        "filter=reject:class:1 filter=allow:not-addr:0x1000-0x3000"], tick=10_000)
        found = values_of(said)
        for place, value in {
            "monitoring_attrs/intervals/sample_us": 10_000, "monitoring_attrs/intervals/aggr_us": 200_000, "schemes/nr_schemes": 1,
            "schemes/0/action": "pageout", "schemes/0/access_pattern/sz/min": 8192, "schemes/0/access_pattern/sz/max": 262_144,
            "schemes/0/access_pattern/nr_accesses/max": 1, "schemes/0/access_pattern/age/min": 5, "schemes/0/access_pattern/age/max": 9,
            "schemes/0/quotas/ms": 2, "schemes/0/quotas/bytes": 409_600, "schemes/0/quotas/reset_interval_ms": 200,
            "schemes/0/quotas/weights/sz_permil": 0, "schemes/0/quotas/weights/nr_accesses_permil": 250, "schemes/0/quotas/weights/age_permil": 750,
            "schemes/0/watermarks/metric": "free_mem_rate", "schemes/0/watermarks/mid": 400, "schemes/0/filters/nr_filters": 1,
            "schemes/0/filters/0/type": "addr", "schemes/0/filters/0/matching": "N", "schemes/0/filters/0/allow": "Y",
            "schemes/0/filters/0/addr_start": 4096, "schemes/0/filters/0/addr_end": 12_288,
        }.items():
            self.assertEqual(found[place], str(value), place)
        for part in ("# microseconds", "# samples of 20", "# aggregations", "# bytes", "filter=reject:class:1: the kernel has no classes",
                     "--damos_age 1s 1800ms", "--damos_access_rate 0% 5%", "--damos_filter allow none addr 4096 12288", "cap 8", "seed 5", "unit 2"):
            self.assertIn(part, said)

    def test_the_tool_prints_the_same(self) -> None:
        ran = run(TOOL, "--aggr", "20", "--drop", "5", "--scheme", "scheme 0 stat", "--as", "damo", text=SCRIPT)
        self.assertEqual((ran.returncode, ran.stdout.decode()), (0, said_of(["scheme 0 stat"])))

    def test_what_has_no_counterpart(self) -> None:
        for line, part in (("scheme 0 pageout quota=4096,5",
            "prefer=hot of scheme 0: in the kernel the action decides, and for pageout it takes colder"),
                           ("scheme 0 lru_prio quota=4096,5 prefer=cold", "for lru_prio it takes hotter"), ("scheme 0 lru_prio",
                            "for physical addresses only"),
                           ("scheme 0 hugepage", "for virtual addresses only"), ("scheme 0 stat quota=4095,5", "0 bytes are no limit"),
                           ("scheme 0 stat filter=allow:target:1", "versions of the kernel differ")):
            self.assertIn(part, said_of([line]).split(self.LOST)[1])
        self.assertNotIn("prefer", said_of(["scheme 0 pageout quota=4096,5 prefer=cold"]).split(self.LOST)[1])
        self.assertIn("damo has to be told whose filters", said_of(["scheme 0 stat filter=allow:target:1", "scheme 1 stat"]))

    def test_there_and_back(self) -> None:
        """The command of damo that is printed gives the same settings again."""
        source = random.Random(4)
        for _ in range(300):
            aggr, tick = source.choice([1, 3, 7, 20, 100]), source.choice([1000, 10_000, 7000])
            lines = [f"scheme {slot} {random_scheme(source, aggr)}" for slot in range(source.randrange(1, 4))]
            again = setup_of(command_of(said_of(lines, aggr, tick)), 1, 1)
            self.assertEqual(again, [f"attrs 3 4 {aggr}", *lines])

    def test_shares_give_the_same_counts(self) -> None:
        """Where damo cuts off what is no whole sample, the percentage that is printed is this count of samples."""
        for aggr in (1, 3, 7, 20, 99, 1000):
            for count in range(aggr + 1):
                self.assertEqual(int(Fraction(share_words(count, aggr)[:-1]) * aggr / 100), count)


def random_scheme(source: random.Random, aggr: int) -> str:
    words = [source.choice(["pageout", "lru_prio", "lru_deprio"])]
    for key, most in (("size", 5000), ("count", aggr), ("age", 90)):
        low, high = sorted(source.randrange(most + 1) for _ in range(2))
        if key == "count" or source.random() < 0.6:
            high = high if key == "count" else source.choice([high, EVER])
            words += [f"{key}={low},{high}"] * ((low, high) != (0, EVER))
    if source.random() < 0.6:
        first = source.randrange(1001)
        words += [f"quota={source.randrange(1, 900) * 4096},{source.randrange(1, 500)}", f"weights={first},0,{1000 - first}"]
        words += ["prefer=cold"] * (words[0] != "lru_prio")
    if source.random() < 0.4:
        words.append("marks=" + ",".join(map(str, sorted((source.randrange(1001) for _ in range(3)), reverse=True))))
    return " ".join(words)


class Errors(Refusals):
    def test_what_is_not_known(self) -> None:
        for text, part in (
            ("--damos_action migrate_cold", "the action 'migrate_cold' has no counterpart"),
            ("--damos_action stat --damos_filter allow anon", "'allow anon' has no counterpart"),
            ("--damos_action stat --damos_filter anon", "not a filter"), ("--damos_action stat --damos_access_rate 5 6", "'5' is not a percentage"),
            ("--damos_action stat --damos_access_rate 1% 2%", "no whole count lies between 1% and 2%"), ("--damos_age 1s max",
             "--damos_age comes 1 times"),
            ("--damos_action stat --damos_age 1parsec max", "not a time"), ("--damos_action stat --damos_sz_region 4X max", "not a size"),
            ("--monitoring_intervals 5ms 101ms 1s", "not 1 to 1000 sampling intervals"), ("--damos_apply_interval 5", "unrecognized arguments"),
            ("-s 5ms", "come together"), ("[{}]", "KeyError 'action'"), ("{", "not JSON"), ("[5]", "not the JSON of schemes"), ("'",
             "No closing quotation"),
            ('[{"action": "stat", "filters": [1]}]', "'filters' is not read"), ('[{"action": "stat", "quotas": {"goals": [1]}}]',
             "`./damon tune` takes goals"),
            ("--damos_action a --damos_action b --damos_filter allow target 1", "with one --damos_action only"),
            ("--damos_action stat --damos_wmarks psi 1 1 1 1", "the watermark metric 'psi' is not known"),
        ):
            with self.subTest(text=text), self.assertRaisesRegex(UsageError, re.escape(part)):
                setup_of(text)
        self.refused(TOOL, ["not an amount"], SCRIPT, "--damo", "-s x -a 5")
        self.refused(TOOL, ["few and many"], SCRIPT, "--damo", "--monitoring_nr_regions_range few many")
        self.refused(TOOL, ["--damo says that a sampling interval is 5ms, and --tick 6ms"], SCRIPT, "--tick", "6ms", "--damo", "-s 5ms -a 50ms")
        self.refused(TOOL, ["--tick is a time above 0"], SCRIPT, "--tick", "0", "--as", "damo")


if __name__ == "__main__":
    unittest.main()
