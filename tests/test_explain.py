#!/usr/bin/env python3
"""Tests of tools/explain.py: damon's answer to a script, in words."""
from __future__ import annotations

import json
import unittest
from typing import Iterator

from tool_runs import TOP, Refusals, need_program, run

from explain import explained
from scripts.grammar import Piece
from scripts.judge import Fault, fault_of
from scripts.reasons import reason_of

TOOL = "explain.py"
CASES = TOP / "tests/cases/bad-script.jsonl"
SCRIPT_FAULT = 3
GOOD = """\
damon script 1
seed 42
unit 2
cap 8
attrs 3 8 5
target 0x10000 8
target 0x20000 4
range 0 0x10000 0x14000 0
range 0 0x14000 0x18000 1
range 1 0x20000 0x24000 0
scheme 3 pageout size=2,64 count=0,1 age=5,9 quota=409600,20 weights=0,1,3 prefer=cold marks=500,400,200 filter=reject:class:1
begin
step 4
touch 0 0x11000
sweep 1 0x20000 0x22000
commit
attrs 3 8 5
range 0 0x10000 0x14000 0
drop 3
metric 5
apply
arm
finish
show
end
"""

GOOD_2 = GOOD.replace("damon script 1", "damon script 2").replace("quota=409600,20", "quota=409600,20 time=1000").replace(
    "metric 5\n", "metric 5\ncost 3 4000\n")
"""The same in version 2, with a time of the quota and a cost."""

EDITS_2 = (
    ("cost 3 4000\n", "cost 3 4000\ncost 3 4000\n", "unexpected word", "in the commit of line 16 must come apply", "cost"),
    ("metric 5\ncost 3 4000\n", "cost 3 4000\nmetric 5\n", "unexpected word", "must come apply", "metric"),
    ("cost 3 4000", "cost 3", "bad form", "1 word after 'cost', and the line is `cost SLOT NANOS`", "3"),
    ("cost 3 4000", "cost 256 4000", "bad number", "256 is above 255, the greatest SLOT", "256"),
    ("damon script 2", "damon script 1", "bad form", "there is no key 'time' in version 1: the keys are size,", "time"),
    ("quota=409600,20 time", "time", "bad form", "key 'time' stands directly after 'quota'", "time"),
    ("time=1000", "time=1,2", "bad form", "'time' needs 1 number, `time=NANOS`, and has 2", "1,2"),
    ("time=1000", "time=x", "bad number", "'x' is not a decimal number", "x"),
    ("time=1000", "times=1000", "bad form", "there is no key 'times' (is it 'time'?)", "times"),
    ("step 4\n", "stop 4\n", "unexpected word", "there is no line 'stop' (is it 'step'?)", "stop"),
)

EDITS = (
    # The place and the text before and after; the kind, the reason, and the words that are marked.
    ("damon script 1", "damon script 3", "no header",
     "the first line must be exactly `damon script 1` or `damon script 2`, and it is", "damon script 3"),
    ("damon script 1", "damon script 1\r", "no header", "ends with CR LF", "\r"),
    ("damon script 1", "damon script 1 ", "no header", "without a space before or after it", "damon script 1 "),
    ("seed 42", "seed 042", "bad number", "'042' has a leading zero", "042"),
    ("seed 42", "seed 18446744073709551616", "bad number", "is above 18446744073709551615, the greatest SEED", "18446744073709551616"),
    ("seed 42", "seed", "bad form", "0 words after 'seed', and the line is `seed SEED`", "seed"),
    ("seed 42\n", "", "unexpected word", "'unit' is not allowed at this place: here must come seed", "unit"),
    ("unit 2", "unit 0", "out of limit", "unit is 0, and must be from 1 to 1048576", "0"),
    ("unit 2", "unit 2\r", "bad form", "a CR", "\r"),
    ("cap 8", "cap 5000", "out of limit", "cap is 5000, and must be from 3 to 4096", "5000"),
    ("attrs 3 8 5\nt", "attrs 2 8 5\nt", "bad attrs", "min 2 is below 3", "2"),
    ("attrs 3 8 5\nt", "attrs 9 8 5\nt", "bad attrs", "min 9 is above max 8", "9"),
    ("attrs 3 8 5\nt", "attrs 3 8 1001\nt", "bad attrs", "aggr is 1001, and must be from 1 to 1000", "1001"),
    ("attrs 3 8 5\nt", "attrs 3 300 5\nt", "max over cap", "max 300 above cap 8", "300"),
    ("attrs 3 8 5\nt", "attrs 3 8 5 5\nt", "bad form", "4 words after 'attrs', and the line is `attrs MIN MAX AGGR`", "5"),
    ("attrs 3 8 5\nt", "\nattrs 3 8 5\nt", "unexpected word", "an empty line: here must come attrs", None),
    ("attrs 3 8 5\nt", "# regions\nattrs 3 8 5\nt", "unexpected word", "a script has no comments", "#"),
    ("target 0x10000 8", "target 10000 8", "bad number", "'10000' is not an address: it must begin with 0x", "10000"),
    ("target 0x10000 8", "target 0x1F000 8", "bad number", "'F' is not a hexadecimal digit in lower case", "0x1F000"),
    ("target 0x10000 8", "target 0x010000 8", "bad number", "'0x010000' has a leading zero", "0x010000"),
    ("target 0x10000 8", "target 0x10000000000000000 8", "bad number", "has 17 digits, and an address has at most 16", "0x10000000000000000"),
    ("target 0x10000 8", "target 0x10001 8", "out of limit", "the base 0x10001 is not a multiple of 4096", "0x10001"),
    ("target 0x10000 8", "target 0x10000 0", "out of limit", "a target has from 1 to 1048576 pages, and this one 0", "0"),
    ("target 0x20000 4", "target 0x20000 1048570", "out of limit", "there are 1048578 pages in all", "1048570"),
    ("target 0x10000 8", "target 0x7fffffffffff9000 8", "out of limit", "the target ends at 0x8000000000001000", "0x7fffffffffff9000"),
    ("range 1 0x20000", "range 2 0x20000", "bad range", "there is no target 2: the last one is target 1", "2"),
    ("0x20000 0x24000", "0x20800 0x24000", "bad range", "0x20800 is not a multiple of 4096", "0x20800"),
    ("0x20000 0x24000", "0x24000 0x20000", "bad range", "FROM, 0x24000, is not below TO, 0x20000", "0x24000"),
    ("0x20000 0x24000", "0x20000 0x25000", "bad range", "0x25000 is outside target 1, from 0x20000 to 0x24000", "0x25000"),
    ("0x20000 0x24000", "0x20000 0x21000", "bad range", "the range has 1 page, and a region has at least 2 (`unit`)", "0x21000"),
    ("0x24000 0\n", "0x24000 16\n", "bad range", "class 16 is above 15", "16"),
    ("0x14000 0x18000 1", "0x13000 0x18000 1", "bad range", "0x13000 is below 0x14000, the end of the range of line 8", "0x13000"),
    ("begin", "range 0 0x10000 0x14000 0\nbegin", "unexpected word", "here must come scheme or begin", "range"),
    ("0x24000 0\ns", "0x24000 0\nrange 0 0x10000 0x14000 0\ns", "bad range", "target 0 after target 1 (line 10)", "0"),
    ("cap 8\nattrs 3 8 5", "cap 8\nattrs 3 3 5", None, "", ""),
    ("0x10000 0x14000 0\nrange 0 0x14", "0x10000 0x12000 0\nrange 0 0x12000 0x14000 0\nrange 0 0x14", None, "", ""),
    ("pageout", "page_out", "bad form", "there is no action 'page_out' (is it 'pageout'?)", "page_out"),
    ("begin", "scheme 4\nbegin", "bad form", "a scheme needs a slot and an action", "4"),
    ("scheme 3 p", "scheme 16 p", "bad scheme", "slot 16 is above 15, the last slot", "16"),
    ("scheme 3 p", "scheme 256 p", "bad number", "256 is above 255, the greatest SLOT", "256"),
    ("begin", "scheme 3 stat\nbegin", "slot set twice", "(line 11) has set slot 3 already", "3"),
    ("count=0,1 age=5,9", "age=5,9 count=0,1", "bad form", "key 'count' after 'age': the order is size, count, age,", "count"),
    ("count=0,1 age", "count=0,1 count=0,1 age", "bad form", "key 'count' twice: only 'filter' may be repeated", "count"),
    ("count=0,1", "counts=0,1", "bad form", "there is no key 'counts' (is it 'count'?)", "counts"),
    ("count=0,1", "count", "bad form", "'count' is not a word `key=value`", "count"),
    ("count=0,1", "count=0", "bad form", "'count' needs 2 numbers, `count=MIN,MAX`, and has 1", "0"),
    ("count=0,1", "count=0,x", "bad number", "'x' is not a decimal number", "x"),
    ("count=0,1", "count=,1", "bad number", "MIN is empty", ""),
    ("count=0,1", "count=2,1", "bad scheme", "the minimum of 'count', 2, is above its maximum, 1", "2,1"),
    ("quota=409600,20", "quota=400K,20", "bad number", "'400K' is not a decimal number: 'K' is not a digit", "400K"),
    ("quota=409600,20", "quota=409600", "bad form", "'quota' needs 2 numbers, `quota=BYTES,TICKS`, and has 1", "409600"),
    ("quota=409600,20", "quota=409600,0", "bad scheme", "the reset interval of 'quota' is 0", "409600,0"),
    ("weights=0,1,3", "weights=0,1,65536", "bad number", "65536 is above 65535, the greatest AGE", "65536"),
    ("prefer=cold", "prefer=warm", "bad form", "'prefer' is hot or cold, and not 'warm'", "warm"),
    ("marks=500,400,200", "marks=200,400,500", "bad scheme", "the watermarks rise: mid, 400, is above high, 200", "200,400,500"),
    ("marks=500,400,200", "marks=500,400,401", "bad scheme", "the watermarks rise: low, 401, is above mid, 400", "500,400,401"),
    ("reject:class:1", "reject:class", "bad form", "a filter has three parts", "reject:class"),
    ("reject:class:1", "deny:class:1", "bad form", "a filter begins with allow or reject, and not with 'deny'", "deny"),
    ("reject:class:1", "reject:anon:1", "bad form", "there is no filter by 'anon'", "anon"),
    ("reject:class:1", "reject:addr:0x1000", "bad form", "a filter by addr needs two addresses", "0x1000"),
    ("reject:class:1", "reject:class:16", "bad scheme", "class 16 is above 15", "reject:class:16"),
    ("reject:class:1", "reject:addr:0x1000-0x1800", "bad scheme", "the address 0x1800 is not a multiple", "reject:addr:0x1000-0x1800"),
    (" filter=", 9 * " filter=reject:class:2" + " filter=", "out of limit", "this is a ninth filter", "filter"),
    ("size=2,64", " size=2,64", "bad form", "two spaces", "  "),
    ("class:1\n", "class:1 \n", "bad form", "a space at the end of the line", " "),
    ("arm", "finsh", "unexpected word", "there is no line 'finsh' (is it 'finish'?): here must come touch,", "finsh"),
    ("arm\n", " arm\n", "unexpected word", "a space at the beginning of the line", " "),
    ("arm\n", "arm\r\n", "unexpected word", "lines end with LF alone, and this one with CR LF", "\r"),
    ("arm\n", "arm 2\n", "bad form", "1 word after 'arm', and the line is `arm`", "2"),
    ("step 4", "step 0", "out of limit", "step is 0, and must be from 1 to 1000000", "0"),
    ("touch 0 0x11000", "touch 2 0x11000", "outside span", "there is no target 2: the last one is target 1", "2"),
    ("touch 0 0x11000", "touch 0 0x18000", "outside span", "0x18000 is outside target 0, from 0x10000 to 0x18000", "0x18000"),
    ("0x20000 0x22000", "0x20000 0x26000", "outside span", "0x26000 is outside target 1, from 0x20000 to 0x24000", "0x26000"),
    ("0x20000 0x22000", "0x20000 0x22001", "out of limit", "0x22001 is not a multiple of 4096", "0x22001"),
    ("0x20000 0x22000", "0x20000 0x20000", "out of limit", "FROM, 0x20000, is not below TO, 0x20000", "0x20000"),
    ("drop 3\n", "drop 3\nscheme 4 stat\n", "unexpected word",
     "(a commit changes one slot): in the commit of line 16 must come metric or apply", "scheme"),
    ("apply\n", "", "unexpected word", "'arm' is not allowed at this place: in the commit of line 16 must come apply", "arm"),
    ("drop 3\n", "drop 300\n", "bad number", "300 is above 255, the greatest SLOT", "300"),
    ("show\nend\n", "show\n", "input ends early", "the text ends after line 24: `end` is missing", None),
    ("show\nend\n", "show\nend", "input ends early", "the text ends before the LF of this line, 'end'", None),
    ("apply\narm\nfinish\nshow\nend\n", "", "input ends early", "in the commit that begins at line 16: `apply` is missing", None),
    ("show\nend\n", "show\nend\n\n", "text after end", "an empty line after `end`", ""),
    ("show\nend\n", "show\nend\nx", "text after end", "'x' after `end`", "x"),
    ("step 4\n", "step 1000000\n" * 17, "too much work", "the work is 17000000, and at most 16777216 is allowed; 0 of it", None),
    ("arm\n", "arm\n" * 900_000, "too much work", "each of which counts 19 with cap 8: a smaller cap", None),
)


def setUpModule() -> None:
    need_program()


def bad_scripts() -> Iterator[tuple[str, bytes, str]]:
    """The name, the script and the answer that is wanted of each case with a faulty script."""
    for line in CASES.read_text().splitlines():
        case = json.loads(line)
        if case["status"] == SCRIPT_FAULT:
            text = case["input"] if "input" in case else "".join(part * times for part, times in case["input_parts"])
            yield case["name"], text.encode("latin-1"), case["stderr"]


class Cases(unittest.TestCase):
    def test_each_case_has_the_programs_answer_and_a_reason(self) -> None:
        names = []
        for name, script, answer in bad_scripts():
            with self.subTest(name=name):
                fault = fault_of(script)
                assert fault is not None
                self.assertEqual(f"line {fault.line}: {fault.kind}\n", answer)
                self.assertTrue(explained(script, fault).startswith(answer.rstrip("\n") + ": "))
                self.assertMarksItsWord(script, fault)
                names.append(name)
        self.assertGreater(len(names), 200)

    def assertMarksItsWord(self, script: bytes, fault: Fault) -> None:
        """The place that is marked is a part of the line."""
        found = reason_of(script, fault)
        assert found is not None
        place = found[1]
        if place is not None:
            line = script.decode("latin-1").split("\n")[fault.line - 1]
            self.assertEqual(line[place.start : place.start + len(place.text)], place.text)


class Edits(unittest.TestCase):
    """A good script with one fault of which the reason is known."""

    def test_the_scripts_are_good(self) -> None:
        self.assertIsNone(fault_of(GOOD.encode()))
        self.assertIsNone(fault_of(GOOD_2.encode()))

    def test_a_cost_in_version_1(self) -> None:
        script = GOOD.replace("metric 5\n", "metric 5\ncost 3 4000\n")
        self.assertIn("'cost' is not allowed at this place (costs came with version 2)", self.reason(script))

    def test_reasons(self) -> None:
        self.try_edits(GOOD, EDITS)

    def test_reasons_in_version_2(self) -> None:
        self.try_edits(GOOD_2, EDITS_2)

    def try_edits(self, good: str, edits: tuple[tuple[str, str, str | None, str, str | None], ...]) -> None:
        for before, after, kind, part, marked in edits:
            with self.subTest(before=before, after=after[:60]):
                self.assertIn(before, good)
                script = good.replace(before, after, 1).encode()
                fault = fault_of(script)
                if kind is None:
                    self.assertIsNone(fault)
                    continue
                assert fault is not None
                self.assertEqual(fault.kind, kind)
                found = reason_of(script, fault)
                assert found is not None
                self.assertIn(part, found[0])
                self.assertEqual(found[1].text if found[1] else None, marked)

    def test_more_limits(self) -> None:
        targets = "".join(f"target {0x100000 * number:#x} 1\n" for number in range(1, 64))
        self.assertIn("there are at most 64", self.reason(GOOD.replace("target 0x10000 8\n", "target 0x10000 8\n" + targets, 1)))
        ranges = "".join(f"range 0 {0x10000 + 0x1000 * number:#x} {0x11000 + 0x1000 * number:#x} 0\n" for number in range(8))
        script = GOOD.replace("unit 2", "unit 1").replace("attrs 3 8 5\nt", "attrs 3 5 5\nt")
        script = script.replace("range 0 0x10000 0x14000 0\nrange 0 0x14000 0x18000 1\n", ranges, 1)
        self.assertEqual(self.reason(script), "this is range 6, counted from 1, and max is 5")
        self.assertIn("the text is empty", self.reason(""))
        self.assertEqual(self.reason("damon script 1\n"), "the text ends after line 1: seed must follow")

    def reason(self, script: str) -> str:
        fault = fault_of(script.encode())
        assert fault is not None
        found = reason_of(script.encode(), fault)
        assert found is not None
        return found[0]

    def test_nothing_is_made_up(self) -> None:
        """A kind that is not known, or a script of another version, has no reason."""
        self.assertIsNone(reason_of(GOOD.encode(), Fault(3, "a new kind")))
        self.assertIsNone(reason_of(GOOD.replace("script 1", "script 7").encode(), Fault(3, "bad form")))
        self.assertIsNone(reason_of(GOOD.encode(), Fault(3, "bad number")))
        self.assertEqual(explained(GOOD.encode(), Fault(3, "bad number")), "line 3: bad number\n")
        for line, kind in ((3, "out of limit"), (5, "bad attrs"), (5, "max over cap"), (6, "out of limit"), (8, "bad range"), (9, "bad range"),
                           (10, "bad range"), (10, "ranges over max"), (11, "bad form"), (11, "bad scheme"), (11, "out of limit"),
                           (14, "outside span"), (15, "outside span"), (15, "out of limit"), (18, "bad number")):
            with self.subTest(line=line, kind=kind):
                self.assertIsNone(reason_of(GOOD.encode(), Fault(line, kind)))


class Program(Refusals):
    def test_output(self) -> None:
        ran = run(TOOL, text=GOOD.replace("count=0,1 age=5,9", "age=5,9 count=0,1").encode())
        self.assertEqual((ran.returncode, ran.stderr), (1, b""))
        head, line, mark = ran.stdout.decode().splitlines()
        self.assertTrue(head.startswith("line 11: bad form: key 'count' after 'age': the order is "))
        self.assertEqual(line[mark.index("^") : mark.rindex("^") + 1], "count")

    def test_a_good_script(self) -> None:
        ran = run(TOOL, text=GOOD.encode())
        self.assertEqual((ran.returncode, ran.stdout, ran.stderr), (0, b"damon takes this script\n", b""))

    def test_errors(self) -> None:
        self.refused(TOOL, ["no-such-file: No such file or directory"], b"", "no-such-file")
        self.refused(TOOL, ["status 4: input is longer than 16777216 bytes"], b"\n" * 16_777_217)

    def test_a_script_in_a_file_and_odd_bytes(self) -> None:
        ran = run(TOOL, text=GOOD.replace("seed 42", "seed \xff\t2").encode("latin-1"))
        self.assertEqual(ran.stdout.decode().splitlines()[1:], ["    seed ??2", "         ^"])
        self.assertIn(b"the byte 0xff", ran.stdout)
        ran = run(TOOL, str(TOP / "examples/cold.damon"))
        self.assertEqual(ran.returncode, 0)


class Pieces(unittest.TestCase):
    def test_parts_know_their_columns(self) -> None:
        parts = Piece("a,,bc", 7).parts(",")
        self.assertEqual([(part.text, part.start) for part in parts], [("a", 7), ("", 9), ("bc", 10)])


if __name__ == "__main__":
    unittest.main()
