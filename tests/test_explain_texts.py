#!/usr/bin/env python3
"""Tests of tools/explain.py over live scripts, texts of several contexts, journals and the words of a command."""
from __future__ import annotations

import json
import lzma
import unittest
from typing import Any, Iterator

from tool_runs import DAMOND, PROGRAM, TOP, Refusals, need_program, run

from scripts.command_words import reason_of_words
from scripts.journals import LEFT_TO_THE_RUN, State, follow, reason_of_journal, wrong_number

TOOL = "explain.py"
CASES = TOP / "tests/cases"
LAWFUL, USAGE, UNLAWFUL = 0, 2, 10
LIVE = (TOP / "examples/workers.damon").read_text()
JOURNAL = (TOP / "examples/live.journal").read_text()
ADMIN = "damon admin 1\n" + "".join(f"{digit} {line}\n" for line in (TOP / "examples/first.damon").read_text().splitlines() for digit in "03")


def setUpModule() -> None:
    need_program(PROGRAM, DAMOND)


def cases(*names: str) -> Iterator[dict[str, Any]]:
    for name in names:
        for line in (CASES / f"{name}.jsonl").read_text().splitlines():
            yield json.loads(line)


def text_of(case: dict[str, Any]) -> str:
    return str(case["input"]) if "input" in case else "".join(part * times for part, times in case.get("input_parts", []))


def said_of(text: str) -> tuple[int, str]:
    """The status and what is said of a text."""
    ran = run(TOOL, text=text.encode("latin-1"))
    if ran.stderr:
        raise AssertionError(ran.stderr.decode())
    return ran.returncode, ran.stdout.decode()


class Words(unittest.TestCase):
    def test_words_of_the_cases(self) -> None:
        """Words that the program refuses have a reason, and those that it takes have none."""
        found = 0
        for case in cases("words", "tune", "heat", "examples"):
            if all(isinstance(word, str) for word in case["words"]):
                with self.subTest(words=case["words"]):
                    self.assertEqual(reason_of_words(case["words"]) is not None, case["status"] == USAGE)
                found += case["status"] == USAGE
        self.assertGreater(found, 10)

    def test_reasons(self) -> None:
        for words, part in (
            ("", "there is no command"), ("--help", "damon has no options"), ("run", "a command of damond"), ("replya",
             "there is no command 'replya' (is it 'replay'?)"),
            ("replay x", "'replay' takes no word after it, and here is 'x'"), ("heat 9", "'heat' takes 8, 16 or 64 columns, and not '9'"),
            ("heat", "'heat' takes one word, 8, 16 or 64 columns, and here are 0"), ("gen -1", "N is a decimal number without a sign"),
            ("gen 18446744073709551616", "N is from 0 to 18446744073709551615"), ("tune", "1 to 16 goals"),
            ("tune 0:cold:0:1:2", "the goal '0:cold:0:1:2': TARGET is from 1 to 4294967295, and not 0"), ("tune 16:cold:10:1:2",
             "SLOT is from 0 to 15, and not 16"),
            ("tune 0:cold:10:9:2", "LOW, 9, is above HIGH, 2"), ("tune 0:cool:10:1:2", "KIND is metric, hot or cold, and not 'cool'"),
            ("tune 0:cold:10:1", "it has 4 fields, and needs 5"), ("tune 0:cold:10:01:2",
             "LOW is a decimal number without a sign or a leading zero, and not '01'"),
        ):
            self.assertIn(part, reason_of_words(words.split()) or "")

    def test_output(self) -> None:
        ran = run(TOOL, "--words", "heat", "9")
        self.assertEqual((ran.returncode, ran.stdout), (1, b"'heat' takes 8, 16 or 64 columns, and not '9'\n"))
        ran = run(TOOL, "--words", "tune", "0:cold:880:1:2")
        self.assertEqual((ran.returncode, ran.stdout), (0, b"damon takes these words\n"))
        ran = run(TOOL, "--words", "--help")
        self.assertEqual((ran.returncode, ran.stdout[:8]), (1, b"'--help'"))


class Journals(unittest.TestCase):
    def test_nothing_is_wrong_with_lawful_journals(self) -> None:
        """What the lines before a line tell is true of each journal that damon takes."""
        texts = [text_of(case) for case in cases("journals", "heat") if case["status"] == LAWFUL and text_of(case)]
        texts += [JOURNAL, "".join(lzma.decompress((TOP / "examples/workers.journal.xz").read_bytes()).decode().splitlines(keepends=True)[:3000])]
        self.assertGreater(len(texts), 100)
        for text in texts:
            lines, state = text.splitlines(), State()
            for line in lines[lines.index("begin") + 1 :]:
                self.assertIn(line.split(" ")[0], state.allowed, line)
                self.assertIsNone(wrong_number(state, line), line)
                follow(state, line)

    def test_each_case_has_a_reason(self) -> None:
        left = found = 0
        for case in cases("journals"):
            if case["status"] == UNLAWFUL and case["words"] == ["verify"]:
                number = int(case["stderr"].split()[1].rstrip(":"))
                reason = reason_of_journal(text_of(case).encode("latin-1"), number)
                self.assertTrue(reason)
                found += 1
                left += reason == LEFT_TO_THE_RUN
        self.assertGreater(found, 50)
        self.assertLess(left, found / 3)

    def test_edits(self) -> None:
        for before, after, part in (
            ("damon journal 1", "damon journal 3", "line 1: not a lawful journal: the first line must be exactly"),
            ("cap 3", "cap 2", "line 4: not a lawful journal: out of limit: cap is 2, and must be from 3 to 4096"),
            ("begin", "scheme 0 stat count=0,4294967295\nbegin", "which has no key of a scheme with its default"),
            ("prepare 1 at 0", "prepare 2 at 0", "PASS is 2, and must be 1"), ("prepare 1 at 0", "prepare 1 at 1", "POSITION is 1, and must be 0"),
            ("prepare 1 at 0", "prepare 1 at x", "the line is not of the form `prepare PASS at POSITION`"),
            ("prepare 1 at 0\n", "", "'check 1 1': here must come `prepare PASS at POSITION`"),
            ("call 0 0", "call 0 1", "INDEX of controller 0 is 1, and must be 0"), ("answer shown tick=0", "answer shown tick=1",
             "tick is 1, and must be 0"),
            ("check 1 1", "check 1 11", "the number of BITS is 2, and must be 1"), ("check 1 1", "check 2 1", "PASS is 2, and must be 1"),
            ("check 1 1", "chek 1 1", "here must come `check PASS BITS`, `void PASS`, `call CONTROLLER INDEX show|commit` or `receipts`"),
            ("seen 0 0 0x0 1\n", "", "pass 1 has 1 hit, and receipts with its tag for 0 pages"), ("seen 1 0 0x0 0", "seen 16 0 0x0 0",
             "the last one there can be is 15"),
            ("seen 0 0 0x0 1", "seen 2 0 0x0 1", "WORKER is 1 after 2"), ("seen 1 0 0x0 0", "seen 1 0 0x800 0", "not the first byte of a page"),
            ("seen 1 0 0x0 0", "seen 1 0 0x0 2", "TAG is 2, and the last pass that was prepared is 1"), ("show tick=1", "show tick=2",
             "tick is 2, and must be 1"),
            ("row 0 0x0-0x1000 count=1", "row 0 0x0-0x1000 count=0", LEFT_TO_THE_RUN), ("hits=1", "hits=0", "hits is 0, and must be 1"),
            ("settled\n", "", "here must come `seen WORKER TARGET ADDRESS TAG` or `settled`"), ("end ticks=1 rows=1 checks=1 hits=1\n", "",
             "the text ends after line 18"),
        ):
            with self.subTest(before=before, after=after):
                self.assertIn(before, JOURNAL)
                status, said = said_of(JOURNAL.replace(before, after, 1))
                self.assertEqual(status, 1)
                self.assertIn(part, said)

    def test_a_lawful_one(self) -> None:
        self.assertEqual(said_of(JOURNAL), (0, "damon takes this journal\n"))


class LiveScripts(unittest.TestCase):
    def test_edits(self) -> None:
        passes = next(line for line in LIVE.splitlines() if line.startswith("passes "))
        for before, after, parts in (
            ("damon live 1", "damon live 3", ["no header", "`damon live 1` or `damon live 2`"]), (passes, "passes 0", ["out of limit",
             "passes is 0, and must be from 1 to 1000000"]),
            (passes, "begin", ["unexpected word", "there is no line 'begin'", "here must come"]), (passes, f"{passes}\narm",
             ["there is no line 'arm'", "worker, controller or end"]),
            ("worker\n", "worker 1\n", ["bad form", "1 word after 'worker', and the line is `worker`"]), ("worker\n", "wroker\n",
             ["(is it 'worker'?)"]),
            ("end\n", "controller\nworker\nend\n", ["'worker' is not allowed at this place: here must come show, commit, controller or end"]),
            ("end\n", "controller\n" * 5 + "end\n", ["out of limit", "this is controller 4, counted from 0, and there are at most 4"]),
            ("end\n", "worker\n" * 14 + "end\n", ["out of limit", "this is worker 16, counted from 0, and there are at most 16"]),
            ("end\n", "controller\nshow\ncommit\nmetric x\napply\nend\n", ["bad number", "'x' is not a decimal number"]),
            ("end\n", "worker\n" + "sweep 0 0x10000000 0x10200000\n" * 2000 + "end\n", ["too much work",
             "touches of all workers, and at most 1048576"]),
            ("end\n", "controller\n" + "show\n" * 65_537 + "end\n", ["too much work", "more than 65536 calls"]), ("end\n", "",
             ["input ends early: the text ends after line"]),
            ("end\n", "end\nend\n", ["text after end", "'end' after `end`"]), (passes, "passes 1000000", ["passes times cap is above 4194304",
             "1000000 passes with cap"]),
        ):
            with self.subTest(after=after[:50]):
                self.assertIn(before, LIVE)
                status, said = said_of(after.join(LIVE.rsplit(before, 1)) if before == "end\n" else LIVE.replace(before, after, 1))
                self.assertEqual(status, 1)
                for part in parts:
                    self.assertIn(part, said)

    def test_one_that_is_taken_is_not_carried_out(self) -> None:
        self.assertEqual(said_of(LIVE), (0, "damon takes this live script\n"))


class Contexts(unittest.TestCase):
    def test_the_text(self) -> None:
        for text, part in ((ADMIN.replace("damon admin 1", "damon admin 2"), "line 1: no header: the first line must be exactly `damon admin 1`"),
                           (ADMIN.replace("0 end", "8 end"), "bad form: each later line begins with the digit of a context, from 0 to 7"),
                           (ADMIN[:-1], "input ends early: the text ends before the LF of this line, '3 end'")):
            status, said = said_of(text)
            self.assertEqual(status, 1)
            self.assertIn(part, said)

    def test_each_context_that_is_no_script(self) -> None:
        text = ADMIN.replace("0 unit 1", "0 unit 0").replace("3 end\n", "")
        unit, last = 1 + text.splitlines().index("0 unit 0"), len([line for line in text.splitlines() if line[0] == "3"])
        status, said = said_of(text)
        self.assertEqual((status, said), (1, f"context 3, its line {last + 1}: input ends early: the text ends after line {last}: `end` is missing\n"
                                             f"line {unit}, context 0, its line 3: out of limit: unit is 0, and must be from 1 to 1048576\n"
                                             "    unit 0\n         ^\n"))

    def test_all_are_scripts(self) -> None:
        self.assertEqual(said_of(ADMIN), (0, "damon takes this text of contexts\n"))


class Errors(Refusals):
    def test_options(self) -> None:
        self.refused(TOOL, ["--words takes no text"], b"", "x.damon", "--words", "heat")


if __name__ == "__main__":
    unittest.main()
