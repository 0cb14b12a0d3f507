#!/usr/bin/env python3
"""Tests of docs/report.schema.json: its shape, and the JSON lines of all cases against it.

Lines are checked by an interpreter that has jsonschema: for Debian's `apt-get install python3-jsonschema` installs it.
Without one these tests are skipped.
"""
from __future__ import annotations

import json
import re
import subprocess
import tempfile
import unittest
from itertools import accumulate
from pathlib import Path
from typing import Any, Iterator

from run_cases import CASES, Case, load
from tool_runs import PROGRAM, SECONDS, TOP, interpreter_with, need_program

SCHEMA = TOP / "docs/report.schema.json"
CHECKER = TOP / "tests/report_schema.py"
MOST_BYTES = 1 << 17
"""Of a longer report the lines that begin in its first bytes are checked."""

Members = dict[str, Any]
ROW: Members = {"age": 1, "count": 0, "end": "0x11000", "last": 0, "start": "0x10000", "target": 0}
RUN: Members = {"action": "pageout", "end": "0x11000", "score": 11, "slot": 3, "start": "0x10000", "target": 0}
CHOICE: Members = {"active": True, "left": 1, "lowest": 11, "slot": 3, "taken": 1}
INACTIVE: Members = {"active": False, "left": None, "lowest": None, "slot": 3, "taken": 0}
SLOT: Members = {"action": "pageout", "active": True, "applied": 1, "charged": 1, "exceeds": 2, "slot": 3, "start": 0, "tried": 6}
SHOW: Members = {"kind": "show", "phase": "idle", "rows": [ROW], "slots": [SLOT], "tick": 0}
AGGREGATE: Members = {"applied": [RUN], "choices": [CHOICE, INACTIVE], "kind": "aggregate", "rows": [ROW],
                      "threshold": 0, "tick": 1}
COMMIT: Members = {"answer": "ok rows=3 void=no", "kind": "commit", "tick": 0}
END: Members = {"checks": 9, "hits": 0, "kind": "end", "rows": 3, "ticks": 3}
LINES = {"show": SHOW, "aggregate": AGGREGATE, "commit": COMMIT, "end": END}


def setUpModule() -> None:
    need_program()


def refused(lines: bytes) -> dict[int, str]:
    """The numbers of the lines that the schema refuses, counted from 1, each with the reason."""
    ran = subprocess.run([interpreter_with("jsonschema") or "", CHECKER, SCHEMA], input=lines, capture_output=True, timeout=SECONDS)
    if ran.stderr:
        raise AssertionError(ran.stderr.decode())
    return {int(number): fault for number, fault in (line.split(": ", 1) for line in ran.stdout.decode().splitlines())}


def objects_of(part: Any) -> Iterator[dict[str, Any]]:
    """All parts of a schema that are objects themselves."""
    if isinstance(part, dict):
        yield part
    for inner in part.values() if isinstance(part, dict) else part if isinstance(part, list) else ():
        yield from objects_of(inner)


class Shape(unittest.TestCase):
    """The schema leaves no member, number, string and list open."""

    PARTS = list(objects_of(json.loads(SCHEMA.read_text())))

    def of_type(self, name: str) -> list[dict[str, Any]]:
        return [part for part in self.PARTS if part.get("type") in (name, [name, "null"])]

    def test_members(self) -> None:
        objects = self.of_type("object")
        self.assertEqual(len(objects), 8)
        for part in objects:
            self.assertEqual((part["additionalProperties"], part["required"]), (False, sorted(part["properties"])), part)

    def test_numbers_lists_and_strings(self) -> None:
        for name, limits in (("integer", ("minimum", "maximum")), ("array", ("items", "maxItems")), ("string", ("pattern",))):
            found = [part for part in self.of_type(name) if part != {"type": name}]
            self.assertGreaterEqual(len(found), 4, name)
            for part in found:
                self.assertLessEqual(set(limits), set(part), part)

    def test_each_definition_is_used(self) -> None:
        used = {part["$ref"].rsplit("/", 1)[1] for part in self.PARTS if "$ref" in part}
        self.assertEqual(used, set(json.loads(SCHEMA.read_text())["$defs"]))


class Lines(unittest.TestCase):
    @classmethod
    def setUpClass(cls) -> None:
        if interpreter_with("jsonschema") is None:
            raise unittest.SkipTest("no python3 has jsonschema (Debian's python3-jsonschema): no JSON line was checked against the schema")

    def test_the_lines_of_all_cases(self) -> None:
        cases, faults = load([CASES])
        self.assertEqual(faults, [])
        cases = [case for case in cases if case.words in ([b"replay"], [b"json"]) and case.wanted.status == 0]
        self.assertGreater(len(cases), 800)
        reports = [report_of(case) for case in cases]
        ends = list(accumulate(report.count(b"\n") for report in reports))
        wrong = refused(b"".join(reports))
        places = {number: next(case.name for case, end in zip(cases, ends) if number <= end) for number in wrong}
        self.assertEqual([f"{places[number]}: {fault}" for number, fault in wrong.items()], [])

    def test_the_lines_that_formats_has(self) -> None:
        block = re.findall(r"^```\n(\{.*?)^```", (TOP / "docs/FORMATS.md").read_text(), re.MULTILINE | re.DOTALL)[-1]
        lines = block.replace(",\n", ",")
        self.assertEqual((lines.count("\n"), refused(lines.encode())), (2, {}))

    def test_lines_that_are_none(self) -> None:
        lines = [json.dumps(line) for line in faulty_lines()]
        self.assertGreater(len(lines), 200)
        right = [json.dumps(line) for line in LINES.values()]
        self.assertEqual(refused("\n".join(right).encode()), {})
        self.assertEqual(set(range(1, len(lines) + 1)) - set(refused("\n".join(lines).encode())), set(), lines)


def report_of(case: Case) -> bytes:
    """The JSON lines of a case, from a run of `json`, or the first ones of many."""
    found: list[bytes] = []
    left = MOST_BYTES
    with tempfile.TemporaryFile() as script:
        script.write(case.stdin.read_bytes() if isinstance(case.stdin, Path) else case.stdin)
        script.seek(0)
        with subprocess.Popen([PROGRAM, "json"], stdin=script, stdout=subprocess.PIPE, stderr=subprocess.DEVNULL) as ran:
            assert ran.stdout
            while left > 0 and (line := ran.stdout.readline()):
                found.append(line)
                left -= len(line)
            # The rest of a longer report has nobody who reads it.
            ran.stdout.close()
    return b"".join(found)


def faulty_lines() -> Iterator[Any]:
    """Lines that differ from right ones in one thing."""
    yield from ({}, [], 7, {"kind": "show"}, {**END, "kind": "ends"})
    for line in LINES.values():
        yield from faulty_forms(line)
    for name, kinds in (("rows", (SHOW, AGGREGATE)), ("slots", (SHOW,)), ("applied", (AGGREGATE,)), ("choices", (AGGREGATE,))):
        for line in kinds:
            for item in (faulty for first in line[name] for faulty in faulty_forms(first)):
                yield {**line, name: [item]}
    yield from ({**SHOW, "rows": []}, {**SHOW, "rows": [ROW] * 4097}, {**SHOW, "slots": [SLOT] * 17}, {**AGGREGATE, "tick": 0})
    for choice in ({**CHOICE, "lowest": None}, {**CHOICE, "taken": 0}, {**CHOICE, "active": False}, {**INACTIVE, "left": 0}):
        yield {**AGGREGATE, "choices": [choice]}
    for answer in ANSWERS:
        yield {**COMMIT, "answer": answer}


def faulty_forms(members: Members) -> Iterator[Members]:
    """The same with a member less, a member more, and each member with other values."""
    yield {**members, "more": 0}
    for name, value in members.items():
        yield {other: kept for other, kept in members.items() if other != name}
        for wrong in wrong_values(name, value):
            yield {**members, name: wrong}


def wrong_values(name: str, value: Any) -> list[Any]:
    """Values that the member with this name cannot have, in place of this one."""
    if name in ("start", "end") and isinstance(value, str):
        return ["", "0x00", "0x1001", "0x010000", "0X1000", "0x1A000", "1000", "0x8000000000001000", 4096, None]
    if isinstance(value, bool):
        return [0, "yes", None]
    if isinstance(value, int):
        return [-1, 0.5, str(value), True, [], 1 << 60]
    return ["", "no", 0, True, {}]


ANSWERS = [
    "ok", "ok rows=0 void=no", "ok rows=3 void=maybe", "ok rows=03 void=no", "ok rows=3 void=no ", "refused", "refused busy",
    "refused busy next=01", "refused no-range index=0", "refused bad-range index=0", "refused bad-range index=0 large",
    "refused ranges-over-max ranges=0 max=3", "refused bad-attrs", "refused bad-attrs overlap", "refused over-cap max=9",
    "refused bad-scheme too-many", "refused bad-cost slot=15", "refused bad-cost slot=256", "done",
]


if __name__ == "__main__":
    unittest.main()
