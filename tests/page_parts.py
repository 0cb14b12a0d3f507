"""Pages of tools/page.py and what they have, and what a report says: both read without the tools."""
from __future__ import annotations

import base64
import json
import re
import sys
import zlib
from array import array
from dataclasses import dataclass, field
from typing import Any

from tool_runs import run

from webpage.d3 import BUNDLE

PAGE = 4096
CODES = {"u1": "B", "u2": "H", "u4": "I", "f8": "d"}
META = re.compile(r'<script type="application/json" id="meta">(.*?)</script>', re.DOTALL)
BLOCK = re.compile(r'<script type="text/plain" id="block">(.*?)</script>', re.DOTALL)
D3 = re.compile(r"<script>\n// https://d3js.org.*?</script>", re.DOTALL)

REPORT = """\
aggregate tick=4 threshold=0 rows=2
apply 0 pageout 0 0x10000-0x12000 score=25
slot 0 left=2 taken=2 lowest=25
row 0 0x10000-0x14000 count=0 last=0 age=1
row 1 0x20000-0x22000 count=4 last=0 age=0
aggregate tick=6 threshold=0 rows=2
slot 0 inactive
row 0 0x10000-0x14000 count=1 last=0 age=0
row 1 0x20000-0x22000 count=0 last=4 age=0
end ticks=6 rows=2 checks=12 hits=5
"""


@dataclass(frozen=True)
class Row:
    """A row of a report; addresses in bytes."""

    target: int
    start: int
    end: int
    count: int
    last: int
    age: int

    @property
    def pages(self) -> int:
        return (self.end - self.start) // PAGE

    @property
    def addresses(self) -> str:
        return f"{self.start:#x}-{self.end:#x}"


@dataclass(frozen=True)
class Run:
    """A line `apply`."""

    slot: int
    action: str
    target: int
    start: int
    end: int
    score: int


@dataclass
class Found:
    """An aggregation of a report."""

    tick: int
    passes: int
    rows: list[Row] = field(default_factory=list)
    runs: list[Run] = field(default_factory=list)
    left: dict[int, int] = field(default_factory=dict)

    def row_at(self, target: int, address: int) -> Row:
        return next(row for row in self.rows if row.target == target and row.start <= address < row.end)

    @property
    def working_set(self) -> int:
        """In pages."""
        return sum(row.pages for row in self.rows if row.count)


def value(word: str) -> int:
    return int(word.partition("=")[2])


def aggregations_of(report: str) -> list[Found]:
    """The aggregations of a text, word by word."""
    found: list[Found] = []
    is_in = False
    for line in report.splitlines():
        words = line.split()
        if words[0] == "aggregate":
            tick = value(words[1])
            found.append(Found(tick, tick - (found[-1].tick if found else 0)))
        is_in = is_in if words[0] in ("row", "apply", "slot") else words[0] == "aggregate"
        if not is_in:
            continue
        if words[0] == "row":
            start, end = (int(address, 16) for address in words[2].split("-"))
            found[-1].rows.append(Row(int(words[1]), start, end, *map(value, words[3:6])))
        elif words[0] == "apply":
            start, end = (int(address, 16) for address in words[4].split("-"))
            found[-1].runs.append(Run(int(words[1]), words[2], int(words[3]), start, end, value(words[5])))
        elif words[0] == "slot" and words[2].startswith("left=") and words[2] != "left=none":
            found[-1].left[int(words[1])] = value(words[2])
    return found


@dataclass(frozen=True)
class Parts:
    """The data of a page, and its text without them and without D3."""

    meta: dict[str, Any]
    block: bytes
    rest: str

    def column(self, place: dict[str, Any]) -> list[float]:
        """The numbers of a column."""
        numbers: array[Any] = array(CODES[place["type"]])
        numbers.frombytes(self.block[place["at"] : place["at"] + place["length"] * numbers.itemsize])
        if sys.byteorder == "big":
            numbers.byteswap()
        return numbers.tolist()

    def columns(self, report: int, kind: str) -> dict[str, list[float]]:
        """The columns of one kind of a report."""
        return {name: self.column(place) for name, place in self.meta["reports"][report][kind].items()}


def parts_of(page: str) -> Parts:
    """The parts of a page, each of which it has once."""
    (meta,), (block,), (d3,) = META.findall(page), BLOCK.findall(page), D3.findall(page)
    rest = page.replace(meta, "", 1).replace(block, "", 1).replace(d3, "", 1)
    return Parts(json.loads(meta), zlib.decompress(base64.b64decode(block)), rest)


def d3_is_missing() -> bool:
    return not BUNDLE.is_file()


def made(*words: str, text: str = "") -> str:
    """The page that is made, which must be."""
    ran = run("page.py", *words, text=text.encode())
    if ran.returncode != 0 or ran.stderr:
        raise AssertionError(ran.stderr.decode())
    return ran.stdout.decode()
