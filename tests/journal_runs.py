"""Makes lawful journals: a run whose hits are chosen is carried out by `damon replay`, and its journal is put together
from the run's report.

The picks are computed here from the random words, so the workload touches exactly the picks that are to be hit. What the
rows are after an aggregation or a commit is asked of the report, and nothing here knows how rows are merged or split.
"""
from __future__ import annotations

import re
import subprocess
from dataclasses import dataclass, field
from typing import Callable, Iterator, List, NamedTuple, Optional, Sequence, Tuple

from tool_runs import PROGRAM

PAGE = 4096
SHOW = re.compile(r"show tick=\d+ phase=(\w+) rows=\d+")
AGGREGATE = re.compile(r"aggregate tick=(\d+) threshold=\d+ rows=\d+")
ROW = re.compile(r"row (\d+) 0x([0-9a-f]+)-0x([0-9a-f]+) count=(\d+) last=\d+ age=\d+")
ANSWER = re.compile(r"commit tick=\d+ (.*)")


class Row(NamedTuple):
    """A row of a report; pages are numbered within the target."""

    target: int
    first: int
    after: int
    hits: int


@dataclass
class Setup:
    """What a run starts with. Ranges and targets are in pages; `schemes` are lines in their one spelling."""

    attrs: Tuple[int, int, int]
    targets: Sequence[Tuple[int, int]]
    ranges: Sequence[Tuple[int, int, int]]
    unit: int = 1
    seed: int = 42
    version: int = 1
    schemes: Sequence[str] = ()
    cap: Optional[int] = None

    def lines(self) -> List[str]:
        """The lines of the setup, from `seed` to `begin`."""
        least, most, aggr = self.attrs
        lines = [f"seed {self.seed}", f"unit {self.unit}", f"cap {self.cap or most}", f"attrs {least} {most} {aggr}"]
        lines += [f"target {base:#x} {pages}" for base, pages in self.targets]
        lines += [self.range_line(*it) for it in self.ranges]
        return [*lines, *self.schemes, "begin"]

    def range_line(self, target: int, first: int, after: int) -> str:
        base = self.targets[target][0]
        return f"range {target} {base + first * PAGE:#x} {base + after * PAGE:#x} 0"


class Aggregation(NamedTuple):
    """The tick of an aggregation, the rows that it reports, and `aggr` then."""

    tick: int
    rows: List[Row]
    aggr: int


Choice = Callable[[int, Row], bool]
"""Whether a row is hit in a pass, by its index."""


@dataclass
class Run:
    """A run up to now: the body of its script, and the entries and receipts of its journal."""

    setup: Setup
    body: List[str] = field(default_factory=list)
    entries: List[str] = field(default_factory=list)
    receipts: List[str] = field(default_factory=list)
    aggrs: List[int] = field(default_factory=list)
    position: int = 0
    passes: int = 0
    since: int = 0
    calls: int = 0
    known: Optional[List[Row]] = None

    def __post_init__(self) -> None:
        _, self.most, self.aggr = self.setup.attrs
        self.words = words_of(self.setup.seed)
        self.drawn: List[int] = []

    # What happens.

    def make_pass(self, is_hit: Choice) -> None:
        """A pass in which these rows are hit, and the aggregation that is due after it."""
        rows, picks = self.arm()
        hits = [is_hit(index, row) for index, row in enumerate(rows)]
        for row, pick, hit in zip(rows, picks, hits):
            if hit:
                address = self.address(row.target, pick)
                self.body.append(f"touch {row.target} {address:#x}")
                self.receipts.append(f"seen 0 {row.target} {address:#x} {self.passes}")
        self.body.append(f"step {len(rows) + 1}")
        self.entries.append(f"check {self.passes} {''.join('1' if hit else '0' for hit in hits)}")
        self.end_pass()

    def make_passes(self, number: int, is_hit: Choice) -> None:
        for _ in range(number):
            self.make_pass(is_hit)

    def void_pass(self, *lines: str) -> None:
        """A pass that becomes void by a commit with these lines, which must be accepted."""
        self.arm()
        self.commit(*lines)
        assert self.entries[-1].endswith("void=yes"), self.entries[-1]
        self.body.append("step 1")
        self.entries.append(f"void {self.passes}")
        self.end_pass()

    def commit(self, *lines: str) -> None:
        """A commit of the controller; what its `attrs` line says holds from then on if it is accepted."""
        self.body += ["commit", *lines, "apply"]
        self.known = None
        answer = [match[1] for match in map(ANSWER.fullmatch, self.report()) if match][-1]
        self.entries += [f"call 0 {self.calls} commit", *lines, "apply", f"answer {answer}"]
        self.calls += 1
        for words in (line.split() for line in lines):
            if words[0] == "attrs" and answer.startswith("ok"):
                self.most, self.aggr = int(words[2]), int(words[3])

    def show(self) -> None:
        """A show of the controller."""
        self.entries += [f"call 0 {self.calls} show", f"answer shown tick={self.passes} rows={len(self.rows())}"]
        self.calls += 1

    def arm(self) -> Tuple[List[Row], List[int]]:
        """A pass is prepared and its picks are cleared. Gives the rows, and the page of the target that each one's pick is."""
        rows = self.rows()
        self.passes += 1
        self.entries.append(f"prepare {self.passes} at {self.position}")
        self.body.append("arm")
        return rows, [row.first + word % (row.after - row.first) for row, word in zip(rows, self.draw(len(rows)))]

    def end_pass(self) -> None:
        self.since += 1
        if self.since >= self.aggr:
            self.entries.append(f"aggregate {self.passes} at {self.position}")
            self.body.append("step 1")
            self.aggrs.append(self.aggr)
            self.draw(2 * self.most)
            self.since, self.known = 0, None

    # What is read and written.

    def draw(self, number: int) -> List[int]:
        self.position += number
        return [next(self.words) for _ in range(number)]

    def address(self, target: int, page: int) -> int:
        return self.setup.targets[target][0] + page * PAGE

    def report(self) -> List[str]:
        """The lines that `damon replay` writes of the run up to now, with a show at the end."""
        script = [f"damon script {self.setup.version}", *self.setup.lines(), *self.body, "show", "end", ""]
        ran = subprocess.run([PROGRAM, "replay"], input="\n".join(script).encode(), capture_output=True)
        assert ran.returncode == 0, (ran.stderr, script)
        return ran.stdout.decode().splitlines()

    def rows(self) -> List[Row]:
        """The rows now; their counts are not looked at."""
        if self.known is None:
            self.known = self.rows_of(self.last_show())
        return self.known

    def last_show(self) -> List[str]:
        """The lines of a show now, and the last line of the report."""
        report = self.report()
        return report[max(at for at, line in enumerate(report) if SHOW.fullmatch(line)) :]

    def rows_of(self, lines: Sequence[str]) -> List[Row]:
        found = []
        for match in filter(None, map(ROW.fullmatch, lines)):
            base = self.setup.targets[int(match[1])][0]
            found.append(Row(int(match[1]), (int(match[2], 16) - base) // PAGE, (int(match[3], 16) - base) // PAGE, int(match[4])))
        return found

    def journal(self) -> str:
        head = [f"damon journal {self.setup.version}", *self.setup.lines()]
        return "\n".join([*head, *self.entries, "receipts", *self.receipts, "settled", *self.last_show(), ""])

    def aggregations(self) -> List[Aggregation]:
        """What the aggregations of the run reported."""
        report = self.report()
        starts = [at for at, line in enumerate(report) if AGGREGATE.fullmatch(line)]
        found = []
        for at, aggr in zip(starts, self.aggrs):
            match = AGGREGATE.fullmatch(report[at])
            assert match
            after = next(i for i in range(at + 1, len(report)) if not report[i].startswith(("row ", "apply ", "slot ")))
            found.append(Aggregation(int(match[1]), self.rows_of(report[at:after]), aggr))
        assert len(found) == len(self.aggrs)
        return found


def words_of(seed: int) -> Iterator[int]:
    """The random words: PCG XSH RR with 64 bits of state and 32 bits of output, stream 54."""
    mask, increment = (1 << 64) - 1, 54 << 1 | 1
    state = ((seed + increment) * 6364136223846793005 + increment) & mask
    while True:
        mixed, turn = ((state >> 18 ^ state) >> 27) & 0xFFFFFFFF, state >> 59
        yield (mixed >> turn | mixed << (-turn & 31)) & 0xFFFFFFFF
        state = (state * 6364136223846793005 + increment) & mask
