"""The quotas that `damon tune` chose in a run. With them as commits `damon reclaim` says what they put out and what came back."""
from __future__ import annotations

import re
from typing import Iterator, NamedTuple, Sequence

from reports.blocks import Block, blocks_of
from reports.forms import ReportError
from units import PAGE_BITS

HOT, COLD = "hot", "cold"
"""The kinds of goals whose scores a report has."""
ROW = re.compile(r"^row [0-9]+ 0x([0-9a-f]+)-0x([0-9a-f]+) count=([0-9]+)", re.MULTILINE)
QUOTA = re.compile(r"(?<= quota=)[0-9]+")
SLOT = re.compile(r"scheme ([0-9]+) ")


class Goal(NamedTuple):
    """A goal that damon has accepted."""

    slot: int
    kind: str
    target: int
    low: int
    high: int

    def wants(self, quota: int, score: int) -> int:
        """The bytes that the goal asks for, as docs/FORMATS.md says it."""
        if score < self.target:
            wanted = quota + quota * (self.target - score) // self.target
        else:
            wanted = quota - quota * min(score - self.target, self.target) // self.target
        return max(min(wanted, self.high), self.low)


def goal_of(text: str) -> Goal:
    slot, kind, *numbers = text.split(":")
    return Goal(int(slot), kind, *map(int, numbers))


def quota_commits(report: str, goals: Sequence[Goal], schemes: Sequence[str]) -> tuple[list[tuple[str, str]], int]:
    """The commits that set the quotas of these schemes as the tuner did, and the bytes of all quotas with a goal at the end."""
    lines = {int(found[1]): line for line in schemes if (found := SLOT.match(line))}
    tuned = {slot for slot in {goal.slot for goal in goals} & set(lines) if QUOTA.search(lines[slot]) and " marks=" not in lines[slot]}
    given = {slot: quota_in(lines[slot]) for slot in tuned}
    quotas = dict(given)
    commits = []
    for tick, scores in scores_of(report):
        for slot in sorted(tuned):
            wanted = min(goal.wants(quotas[slot], scores[goal.kind]) for goal in goals if goal.slot == slot)
            new = min(wanted, given[slot])
            if new != quotas[slot]:
                quotas[slot] = new
                commits.append((str(tick), QUOTA.sub(str(new), lines[slot])))
    return commits, sum(quotas.values())


def quota_in(line: str) -> int:
    found = QUOTA.search(line)
    return int(found[0]) if found else 0


def scores_of(report: str) -> Iterator[tuple[int, dict[str, int]]]:
    """The tick of each aggregation, with its scores. Raises ReportError."""
    try:
        for block in blocks_of(report):
            yield block.tick, scores_in(block)
    except (ValueError, ZeroDivisionError):
        raise ReportError("the report of a run with goals has an aggregation without rows") from None


def scores_in(block: Block) -> dict[str, int]:
    """The shares of the pages that were found accessed, and that were not, in thousandths."""
    pages = hot = 0
    for start, end, count in ROW.findall(block.lines):
        size = (int(end, 16) - int(start, 16)) >> PAGE_BITS
        pages += size
        hot += size if count != "0" else 0
    return {HOT: 1000 * hot // pages, COLD: 1000 * (pages - hot) // pages}
