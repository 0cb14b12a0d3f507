"""Workloads: the parts of a script that settings do not change, and the touched pages of each of its intervals.

They are made of scripts whose passes are `arm`, touches and `finish`, or, in `traces`, of traces.
"""
from __future__ import annotations

import re
from bisect import bisect_right
from itertools import accumulate
from typing import NamedTuple

from common import UsageError, opened
from measuring.truth import Range, Truths
from scripts.grammar import HEADERS, first_word
from scripts.reading import ARM, COMMIT, TOUCHES, Commit, OtherLine, Pass, touched_by
from scripts.setup import Script
from tracing.commits import Commits, commit_lines
from tracing.intervals import Runs, runs_of
from units import PAGE_BITS

from .plan import SEED, Plan, Value

SWEEP = re.compile(rb"^sweep [0-9]+ 0x([0-9a-f]+) 0x([0-9a-f]+)$", re.MULTILINE)
WORKS = re.compile(rb"^(?:touch|show|apply)\b", re.MULTILINE)
"""Lines with a work of 1."""


class Workload(NamedTuple):
    """What is touched, and where."""

    name: str
    header: str
    places: tuple[str, ...]
    """The lines of targets and ranges."""
    defaults: dict[str, Value]
    """The settings that hold where the plan has no others."""
    schemes: tuple[str, ...]
    whole: bytes
    """The body."""
    passes: list[int]
    """Where the line `arm` of each interval begins in it."""
    truths: Truths
    pages: int
    """All that are watched."""
    work: int
    """That of all lines of the body but `arm` and `finish`, as a script counts it."""

    def body(self, commits: Commits) -> bytes:
        """The body, with these commits before their intervals, which rise."""
        pieces: list[bytes] = []
        before = 0
        for interval, some in commits.items():
            if interval < len(self.passes):
                place = self.passes[interval]
                lines = [line for commit in some for line in commit_lines(commit)]
                pieces += [self.whole[before:place], "".join(f"{line}\n" for line in lines).encode("latin-1")]
                before = place
        return b"".join([*pieces, self.whole[before:]])


class Key(NamedTuple):
    """What a workload depends on: all scripts with this are the same but for settings."""

    name: str
    interval: int
    unit: int


class Numbers:
    """The numbers of watched pages, as `Truths` counts them."""

    def __init__(self, ranges: list[Range]) -> None:
        self.ranges = ranges
        self.bases = list(accumulate((one.pages for one in ranges), initial=0))
        self.starts = [(one.target, one.first) for one in ranges]

    def of_touches(self, pages: set[tuple[int, int]]) -> Runs:
        """Those of the watched ones among these pages, each with its target. The ranges of a script rise."""
        found: list[int] = []
        for target, page in pages:
            place = bisect_right(self.starts, (target, page)) - 1
            one = self.ranges[place]
            if place >= 0 and one.target == target and page < one.after:
                found.append(self.bases[place] + page - one.first)
        return runs_of(sorted(found))


class PassedScript(NamedTuple):
    """A script whose passes are `arm`, touches and `finish`."""

    script: Script
    defaults: dict[str, Value]
    ranges: list[Range]
    intervals: list[Runs]
    """The numbers of the watched pages that each pass touches."""


def passed_script(path: str, target: int | None = None) -> PassedScript:
    """The script in a file, of which only this target is looked at, if one is given. Raises UsageError."""
    with opened(path) as stream:
        text = stream.read()
    try:
        script = Script.of(text)
        attrs = [int(word) for word in script.words("attrs")]
        if len(attrs) != 3:
            raise UsageError("the line `attrs` must have three numbers")
        defaults: dict[str, Value] = {"interval": "", "min": attrs[0], "max": attrs[1], "aggr": attrs[2]}
        defaults |= {word: int(script.words(word)[0]) for word in ("unit", "cap", SEED)}
        ranges = of_target(ranges_of(script), target)
        return PassedScript(script, defaults, ranges, touched_of(script, ranges))
    except (IndexError, ValueError):
        raise UsageError(f"{path}: its setup is not that of a script of damon: tools/explain.py says why") from None
    except UsageError as error:
        raise UsageError(f"{path}: {error}") from None


def script_workload(plan: Plan, name: str) -> Workload:
    """The workload of a script. Raises UsageError."""
    script, defaults, ranges, intervals = passed_script(str(plan.folder / name), plan.target)
    kept = tuple(line for line in script.lines if first_word(line) in ("target", "range"))
    return Workload(name, HEADERS[plan.version] if plan.version else script.lines[0], kept, defaults, tuple(script.schemes()), script.body,
                    script.starts(), Truths(ranges, intervals, plan.hot),
                    sum(one.pages for one in ranges_of(script)), work_of(script.body))


def work_of(body: bytes) -> int:
    """The work of the lines of a body but `arm` and `finish`."""
    swept = sum((int(after, 16) - int(first, 16)) >> PAGE_BITS for first, after in SWEEP.findall(body))
    return swept + len(WORKS.findall(body))


def of_target(ranges: list[Range], target: int | None) -> list[Range]:
    """The ranges of a target, or all. Raises UsageError if it has none."""
    found = [one for one in ranges if target in (None, one.target)]
    if target is not None and not found:
        raise UsageError(f"there is no target {target}, of which the plan wants the measures")
    return found


def ranges_of(script: Script) -> list[Range]:
    """The ranges of the setup."""
    return [Range(one.target, one.start >> PAGE_BITS, one.end >> PAGE_BITS) for one in script.setup.ranges]


def touched_of(script: Script, ranges: list[Range]) -> list[Runs]:
    """The watched pages that each pass of a script touches. Raises UsageError for a line that fits in no pass."""
    numbers = Numbers(ranges)
    result: list[Runs] = []
    is_open = False
    for part in script.parts():
        word, line = (first_word(part.line), part.line) if isinstance(part, OtherLine) else ("", ARM if isinstance(part, Pass) else COMMIT)
        if is_open and word not in TOUCHES:
            raise not_a_pass(script, part.number, line)
        is_open = is_open or word == ARM
        if is_open:
            continue
        if isinstance(part, Pass):
            result.append(numbers.of_touches({page for line in part.touches for page in touched_by(line)}))
        elif isinstance(part, OtherLine) and word not in ("show", "end", ""):
            raise not_a_pass(script, part.number, line)
        elif isinstance(part, Commit) and part.ranges:
            raise not_a_pass(script, part.ranges[0].line, part.with_word("range")[0])
    return result


def not_a_pass(script: Script, number: int, line: str) -> UsageError:
    """The fault of a line of the body, with its number in the whole text."""
    return UsageError(f"line {len(script.lines) + 1 + number}: {line[:40]!r}: exact counts need scripts whose passes are `arm`, "
                      "touches and `finish`, and whose ranges stay")
