"""What a user should know beside the script that was made of a trace."""
from __future__ import annotations

import shlex
from dataclasses import dataclass
from typing import Iterator

from scripts.advice import Circumstances, advice
from scripts.grammar import MOST_CAP, first_word, words_of
from scripts.judge import is_there, program, refusals_of
from wording import counted

from .accesses import Origin
from .areas import Choice
from .intervals import Recording
from .script import Settings, Writer


TARGET_SHARE = 5
"""The least regions for each target,"""
REGION_PAGES = 10
"""and the most pages for each region, for which no note is written."""
FEW_PAGES = 2


@dataclass(frozen=True)
class Result:
    """A script, and what its notes say."""

    script: Writer
    choice: Choice
    recording: Recording
    length: int
    """What the clock counts of each interval."""
    settings: Settings
    origin: Origin
    names: dict[int, str]
    """Of the targets that have one."""
    said: list[str]
    """What was said while the trace was read."""

    @property
    def intervals(self) -> int:
        return -(-self.recording.duration // self.length)

    @property
    def aggregations(self) -> int | None:
        """None if a commit changes the intervals of an aggregation."""
        return None if lines_of(self.settings, "attrs") else self.intervals // self.settings.aggr


def of(result: Result) -> list[str]:
    """The notes, as lines."""
    return [summary(result), *result.said, *names(result), *lost(result), *too_short(result), *too_few_regions(result),
            *on_commits(result), *on_schemes(result)]


def summary(result: Result) -> str:
    pages = sum(area.pages for area in result.choice.kept)
    time = "" if result.origin.clock == "accesses" else f"{counted(result.recording.duration, result.origin.clock.removesuffix('s'))} with "
    parts = [
        f"{time}{counted_accesses(result.recording.accesses)} in {counted(result.intervals, 'interval')} of {result.length}",
        f"{counted(len(result.choice.kept), 'target')} with {counted(pages, 'page')}",
        f"{counted(result.script.bytes, 'byte')}, work {result.script.work}",
    ]
    if result.aggregations is not None:
        parts.insert(1, counted(result.aggregations, "aggregation"))
    return "; ".join(parts)


def counted_accesses(number: int) -> str:
    return f"{number} access{'' if number == 1 else 'es'}"


def names(result: Result) -> Iterator[str]:
    """The names of targets, as options of the picture."""
    words = [f"--label {shlex.quote(f'{target}={name}')}" for target, name in sorted(result.names.items())]
    if words:
        yield f"names of targets for tools/picture.py: {' '.join(words)}"


def lost(result: Result) -> Iterator[str]:
    """What of the trace is not in the script."""
    left_out = result.choice.left_out
    if left_out:
        pages, accesses = (sum(getattr(area, name) for area in left_out) for name in ("pages", "accesses"))
        yield (f"left out {counted(len(left_out), 'area')} with {counted(pages, 'page')} and {counted_accesses(accesses)}, "
               "by the limit of 64 targets and 1048576 pages: a larger or smaller --gap may help")
    yield from lost_lines(result.origin)


def lost_lines(trace: Origin) -> Iterator[str]:
    """What was left out while the trace was read."""
    if trace.beyond:
        yield f"left out {counted_accesses(trace.beyond)} at addresses that are not below 2^47"
    if trace.without_address:
        yield f"left out {counted(trace.without_address, 'sample')} with the address 0, which means none"
    if trace.cut:
        yield f"left out the last line of the trace, which is cut off: {trace.cut}"
    if trace.ended:
        yield trace.ended


def too_short(result: Result) -> Iterator[str]:
    if result.aggregations == 0:
        yield "the intervals are too few for an aggregation: use a smaller --interval or --aggr"


def too_few_regions(result: Result) -> Iterator[str]:
    """Settings with which little can be found: each target has a region at least, and cuts are made only below `max`."""
    areas, settings = result.choice.kept, result.settings
    most = max([settings.most, *(words_of(line)[2].number() for _, line in lines_of(settings, "attrs") if line.count(" ") > 2)])
    pages = sum(area.pages for area in areas)
    if most >= pages or (len(areas) * TARGET_SHARE <= most and pages <= REGION_PAGES * most):
        return
    wanted = max(len(areas) * TARGET_SHARE, -(-pages // REGION_PAGES))
    small = sum(area.pages <= FEW_PAGES for area in areas)
    parts = f", {small} of them with at most {counted(FEW_PAGES, 'page')}," if 2 * small > len(areas) else ""
    yield (f"{counted(len(areas), 'target')}{parts} and {counted(pages, 'page')} share at most {counted(most, 'region')}: few are left for "
           f"cuts, and much that is hot may not be found; --max {min(MOST_CAP, -(-wanted // 100) * 100)} or more may find it")


def lines_of(settings: Settings, word: str) -> list[tuple[int, str]]:
    """The lines of commits with this first word, each with its interval."""
    return [(interval, line) for interval, commits in settings.commits.items() for commit in commits
            for line in commit if first_word(line) == word]


def on_commits(result: Result) -> Iterator[str]:
    """Commits that come too late, that damon refuses, or that leave targets unwatched."""
    commits, targets = result.settings.commits, result.choice.kept
    for interval in commits:
        if interval >= result.intervals:
            yield f"the commit before interval {interval} is left out: there are {counted(result.intervals, 'interval')}"
    refused = refusals(result)
    for interval, reason in refused:
        yield f"the commit before interval {interval} is refused: {reason}"
    ranges = lines_of(result.settings, "range")
    for interval in dict.fromkeys(interval for interval, _ in ranges):
        watched = {words_of(line)[1].text for at, line in ranges if at == interval}
        if len(watched) < len(targets) and interval not in dict(refused):
            yield (f"the ranges of the commit before interval {interval} replace all ranges: "
                   f"{len(watched)} of {counted(len(targets), 'target')} have one after it")


def refusals(result: Result) -> list[tuple[int, str]]:
    """The intervals of commits that damon refuses, each with the reason."""
    commits = result.settings.commits
    if not commits or not is_there():
        return []
    places = [interval for interval, made in commits.items() if interval < result.intervals for _ in made]
    refused = refusals_of("".join(result.script.pieces).encode("ascii"))
    return [(places[number], reason) for number, reason in refused]


def on_schemes(result: Result) -> Iterator[str]:
    """Schemes that cannot do anything, or not what they look like."""
    settings = result.settings
    schemes = [(0, line) for line in settings.schemes] + lines_of(settings, "scheme")
    if (schemes or settings.commits) and not is_there():
        yield f"schemes and commits were not checked: there is no program {program()}"
        return
    metrics = [(interval, words_of(line)[1].number()) for interval, line in lines_of(settings, "metric")]
    aggrs = [settings.aggr, *(words_of(line)[3].number() for _, line in lines_of(settings, "attrs"))]
    for interval, line in schemes:
        coming = tuple(metric for at, metric in metrics if interval <= at < result.intervals)
        run = Circumstances(max(aggrs), len(result.choice.kept), max(area.pages for area in result.choice.kept),
                            coming, result.aggregations)
        yield from advice(line, run)
