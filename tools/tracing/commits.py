"""Commits in the middle of a script, made from single lines."""
from __future__ import annotations

import argparse
import re
from itertools import zip_longest
from typing import Callable

from common import UsageError
from scripts.grammar import first_word

PARTS = ("attrs", "range", "scheme", "drop", "metric", "cost")
"""The lines that a commit can have, in their order. It has one of `scheme` and `drop`; `cost` is of version 2."""

Commits = dict[int, list[list[str]]]
"""For intervals, counted from 0, the commits before each of them: the lines of each commit."""


def commits_of(placed: list[tuple[int, str]]) -> Commits:
    """The commits for lines that are wanted before these intervals."""
    lines: dict[int, list[str]] = {}
    for interval, line in placed:
        lines.setdefault(interval, []).append(line)
    return {interval: fewest_commits(lines[interval]) for interval in sorted(lines)}


def fewest_commits(lines: list[str]) -> list[list[str]]:
    """The fewest commits that carry out these lines.

    The first commit has the first line of each kind and all ranges, the second one the second line of
    each kind, and so on: a commit can have many ranges, but one line of each other kind.
    """
    attrs, slots, metrics, costs = (kind_of(lines, words) for words in (("attrs",), ("scheme", "drop"), ("metric",), ("cost",)))
    ranges = kind_of(lines, ("range",))
    commits = []
    for number, parts in enumerate(zip_longest(attrs, slots, metrics, costs, [None] if ranges else [])):
        before, slot, metric, cost, _ = parts
        all_parts = [before, *(ranges if number == 0 else []), slot, metric, cost]
        commits.append([line for line in all_parts if line is not None])
    return commits


def kind_of(lines: list[str], words: tuple[str, ...]) -> list[str]:
    return [line for line in lines if first_word(line) in words]


def commit_lines(commit: list[str]) -> list[str]:
    """The lines of a commit in a script."""
    return ["commit", *commit, "apply"]


PLACED = re.compile(r"([0-9]{1,9}):((?:" + "|".join(PARTS) + r") [ -~]*)")
METRIC = re.compile(r"([0-9]{1,9}):([0-9]{1,10})")


def add_options(add: Callable[..., object]) -> None:
    """The options that put commits into a script."""
    add("--at", action="append", default=[], metavar="INTERVAL:LINE",
        help=f"a commit before this interval, with a line that begins with {', '.join(PARTS[:-1])} or {PARTS[-1]}; may be repeated")
    add("--metric", action="append", default=[], metavar="INTERVAL:N", help="the same as --at INTERVAL:'metric N'")


def placed_lines(options: argparse.Namespace) -> list[tuple[int, str]]:
    """The options --at and --metric as pairs of an interval and a line of a commit. Raises UsageError."""
    lines = []
    for word in options.at:
        if not (match := PLACED.fullmatch(word)):
            raise UsageError(f"--at needs INTERVAL:LINE, with a line that begins with one of {', '.join(PARTS)}, and not {word!r}")
        lines.append((int(match[1]), match[2]))
    for word in options.metric:
        if not (match := METRIC.fullmatch(word)) or int(match[2]) >= 1 << 32:
            raise UsageError(f"--metric needs INTERVAL:N, with N below 2^32, and not {word!r}")
        lines.append((int(match[1]), f"metric {int(match[2])}"))
    return lines
