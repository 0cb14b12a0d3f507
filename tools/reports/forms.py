"""The forms of the lines of a report; `docs/FORMATS.md` has them. All that reads reports as text takes them from here."""
from __future__ import annotations

import re

EXACT_HEADER = "exact counts 1"
"""The first line of exact counts."""

ADDRESS = r"0x([0-9a-f]+)"
ROW = re.compile(rf"row ((\d+) {ADDRESS}-{ADDRESS}) count=(\d+)(?: last=(\d+) age=(\d+))?\n?")
SNAPSHOT = re.compile(r"(show|aggregate) tick=(\d+)(?: (?:phase=\w+|threshold=(\d+)))? rows=(\d+)")
APPLY = re.compile(rf"apply (\d+) (\w+) (\d+) {ADDRESS}-{ADDRESS} score=(\d+)")
SLOT = re.compile(r"slot (\d+) (?:left=(\d+|none) taken=(\d+) lowest=(\d+|none)|(inactive))")
SCHEME = re.compile(r"scheme (\d+) \w+ active=(yes|no) .*")
COMMIT = re.compile(r"commit tick=(\d+) ((?:ok|refused) .*)")
END = re.compile(r"end ticks=\d+ rows=\d+ checks=(\d+) hits=\d+")
TUNED = re.compile(r"tuned (\d+) bytes=(\d+|none)")
MEMORY = re.compile(r"reclaim tick=(\d+) resident=(\d+) out=(\d+) pageouts=(\d+) refaults=(\d+) prefetches=(\d+)")

AGGREGATE_START, SHOW_START, ROW_START, MEMORY_START = "\naggregate tick=", "\nshow tick=", "\nrow ", "\nreclaim tick="
"""How these lines begin within a text."""
ACCESSED_ROW = re.compile(r"\nrow ([^=]++=[1-9][0-9]*+)")
"""A row within a text that was found accessed, as `TARGET START-END count=COUNT`. The possessive `++` leaves a row with the count 0
at once, and one group is found in half the time of several."""
APPLIED = re.compile(r"\napply [0-9]+ ([^=]++)")
"""An `apply` line within a text, as `ACTION TARGET START-END score`; those of one slot do not overlap."""
OUT = re.compile(r" out=([0-9]+)")
"""The pages that are out, within a line of `damon reclaim`."""
LAST_LINES = re.compile(r"end (?:.* )?checks=(\d+) hits=\d+\n(?:reclaim .*\n)?")
"""The end of a report, from its line `end` on."""


class ReportError(Exception):
    """A line that is not of a report, a report that is cut, or one of other pages."""
