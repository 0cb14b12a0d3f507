#!/usr/bin/env python3
"""Makes one page of one report of damon, or of two beside each other, for a browser.

docs/TUTORIAL.md shows its use.
"""
from __future__ import annotations

import argparse
import sys
from pathlib import Path

from common import STANDARD_INPUT, UsageError, opened_text, parser, run
from drawing.history import Cut, ScriptError, commits_of, history_of
from reports.events import Report, ReportError
from reports.labels import check_labels, labels_of, names_read
from webpage.block import Block
from webpage.columns import Shown, packed_report, targets_of
from webpage.d3 import D3Error, bundle
from webpage.document import page

TOOL = "page.py"
MOST_ROWS = 2_000_000
"""The most rows of a report that a page has, if it is not told another number."""
EXAMPLE = """\
example:
  ./damon replay < examples/cold.damon | tools/page.py --title "a cold area" > cold.html

Open the page in a browser: it needs no network. It shows each target with its addresses upwards and
time to the right. The wheel zooms, dragging moves, and the pointer asks what a region is. A cursor
goes from aggregation to aggregation, with a table of the hottest regions there. Beneath are when
slots were active, the commits, and curves: the working set, the regions, what is left of quotas, and
what `damon reclaim` says of memory. Targets can be folded, and those that were never found accessed
are folded at first.

Two reports stand beside each other with one cursor, and a switch shows their difference:
  tools/page.py out/eager.report out/patient.report > both.html

A part of them is shown with --target, --from and --to. Of more rows than --most the page has each
second aggregation, or fewer, and says so.

A report has what its commits were answered, and not what they have: that is in the script (--script,
once for each report). Scales, axes and zoom are those of D3: `apt-get install node-d3` on Debian.
"""


def options_of() -> argparse.Namespace:
    """The options of this run. Raises UsageError."""
    result = parser(TOOL, "Reads one report or two, as text or as JSON lines, and writes a page, in HTML.", EXAMPLE)
    add = result.add_argument
    add("reports", nargs="*", default=[STANDARD_INPUT], metavar="REPORT", help="a report, or two; `-`, the default, is standard input")
    add("--script", action="append", default=[], metavar="FILE", help="the script of the report, and then that of the second one")
    add("--title", help="the title of the page")
    add("--label", action="append", default=[], metavar="TARGET=TEXT", help="names a target; may be repeated")
    add("--names", metavar="FILE", help="names targets by lines START-END NAME")
    add("--target", action="append", default=[], type=int, metavar="N", help="shows this target alone; may be repeated")
    add("--from", dest="since", type=int, metavar="TICK", help="shows what comes after this tick")
    add("--to", dest="until", type=int, metavar="TICK", help="shows what comes before it")
    add("--most", type=int, default=MOST_ROWS, metavar="ROWS",
        help=f"the most rows of a report that the page has, {MOST_ROWS} by default; of more it has each second aggregation, or fewer")
    add("--theme", choices=("auto", "light", "dark"), default="auto",
        help="the colours; auto, the default, follows what the reader prefers")
    add("--d3", metavar="FILE", help="d3.min.js, if it is not that of Debian's package node-d3")
    options = result.parse_args()
    if len(options.reports) > 2:
        raise UsageError(f"a page has one report or two, and not {len(options.reports)}")
    if len(options.script) > len(options.reports):
        raise UsageError(f"--script is given {len(options.script)} times, and there are {len(options.reports)} reports")
    if options.most < 1:
        raise UsageError("--most needs a number from 1 on")
    return options


def report_read(path: str, script: str | None, part: Cut) -> Shown:
    """A part of a report, with the commits of its script if that is named. Raises UsageError."""
    commits = None
    if script is not None:
        with opened_text(script) as stream:
            commits = commits_of(stream)
    with opened_text(path) as stream:
        report = Report(stream)
        try:
            history = part.of(history_of(report.events(), commits))
        except (ReportError, ScriptError) as error:
            raise UsageError(f"{path}: {error}") from None
    if not any(snapshot.regions for snapshot in history.snapshots):
        raise UsageError(f"{path}: no aggregation has a region, and no show after a pass: there is nothing to show")
    return Shown("standard input" if path == STANDARD_INPUT else Path(path).name, history, not report.has_runs)


def work() -> None:
    options = options_of()
    labels = labels_of(options.label)
    areas = names_read(options.names) if options.names is not None else []
    try:
        d3 = bundle(options.d3)
    except D3Error as error:
        raise UsageError(str(error)) from None
    part = Cut(options.since or 0, options.until, frozenset(options.target) or None)
    reports = [report_read(path, script, part) for path, script in zip(options.reports, [*options.script, None, None])]
    targets = targets_of((report.history for report in reports), areas, labels)
    check_labels(labels, [target.number for target in targets], "the reports have")
    block = Block()
    meta = {"targets": [vars(target) for target in targets],
            "reports": [packed_report(block, report, targets, options.most) for report in reports]}
    sys.stdout.write(page(options.title or "Accesses by time and address", meta, block, d3, options.theme))


if __name__ == "__main__":
    run(TOOL, work)
