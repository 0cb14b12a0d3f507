#!/usr/bin/env python3
"""Draws a report of damon, as text or as JSON lines, its heat tables, or the rows of a search as a picture, in SVG.

docs/TUTORIAL.md shows its use.
"""
from __future__ import annotations

import argparse
import sys
from pathlib import Path

sys.path.insert(0, str(Path(__file__).resolve().parent))

from common import STANDARD_INPUT, UsageError, opened_text, parser, run
from drawing.charts import CHARTS, charts_of
from drawing.front import ColourError, colours_of, front_picture
from drawing.heat import heat_picture
from drawing.history import Cut, History, ScriptError, again_marked, commits_of, history_of
from drawing.panels import spans_of
from drawing.picture import View, picture
from reports.events import Report, ReportError
from reports.heat import Heat, HeatError, heats_of
from reports.labels import check_labels, check_targets, labels_of, names_read
from reports.names import names_by_target
from reports.places import Place, PlaceError, check_places, places_of
from searching.marks import TableError, axis_of, table_of

TOOL = "picture.py"
EXAMPLE = """\
example:
  ./damon replay < examples/cold.damon | tools/picture.py --title "a cold area" > cold.svg

A column ends at an aggregation, or at a commit if a `show` right before it says what it found. The
colour of a region says in which share of the passes since the aggregation before it was found
accessed. Hatched in grey is what no region watches, and hatched in colour are the pages to which
schemes were applied. Many columns or regions are drawn as averages.

Beneath are the commits: a bar for one that was accepted, a cross for one that was refused, and a
triangle for a metric. What a commit has is not in a report, so metrics and words need --script. A
slot has a thin line while it waits, and a bar while it is active, by the end of each column.

A part of a report is drawn with --target, --from and --to: whole aggregations, and what they have of
these targets. --busy 0.02 folds the targets that were found accessed in less than 2 % of the samples
of their memory into one strip. --names FILE names targets by address, with lines START-END NAME:
  0x4d12000-0x4dce000 page cache
A target has the name of the area that has most of it, unless a --label names it.

A page goes out once, however often `pageout` is applied to it, until it is accessed. With --exact FILE,
an exact report or exact counts of the same run, the pages that were out already are hatched more faintly.

Of a report of `damon reclaim` it also draws which pages are resident, above which is what is out, and
the refaults. What is resident after an aggregation is drawn until the next one. The metrics that
`reclaim` puts in are not drawn as commits. Of a report of `damon tune` it draws what was left of each
quota with a goal before a choice, in whole pages. That is the whole quota where each aggregation
begins a window of it: where its reset interval is at most that of aggregations. Such a report does
not say which commits the tuner put in, so none has a line, and --script cannot be used.

With --heat it draws the tables that `damon heat` wrote of a journal:
  ./damon heat 64 < out/live.journal | tools/picture.py --heat --script out/live.journal > heat.svg

Each column of a target is a strip, and its colour is the mean count of its pages, as a share of the
passes since the aggregation before. Where targets begin and how many pages they have is not in the
tables, so addresses need --script; without it the colour is the heat beside the greatest one of the
target. Beneath are the working set, and the pages that were found accessed in half of the passes or
more.

With --front it draws the rows that tools/search.py wrote, of runs or of points:
  tools/picture.py --front --x checks --y hot_found out/points.csv > front.svg

The axes are two of its measures, or other columns of numbers with :less or :more behind the name, which
says what is better. In front are the rows that no other one beats: none is as good in both and better
in one. Rows of points have lines that are as long as the spread of their runs. A label beside a mark in
front has the settings in which rows differ; a * stands for several values.

Rows of several workloads have a front for each, since no setting of one beats one of another; and one
for all of them together, of the means over all workloads. --only workload=NAME draws one workload, and
--colour age shows by the colours and forms of marks which age they have.
"""


def history_read(options: argparse.Namespace) -> History:
    """The report, and the commits of the script if it is named. Raises UsageError."""
    commits = None
    if options.script is not None:
        with opened_text(options.script) as stream:
            commits = commits_of(stream)
    with opened_text(options.report) as stream:
        try:
            history = history_of(Report(stream).events(), commits)
        except (ReportError, ScriptError) as error:
            raise UsageError(str(error)) from None
    if options.exact is None:
        return history
    with opened_text(options.exact) as stream:
        try:
            return again_marked(history, Report(stream).aggregations())
        except (ReportError, ScriptError) as error:
            raise UsageError(f"{options.exact}: {error}") from None


def heats_read(path: str) -> list[Heat]:
    """The heat tables. Raises UsageError."""
    with opened_text(path) as stream:
        try:
            return heats_of(stream)
        except HeatError as error:
            raise UsageError(str(error)) from None


def places_read(path: str, heats: list[Heat]) -> list[Place]:
    """Where the targets of heat tables are, as a live script or a journal says. Raises UsageError that names the file."""
    with opened_text(path) as stream:
        try:
            places = places_of(stream)
            check_places(heats, places)
            return places
        except PlaceError as error:
            raise UsageError(f"{path}: {error}") from None


def options_of() -> argparse.Namespace:
    """The options of this run. Raises UsageError."""
    result = parser(TOOL, "Reads a report, heat tables or the rows of a search and draws them, as SVG.", EXAMPLE)
    add = result.add_argument
    add("report", nargs="?", default=STANDARD_INPUT, help="the report, the tables or the rows; `-`, the default, is standard input")
    add("--heat", action="store_true", help="what is read are the tables that `damon heat` wrote")
    add("--front", action="store_true", help="what is read are the rows that tools/search.py wrote")
    add("--x", metavar="NAME", help="with --front the measure to the right")
    add("--y", metavar="NAME", help="with --front the measure upwards")
    add("--colour", metavar="SETTING", help="with --front the setting that colours and forms of marks show")
    add("--only", action="append", default=[], metavar="NAME=VALUE",
        help="with --front the rows with this value, such as workload=shop.trace.xz; may be repeated")
    add("--script", metavar="FILE", help="the script of the report, which says what its commits have; with --heat the live script "
        "or the journal, which says where its targets are")
    add("--title", help="the title of the picture")
    add("--label", action="append", default=[], metavar="TARGET=TEXT", help="names a target; may be repeated")
    add("--exact", metavar="FILE", help="an exact report or exact counts of the same run: what was out already is hatched more faintly")
    add("--names", metavar="FILE", help="names targets by lines START-END NAME")
    add("--target", action="append", default=[], type=int, metavar="N", help="draws this target alone; may be repeated")
    add("--from", dest="since", type=int, metavar="TICK", help="draws what comes after this tick")
    add("--to", dest="until", type=int, metavar="TICK", help="draws what comes before it")
    add("--charts", metavar="NAME,..", help=f"the curves beneath, or `none`: {', '.join(CHARTS)}")
    add("--busy", type=float, metavar="SHARE", help="folds targets that were found accessed in less than this share of their samples")
    add("--theme", choices=("auto", "light", "dark"), default="auto",
        help="the colours; auto, the default, follows what the reader prefers")
    options = result.parse_args()
    if options.front and (options.heat or options.label or options.script is not None):
        raise UsageError("--front takes no --heat, no --label and no --script")
    parts = (options.exact, options.names, options.since, options.until, options.charts, options.busy)
    if (options.front or options.heat) and (options.target or any(part is not None for part in parts)):
        raise UsageError("--exact, --names, --target, --from, --to, --charts and --busy are for reports")
    if options.front != (options.x is not None) or options.front != (options.y is not None):
        raise UsageError("--front needs --x and --y, and these need --front")
    if not options.front and (options.colour is not None or options.only):
        raise UsageError("--colour and --only are for --front")
    return options


def report_drawn(options: argparse.Namespace) -> str:
    """The picture of a report. Raises UsageError."""
    labels = labels_of(options.label)
    names = names_read(options.names) if options.names is not None else []
    if options.busy is not None and not 0 <= options.busy <= 1:
        raise UsageError("--busy is a share, from 0 to 1")
    history = history_read(options)
    if not history.snapshots:
        raise UsageError("the report has no aggregation, and no show after a pass: there is nothing to draw")
    check_labels(labels, spans_of(history), "the report has")
    check_targets("--target", options.target, spans_of(history), "the report has")
    history = Cut(options.since or 0, options.until, frozenset(options.target) or None).of(history)
    if not spans_of(history):
        raise UsageError("no aggregation has a region in this part: there is nothing to draw")
    labels = {**names_by_target(names, spans_of(history)), **labels}
    title = options.title or "Accesses by time and address"
    return picture(history, View(title, labels, options.theme, charts_wanted(options.charts, history), options.busy or 0.0))


def charts_wanted(text: str | None, history: History) -> list[str]:
    """The kinds of charts that are drawn. Raises UsageError if the report does not have one of them."""
    has = list(dict.fromkeys(chart.kind for chart in charts_of(history)))
    if text is None or text == "none":
        return [] if text else has
    for kind in text.split(","):
        if kind not in has:
            raise UsageError(f"--charts names {kind!r}, and the report has {', '.join(has)}")
    return text.split(",")


def heat_drawn(options: argparse.Namespace) -> str:
    """The picture of heat tables. Raises UsageError."""
    labels = labels_of(options.label)
    heats = heats_read(options.report)
    if not heats:
        raise UsageError("the tables have no aggregation: there is nothing to draw")
    places = places_read(options.script, heats) if options.script is not None else None
    check_labels(labels, range(len(heats[0].heat)), "the tables have")
    return heat_picture(heats, places, options.title or "Heat by time and address", labels, options.theme)


def front_drawn(options: argparse.Namespace) -> str:
    """The picture of the rows of a search. Raises UsageError."""
    try:
        x, y = axis_of(options.x), axis_of(options.y)
    except TableError as error:
        raise UsageError(str(error)) from None
    only = [only_of(word) for word in options.only]
    with opened_text(options.report) as stream:
        try:
            table = table_of(stream, x, y, only)
        except TableError as error:
            raise UsageError(f"{options.report}: {error}") from None
    if not table.marks:
        raise UsageError(f"{options.report}: no row has numbers for both {x.name} and {y.name}: there is nothing to draw")
    try:
        colours = colours_of(table, options.colour or "")
    except ColourError as error:
        raise UsageError(str(error)) from None
    return front_picture(table, x, y, options.title or f"{y.name} and {x.name}", options.theme, colours)


def only_of(word: str) -> tuple[str, str]:
    """An option --only as a column and its value. Raises UsageError."""
    name, equals, value = word.partition("=")
    if not equals:
        raise UsageError(f"--only needs NAME=VALUE, and not {word!r}")
    return name, value


def work() -> None:
    options = options_of()
    drawn = front_drawn if options.front else heat_drawn if options.heat else report_drawn
    sys.stdout.write(drawn(options))


if __name__ == "__main__":
    run(TOOL, work)
