#!/usr/bin/env python3
"""Says in text which memory of a report is hot, how much was in use, and why a page was taken by a scheme or was not.

docs/TUTORIAL.md shows its use.
"""
from __future__ import annotations

import argparse
import csv
import json
from typing import Any, Callable, Sequence

from asking.areas import Area, Sizes, areas_of, ranked, sizes_of
from asking.policy import PolicyError, followed
from asking.why import Answer, answers_of
from common import STANDARD_INPUT, UsageError, opened, opened_text, parser, run
from reports.events import Aggregation, Event, Report, ReportError
from reports.labels import check_labels, labels_of, names_read
from reports.names import NamedArea, name_of
from scripts.setup import Script
from units import PAGE
from wording import aligned, counted, size_words

TOOL = "hot.py"
EXAMPLE = """\
example:
  tools/hot.py -n 5 out/shop.report
  tools/hot.py --wss out/shop.report
  tools/hot.py --why 0x4c1b000 --tick 400 --script out/shop.damon out/shop.report

The share of a page is the part of the passes in which the region that held it was found accessed, over
all aggregations of the report, or those with ticks from --from to --to. A row is a longest run of
neighbours whose shares are the same in whole steps of --step percent, and its share is the mean over
its pages. Its age is the least of its regions at the last of these aggregations, and its slots are those
that were applied to a page of it.

With --why it says of each slot whether it took a page at the aggregation of --tick, and else which part
of the scheme was against it: the size, the count or the age of the region that held the page, a filter,
or the quota. For this it needs the script. A report shows the regions after all slots, so an age or a
border that a slot changed is worked out from the scores of the report. Where they do not tell it, what
it may have been is said.
"""
Rows = list[dict[str, Any]]


def options_of() -> argparse.Namespace:
    """The options of this run. Raises UsageError."""
    result = parser(TOOL, "Says which memory of a report is hot, how much was in use, and why a page was taken or not.", EXAMPLE)
    add = result.add_argument
    add("report", nargs="?", default=STANDARD_INPUT, help="the report, as text or as JSON lines; `-`, the default, is standard input")
    add("--cold", action="store_true", help="the coldest first, and of these the oldest")
    add("--from", type=int, default=0, dest="first", metavar="TICK", help="leave out aggregations before this tick")
    add("--to", type=int, dest="last", metavar="TICK", help="leave out aggregations after this tick")
    add("--target", type=int, metavar="N", help="only this target; with --why the one that the page is of")
    add("-n", type=int, default=20, dest="most", metavar="N", help="the most rows (20)")
    add("--step", type=int, default=10, metavar="PERCENT", help="how far the shares of a row may differ; 0: not at all (10)")
    add("--label", action="append", default=[], metavar="TARGET=TEXT", help="names a target; may be repeated")
    add("--names", metavar="FILE", help="names areas by lines START-END NAME; a label comes before them")
    add("--csv", action="store_true", help="write the rows as CSV")
    add("--json", action="store_true", help="write the rows as JSON, an object in a line for each")
    add("--wss", action="store_true", help="the sizes of the working set, in pages: least, quartiles, greatest")
    add("--why", type=address, metavar="ADDRESS", help="say of each slot why it took the page at this address, or not")
    add("--tick", type=int, metavar="T", help="with --why: at the first aggregation from this tick on")
    add("--script", metavar="FILE", help="with --why: the script of the report")
    options = result.parse_args()
    if options.csv and options.json:
        raise UsageError("--csv and --json cannot be used together")
    if options.most < 1 or not 0 <= options.step <= 100:
        raise UsageError("-n must be at least 1, and --step from 0 to 100")
    if options.why is not None and (options.tick is None or options.script is None):
        raise UsageError("--why needs --tick and --script")
    if options.why is None and (options.tick is not None or options.script is not None):
        raise UsageError("--tick and --script are for --why")
    if options.script == options.report == STANDARD_INPUT:
        raise UsageError("standard input cannot be both the report and the script")
    return options


def address(text: str) -> int:
    return int(text, 16)


def events_of(options: argparse.Namespace) -> list[Event]:
    """The whole report. Raises UsageError."""
    with opened_text(options.report) as stream:
        report = Report(stream)
        if report.has_runs and options.why is not None:
            raise UsageError("exact counts say nothing of schemes")
        try:
            return list(report.events())
        except ReportError as error:
            raise UsageError(f"{options.report}: {error}") from None


def span_of(events: Sequence[Event], options: argparse.Namespace) -> list[Aggregation]:
    """The aggregations that are asked for. Raises UsageError."""
    last = options.last
    found = [event for event in events if isinstance(event, Aggregation) and options.first <= event.tick
             and (last is None or event.tick <= last)]
    if not found:
        raise UsageError("the report has no aggregation in this span")
    return found


def row_of(area: Area, labels: dict[int, str], names: Sequence[NamedArea]) -> dict[str, Any]:
    """An area as it is written."""
    name = labels.get(area.target) or name_of(names, area.start, area.end) or ""
    return {"target": area.target, "name": name, "from": f"{area.start:#x}", "to": f"{area.end:#x}",
            "pages": area.pages, "share": round(area.share, 4), "age": area.age, "slots": ", ".join(area.slots)}


def areas(options: argparse.Namespace) -> list[str]:
    """The hottest or the coldest areas, as lines."""
    span = span_of(events_of(options), options)
    labels = labels_of(options.label)
    names = names_read(options.names) if options.names is not None else []
    check_labels(labels, sorted({region.target for one in span for region in one.regions}), "the report has")
    found = [area for area in areas_of(span, options.step) if options.target in (None, area.target)]
    if not found:
        raise UsageError(f"the report has no page of target {options.target}")
    rows = [row_of(area, labels, names) for area in ranked(found, options.cold)[: options.most]]
    return written(rows, options) or [*area_lines(rows), summary(span, found, len(rows))]


def written(rows: Rows, options: argparse.Namespace) -> list[str]:
    """Rows as JSON or CSV; nothing where neither is asked for."""
    if options.json:
        return [json.dumps(row) for row in rows]
    if options.csv:
        lines = Lines()
        table = csv.DictWriter(lines, list(rows[0]), lineterminator="")
        table.writeheader()
        table.writerows(rows)
        return lines.found
    return []


class Lines:
    """Takes the lines of a CSV."""

    def __init__(self) -> None:
        self.found: list[str] = []

    def write(self, line: str) -> None:
        self.found.append(line)


def area_lines(rows: Rows) -> list[str]:
    head = ["target", "from", "to", "size", "share", "age", "slots"]
    table = [head]
    for row in rows:
        name = f"{row['target']} {row['name']}".rstrip()
        table.append([name, row["from"], row["to"], size_words(row["pages"] * PAGE), f"{100 * row['share']:.1f} %", str(row["age"]), row["slots"]])
    return aligned(table, words={0, 6})


def summary(span: Sequence[Aggregation], areas: Sequence[Area], shown: int) -> str:
    pages = sum(area.pages for area in areas)
    return (f"{shown} of {counted(len(areas), 'row')} with {counted(pages, 'page')}, over {counted(len(span), 'aggregation')} "
            f"up to tick {span[-1].tick}")


def working_sets(options: argparse.Namespace) -> list[str]:
    """The sizes of the working set, as lines."""
    found = sizes_of(span_of(events_of(options), options))
    return written([found._asdict()], options) or size_lines(found)


def size_lines(found: Sizes) -> list[str]:
    names = ("least", "a quarter at most", "half at most", "three quarters at most", "greatest")
    table = [["working set", "pages", "size"]]
    table += [[name, str(pages), size_words(pages * PAGE)] for name, pages in zip(names, found[1:])]
    return [*aligned(table, words={0}), f"over {counted(found.aggregations, 'aggregation')}"]


def reasons(options: argparse.Namespace) -> list[str]:
    """What each slot did with a page, as lines."""
    with opened(options.script) as stream:
        script = Script.of(stream.read())
    events = events_of(options)
    place = options.why - options.why % PAGE
    try:
        found, policy = next(((one, policy) for one, policy in followed(events, script) if one.tick >= options.tick), (None, None))
        if found is None or policy is None:
            raise UsageError(f"the report has no aggregation from tick {options.tick} on")
        target = target_of(found, place, options.target)
        answers = answers_of(found, policy, target, place)
    except PolicyError as error:
        raise UsageError(str(error)) from None
    rows = [{"tick": found.tick, "target": target, "page": f"{place:#x}", **members(answer)} for answer in answers]
    return written(rows, options) or reason_lines(found, target, place, answers)


def target_of(found: Aggregation, place: int, wanted: int | None) -> int:
    """The target of a page. Raises UsageError."""
    targets = sorted({one.target for one in found.regions if one.start <= place < one.end and wanted in (None, one.target)})
    if not targets:
        raise UsageError(f"at tick {found.tick} no region holds the page {place:#x}")
    if len(targets) > 1:
        raise UsageError(f"several targets have the page {place:#x}: choose one of {', '.join(map(str, targets))} by --target")
    return targets[0]


def members(answer: Answer) -> dict[str, Any]:
    """An answer as it is written."""
    row = answer.row
    return {"slot": answer.slot, "action": answer.action, "outcome": answer.outcome, "reason": answer.reason,
            "from": f"{row.start:#x}" if row else "", "to": f"{row.end:#x}" if row else "", "count": row.count if row else "",
            "age_least": row.ages.least if row else "", "age_most": row.ages.most if row else ""}


def reason_lines(found: Aggregation, target: int, place: int, answers: Sequence[Answer]) -> list[str]:
    region = next(one for one in found.regions if one.target == target and one.start <= place < one.end)
    lines = [f"page {place:#x} of target {target} at tick {found.tick}, after all slots in the region {region.start:#x}-{region.end:#x} "
             f"with count {region.hits} of {found.passes}, last {region.last}, age {region.age}"]
    for answer in answers:
        row = answer.row
        seen = f" (it saw {row.start:#x}-{row.end:#x}, {ages_words(row.ages.least, row.ages.most)})" if row else ""
        lines.append(f"slot {answer.slot} {answer.action}{seen}: {answer.reason}")
    return lines if answers else [*lines, "no slot is set"]


def ages_words(least: int, most: int) -> str:
    return f"age {least}" if least == most else f"age {least} to {most}"


def work() -> None:
    options = options_of()
    answer: Callable[[argparse.Namespace], list[str]] = areas
    if options.why is not None:
        answer = reasons
    elif options.wss:
        answer = working_sets
    print("\n".join(answer(options)))


if __name__ == "__main__":
    run(TOOL, work)
