#!/usr/bin/env python3
"""Changes the settings of a script of damon that is there, without its trace, or says them for a machine.

docs/TUTORIAL.md shows its use.
"""
from __future__ import annotations

import argparse
import re
import sys
from fractions import Fraction
from pathlib import Path

sys.path.insert(0, str(Path(__file__).resolve().parent))

import common
from common import UsageError, opened
from scripts import damo, kernel
from scripts.advice import Circumstances, advice
from scripts.amounts import microseconds
from scripts.grammar import HEADERS
from scripts.judge import fault_of, has_judge, program, refusals_of
from scripts.reasons import reason_of
from scripts.setup import Script
from tracing import commits
from tracing.commits import commits_of, placed_lines
from wording import counted

TOOL = "settings.py"
EXAMPLE = """\
example:
  tools/settings.py --max 200 --aggr 10 out/shop.damon | ./damon replay > out/shop-200.report

The body of the script stays as it is, with its commits. --scheme takes the place of the scheme of the
same slot, or adds one. If --max is above the script's cap, and there is no --cap, cap becomes the same.
--at and --metric put commits before an interval, as in trace_to_script.py, behind those that are there.
Damon judges the new script: one that it rejects is not written, and the reason is.

--damo takes intervals, numbers of regions and schemes as the options of damo, or as its JSON, and turns
bytes into pages, percentages into counts, and times into passes and aggregations. Its schemes take the
place of all that the script has:

  tools/settings.py --damo '--monitoring_intervals 5ms 100ms 1s --damos_action pageout --damos_sz_region 4K max
    --damos_access_rate 0% 0% --damos_age 1s max --damos_quotas 0 160K 500ms 0 0 1000' out/shop.damon > out/cold.damon

--as damo writes no script, but the settings for a machine: as a command of damo, and as the values of the
kernel's files with the unit of each. What has no counterpart there stands at the end. A sampling
interval is a pass of a script, and --tick says how long it lasts there; 5 ms is what damo takes by itself.

  tools/settings.py --as damo --tick 5ms out/cold.damon
"""
SCHEME = re.compile(r"scheme [ -~]*")
TICK = "5ms"
"""How long a sampling interval lasts where nothing else is said: the default of damo."""


def parser() -> argparse.ArgumentParser:
    result = common.parser(TOOL, "Writes a script of damon again with other settings, or its settings for a machine.", EXAMPLE)
    add = result.add_argument
    add("script", nargs="?", default="-", help="the script; `-`, the default, is standard input; .gz and .xz are unpacked")
    add("--version", type=int, choices=tuple(HEADERS), help="the version of the rules; 2 has time quotas and costs")
    add("--seed", type=int, metavar="N", help="the seed of the random words")
    add("--unit", type=int, metavar="PAGES", help="the minimum size of a region")
    add("--cap", type=int, metavar="N", help="the most regions that are ever allowed")
    add("--min", type=int, metavar="N", help="the regions that the first division aims at")
    add("--max", type=int, metavar="N", help="the most regions")
    add("--aggr", type=int, metavar="N", help="sampling intervals of an aggregation")
    add("--scheme", action="append", default=[], metavar="LINE", help="a line `scheme ..` as it stands in a script; may be repeated")
    add("--drop", action="append", default=[], type=int, metavar="SLOT", help="leave out the scheme of this slot; may be repeated")
    commits.add_options(add)
    add("--damo", metavar="TEXT", help="intervals, numbers of regions and schemes as options of damo, or as its JSON")
    add("--as", dest="form", choices=("damo",), help="write the settings for a machine in place of the script")
    add("--tick", metavar="TIME", help=f"how long a sampling interval lasts on the machine ({TICK}, or what --damo says)")
    return result


def change(script: Script, options: argparse.Namespace) -> list[str]:
    """Carries out the options, and gives notes on what was not asked for. Raises UsageError."""
    notes = []
    if options.version is not None:
        script.set_version(options.version)
    for word in ("seed", "unit", "cap"):
        if (value := getattr(options, word)) is not None:
            script.set_line(word, value)
    notes += change_attrs(script, options.min, options.max, options.aggr, options.cap is not None)
    for slot in options.drop:
        if not script.drop(str(slot)):
            raise UsageError(f"--drop names slot {slot}, and the setup has no scheme for it")
    if options.damo is not None:
        notes += change_as_damo(script, options)
    for line in options.scheme:
        if not SCHEME.fullmatch(line):
            raise UsageError(f"--scheme needs a line that begins with `scheme `, and not {line!r}")
        script.set_scheme(line)
    placed = commits_of(placed_lines(options))
    for interval in script.put_commits(placed):
        notes.append(f"the commit before interval {interval} is left out: there are {counted(len(script.starts()), 'interval')}")
    return notes


def change_attrs(script: Script, least: int | None, most: int | None, aggr: int | None, has_cap: bool) -> list[str]:
    """Sets what is not None, and the cap with it where it would be too small and is not given."""
    attrs = script.words("attrs")
    if len(attrs) != 3:
        raise UsageError(f"the line `attrs` has {len(attrs)} numbers, and must have three")
    script.set_line("attrs", *(old if new is None else new for old, new in zip(attrs, (least, most, aggr))))
    cap = script.words("cap")[0]
    if has_cap or most is None or not cap.isdecimal() or most <= int(cap):
        return []
    script.set_line("cap", most)
    return [f"cap was {cap}, and is {most} now, as --max is above it"]


def change_as_damo(script: Script, options: argparse.Namespace) -> list[str]:
    """Carries out --damo. Raises UsageError."""
    wanted = damo.wanted_of(options.damo)
    clock = damo.clock_of(wanted, tick_of(options), int(script.words("attrs")[2]))
    if wanted.intervals and options.tick is not None and clock.sample != tick_of(options):
        raise UsageError(f"--damo says that a sampling interval is {wanted.intervals[0]}, and --tick {options.tick}")
    try:
        least, most = map(int, (text.replace(",", "") for text in wanted.regions)) if wanted.regions else (None, None)
    except ValueError:
        raise UsageError(f"--damo: the numbers of regions are {' and '.join(wanted.regions)}") from None
    notes = change_attrs(script, least, most, clock.aggr, options.cap is not None)
    options.tick = f"{clock.sample}us" if clock.sample.denominator == 1 else options.tick
    lines = list(damo.lines_of(wanted, clock))
    for line in script.schemes() if lines else []:
        script.drop(line.split(" ")[1])
    for line in lines:
        script.set_scheme(line)
    if any(" time=" in line for line in lines) and script.version == 1:
        script.set_version(2)
        notes.append("the script is of version 2 now, which has the time of a quota; `cost` lines of commits say what the work of a slot took")
    return [*notes, *dict.fromkeys(wanted.notes)]


def tick_of(options: argparse.Namespace) -> Fraction:
    """The microseconds of a sampling interval. Raises UsageError."""
    found = microseconds(options.tick or TICK, "us")
    if not found:
        raise UsageError("--tick is a time above 0, such as 5ms")
    return found


def check(text: bytes) -> None:
    """Raises UsageError with the reason if damon rejects the script."""
    if fault := fault_of(text):
        reason = reason_of(text, fault)
        raise UsageError(f"damon rejects the new script: line {fault.line}: {fault.kind}{f': {reason[0]}' if reason else ''}")


def advice_on(script: Script) -> list[str]:
    run = Circumstances(script.most_aggr(), script.targets(), max(script.range_pages()), script.metrics())
    return [note for line in script.schemes() for note in advice(line, run)]


def refused(script: Script, placed: list[tuple[int, str]]) -> list[str]:
    """Notes on commits that damon refuses, at the intervals for which lines were given."""
    wanted, places = {interval for interval, _ in placed}, script.intervals_of_commits()
    found = [(places[number], reason) for number, reason in refusals_of(script.text())] if placed else []
    return [f"the commit before interval {interval} is refused: {reason}" for interval, reason in found if interval in wanted]


def write(text: bytes) -> None:
    """Writes to standard output, which may take a part at a time where Python does not buffer it."""
    rest = memoryview(text)
    while rest:
        rest = rest[sys.stdout.buffer.write(rest):]
    sys.stdout.flush()


def work() -> None:
    options = parser().parse_args()
    with opened(options.script) as stream:
        text = stream.read()
    try:
        script = Script.of(text)
        notes = change(script, options)
    except UsageError as error:
        raise UsageError(f"{options.script}: {error}") from None
    if has_judge():
        check(script.text())
        notes += advice_on(script) + refused(script, placed_lines(options))
    else:
        notes.append(f"the script was not checked: there is no program {program()}")
    sample = tick_of(options)
    write(script.text() if options.form is None else "\n".join([*kernel.lines_of(kernel.machine_of(script, sample), sample), ""]).encode("ascii"))
    for note in notes:
        print(f"note: {note}", file=sys.stderr)


if __name__ == "__main__":
    common.run(TOOL, work)
