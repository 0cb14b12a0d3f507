#!/usr/bin/env python3
"""Makes a script of damon from a trace of a program's memory accesses.

The trace is what `valgrind --tool=lackey --trace-mem=yes` writes, what `perf script` writes of sampled
addresses, or lines `SECONDS ADDRESS`. docs/TUTORIAL.md shows its use.
"""
from __future__ import annotations

import argparse
import re
import sys
from pathlib import Path
from typing import Callable

sys.path.insert(0, str(Path(__file__).resolve().parent))

import common
from common import UsageError, opened_text, whole_file
from reports.names import NamedArea, lines_of
from scripts.grammar import HEADERS, MOST_CAP
from scripts.judge import has_judge
from tracing import commits, notes, reading
from tracing.accesses import TraceError
from tracing.areas import Area, chosen, group_pages
from tracing.commits import commits_of, placed_lines
from tracing.early import check_lines
from tracing.fit import fitted, too_much_at_all, too_much_to_fit
from tracing.forms import LACKEY
from tracing.intervals import Recording, coarser
from tracing.kept import Kept, is_kept, keep, kept_at
from tracing.names import MapsError, Mapping, known_names, mappings
from tracing.notes import Result
from tracing.reading import no_limit, read_trace, touched
from tracing.script import LimitError, Settings, check_ranges, check_settings, write_script
from tracing.source import Interrupt
from units import PAGE
from wording import counted

TOOL = "trace_to_script.py"
EXAMPLE = """\
example:
  valgrind --tool=lackey --trace-mem=yes --log-file=sort.trace sort /etc/services > /dev/null
  tools/trace_to_script.py --fit sort.trace > sort.damon
  ./damon replay < sort.damon > sort.report
  tools/picture.py sort.report > sort.svg

An access is one line of the trace; a modify is one access, and counts as a load and as a store.
Without --loads, --stores and --fetches, loads and stores are taken.

Where valgrind is too slow, perf samples addresses; with --clock microseconds an interval is a time:

  perf mem record -o mem.data PROGRAM
  perf script -i mem.data -F comm,tid,time,event,addr > mem.trace
  tools/trace_to_script.py --clock microseconds --interval 5000 mem.trace > mem.damon

--keep writes a small file, which takes the place of the trace in this tool, in exact_counts.py and in the
plans of search.py, so that the trace is read once:

  tools/trace_to_script.py --interval 3000 --grain 1000 --keep sort.cut sort.trace > sort.damon
  tools/trace_to_script.py --interval 5000 --max 200 sort.cut > sort-200.damon

--names writes the names that it knows by --maps or, under valgrind, by the place of an area. Pictures, pages and
tables take the file, in which more lines `START-END NAME` may be added:

  tools/trace_to_script.py --maps sort.maps --names sort.names sort.cut > sort.damon
  tools/picture.py --names sort.names sort.report > sort.svg

An interrupt (Ctrl-C) while a trace is read ends the reading: the script is made of what was read. A second
one ends the tool.

DynamoRIO's view of a memtrace and what Pin's pinatrace prints are read too:

  drrun -t drmemtrace -tool view -indir drmemtrace.PROGRAM.1.1.dir 2> view.trace
  tools/trace_to_script.py --fit view.trace > view.damon

Other traces can be turned into lines `SECONDS ADDRESS`, such as `12.000350 0x7f0000001000`.

--at puts a commit before an interval of the script, counted from 0; with --fit these are the intervals
that it makes. Lines for one interval make one commit where the format allows it: all `range` lines, which
replace all ranges, and one line each of `attrs`, of `scheme` or `drop`, of `metric` and of `cost`. A second
line of one of these kinds makes a second commit right after it.

With --version 2 a quota may have a time, and a commit hands in what the work of a slot has cost:

  tools/trace_to_script.py --version 2 --scheme 'scheme 0 pageout count=0,0 quota=819200,100 time=1000000 prefer=cold' \\
    --at '50:cost 0 4000000' --fit sort.trace > sort.damon

Damon judges the lines of --scheme and --at before the trace is read. DAMON in the environment names the
program; without it, that is the one that ./damon builds.
"""
SCHEME = re.compile(r"scheme [ -~]*")
USUAL_INTERVAL = 10_000
"""The length of an interval where --interval is not given."""
SHORTEST_FITTED = 1_000
"""The same with --fit, which makes intervals longer but not shorter."""


def parser() -> argparse.ArgumentParser:
    result = common.parser(
        TOOL, "Reads a trace of memory accesses, of valgrind's lackey or of perf, and writes a script of damon.", EXAMPLE
    )
    add = result.add_argument
    reading.add_options(add)
    add("--interval", type=int, metavar="N", help="the length of a sampling interval (10000; with --fit 1000)")
    add("--fit", action="store_true", help="make the interval longer than --interval where the limits of a script need it")
    add("--keep", metavar="FILE", help="also write what other scripts need of the trace to this file, which can take its place")
    add("--grain", type=int, metavar="N", help="the intervals in that file, of which other intervals are multiples (--interval)")
    add("--gap", type=int, default=16, metavar="PAGES", help="untouched pages that a target may have between touched ones (16)")
    add("--maps", metavar="FILE", help="a copy of /proc/PID/maps of the traced program, which names the targets")
    add("--names", metavar="FILE", help="also write the names of targets to this file, which --names of the other tools reads")
    add("--exact", action="store_true", help=f"one page a region: sets --unit, --cap, --min and --max; at most {MOST_CAP} pages")
    add("--unit", type=int, metavar="PAGES", help="the minimum size of a region (1)")
    add("--cap", type=int, metavar="N", help="the most regions that are ever allowed (--max)")
    add("--min", type=int, metavar="N", help="the regions that the first division aims at (10)")
    add("--max", type=int, metavar="N", help="the most regions (100)")
    add("--aggr", type=int, default=20, metavar="N", help="sampling intervals of an aggregation (20)")
    add("--version", type=int, default=1, choices=tuple(HEADERS), help="the version of the rules; 2 has time quotas and costs (1)")
    add("--seed", type=int, default=1, metavar="N", help="the seed of the random words (1)")
    add("--scheme", action="append", default=[], metavar="LINE", help="a line `scheme ..` as it stands in a script; may be repeated")
    commits.add_options(add)
    return result


def check_options(options: argparse.Namespace) -> None:
    for line in options.scheme:
        if not SCHEME.fullmatch(line):
            raise UsageError(f"--scheme needs a line that begins with `scheme `, and not {line!r}")
    if options.interval < 1:
        raise UsageError("--interval must be at least 1")
    if options.grain is not None:
        if not options.keep or options.fit:
            raise UsageError("--grain is for --keep without --fit, which makes its own intervals")
        if options.grain < 1 or options.interval % options.grain:
            raise UsageError("--interval must be a multiple of --grain")
    check_files(options)
    if options.gap < 0:
        raise UsageError("--gap must be at least 0")
    if options.exact and (options.unit or options.cap or options.min or options.max):
        raise UsageError("--exact sets --unit, --cap, --min and --max itself")


def check_files(options: argparse.Namespace) -> None:
    """Raises UsageError if a file that is written is another one as well."""
    others = {Path(path).resolve(): name for name, path in (("the trace", options.trace), ("that of --maps", options.maps)) if path}
    for option, path in (("--keep", options.keep), ("--names", options.names)):
        if path and Path(path).resolve() in others:
            raise UsageError(f"{option} needs a file of its own, and not {others[Path(path).resolve()]}")
        others |= {Path(path).resolve(): f"that of {option}"} if path else {}


def settings_of(options: argparse.Namespace, pages: int) -> Settings:
    """The setup, for targets of `pages` pages in all. Raises LimitError."""
    most = 100 if options.max is None else options.max
    least = 10 if options.min is None else options.min
    cap = most if options.cap is None else options.cap
    unit = 1 if options.unit is None else options.unit
    if options.exact:
        if pages > MOST_CAP:
            raise LimitError(f"cap is at most {MOST_CAP}, and --exact needs one region for each of {pages} pages: "
                             "use a smaller --gap, or do without --exact")
        unit, least = 1, max(pages, 3)
        most = cap = least
    settings = Settings(options.seed, unit, cap, least, most, options.aggr,
                        tuple(options.scheme), commits_of(placed_lines(options)), options.version)
    check_settings(settings)
    return settings


def recorded(options: argparse.Namespace, too_much: Callable[[Recording], bool]) -> Kept:
    """The trace in the intervals of the script, or with --fit and --keep in shorter ones. Raises UsageError, TraceError, LimitError."""
    if not options.keep or options.fit:
        with Interrupt() as interrupt:
            return read_trace(options, too_much, interrupt)
    # What is kept does not depend on the limits of this script: a long trace is not lost by them.
    finer = argparse.Namespace(**{**vars(options), "interval": options.grain or options.interval})
    with Interrupt() as interrupt:
        return read_trace(finer, no_limit(finer), interrupt)


def converted(options: argparse.Namespace) -> Result:
    """Reads the trace and makes the script. Raises UsageError, TraceError and LimitError."""
    if options.interval is None:
        options.interval = usual_interval(options)
    check_options(options)
    early = settings_of(options, 0)
    if has_judge():
        check_lines(early)
    maps = read_maps(options.maps) if options.maps else None
    too_much = too_much_to_fit(early.cap) if options.fit else too_much_at_all(early.cap, options.interval)
    kept = recorded(options, too_much)
    if not options.keep:
        return result_of(options, kept, maps, [])
    keep(options.keep, kept)
    note = f"kept {counted(len(kept.recording.intervals), 'interval')} of {kept.recording.length}, which can take the place of the trace"
    try:
        length = kept.recording.length if options.fit else options.interval
        return result_of(options, Kept(kept.origin, coarser(kept.recording, length, too_much)), maps, [note])
    except LimitError as error:
        raise LimitError(f"{error} (the trace is kept in {options.keep})") from None


def result_of(options: argparse.Namespace, kept: Kept, maps: list[Mapping] | None, said: list[str]) -> Result:
    """The script of a trace. Raises UsageError and LimitError."""
    recording = kept.recording
    choice = chosen(group_pages(touched(recording), options.gap, settings_of(options, 0).unit))
    if not choice.kept:
        raise UsageError("the trace has no access that is taken" if not choice.left_out
                         else "no target fits the limit of 1048576 pages: use a smaller --gap")
    settings = settings_of(options, pages_of(choice.kept))
    check_ranges(choice.kept, settings)
    if options.fit:
        length, script = fitted(choice.kept, recording, settings)
    else:
        length, script = recording.length, write_script(choice.kept, iter(recording.intervals), settings)
    names = known_names(choice.kept, recording.uses, maps, kept.origin.form == LACKEY)
    if options.names:
        write_names(options.names, choice.kept, names)
        said = [*said, f"names of {len(names)} of {counted(len(choice.kept), 'target')} are in {options.names}"]
    return Result(script, choice, recording, length, settings, kept.origin, names, said)


def write_names(path: str, areas: list[Area], names: dict[int, str]) -> None:
    """Writes the names of targets, by their addresses."""
    named = [NamedArea(areas[target].first * PAGE, areas[target].after * PAGE, names[target]) for target in sorted(names)]
    with whole_file(Path(path)) as stream:
        stream.write(lines_of(named).encode("ascii"))


def usual_interval(options: argparse.Namespace) -> int:
    """The interval where --interval is not given: one that a kept trace has."""
    usual = SHORTEST_FITTED if options.fit else USUAL_INTERVAL
    length = kept_at(options.trace).recording.length if is_kept(options.trace) else 1
    return usual if usual % length == 0 else length


def read_maps(path: str) -> list[Mapping]:
    with opened_text(path) as stream:
        try:
            return mappings(stream)
        except MapsError as error:
            raise UsageError(f"{path}: {error}") from None


def pages_of(areas: list[Area]) -> int:
    return sum(area.pages for area in areas)


def work() -> None:
    options = parser().parse_args()
    try:
        result = converted(options)
    except (LimitError, TraceError) as error:
        raise UsageError(str(error)) from None
    sys.stdout.writelines(result.script.pieces)
    sys.stdout.flush()
    for note in notes.of(result):
        print(f"note: {note}", file=sys.stderr)


if __name__ == "__main__":
    common.run(TOOL, work)
