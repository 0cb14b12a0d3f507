"""Says the settings and schemes of a script for a machine: as options of `damo`, and as values of the kernel's files.

A script has no time of its own, so how long a sampling interval lasts has to be given. What has no counterpart there is
said too.
"""
from __future__ import annotations

from dataclasses import dataclass, field
from fractions import Fraction
from typing import Iterator

from units import PAGE
from wording import counted

from .amounts import NOT_BOUNDED, share_words, time_words
from .damo import COLD_FIRST, FREE_MEMORY, HOT_FIRST, NO_BOUND, NO_METRIC, NO_QUOTA, Clock
from .grammar import words_of
from .schemes import Key, keys_of
from .setup import Script

PLACE = "/sys/kernel/mm/damon/admin/kdamonds/0/contexts/0"
UPDATE = Fraction(10**6)
"""The interval of updates that is printed where three intervals are wanted: the default of damo."""
LOOK = Fraction(5 * 10**6)
"""How often watermarks are looked at that is printed: the default of the kernel's modules."""
VIRTUAL, PHYSICAL = ("willneed", "cold", "hugepage", "nohugepage"), ("lru_prio", "lru_deprio")
"""Actions that the kernel has for virtual addresses only, and for physical ones only."""
MOST_BYTES = (1 << 64) - 1


@dataclass(frozen=True)
class Value:
    """What is written into a file of the kernel."""

    path: str
    value: str
    unit: str = ""


@dataclass
class Machine:
    """What a script says, for a machine."""

    options: list[list[str]] = field(default_factory=list)
    """The options of damo: those of a line belong together."""
    values: list[Value] = field(default_factory=list)
    lost: list[str] = field(default_factory=list)
    """What has no counterpart."""

    def put(self, path: str, value: object, unit: str = "") -> None:
        self.values.append(Value(path, str(value), unit))


def machine_of(script: Script, sample: Fraction) -> Machine:
    """The settings and schemes of a script that damon takes. `sample` is the sampling interval in microseconds."""
    least, most, aggr = map(int, script.words("attrs"))
    clock, found = Clock(sample, aggr), Machine()
    found.options.append(["--monitoring_intervals", *map(time_words, (sample, clock.aggregation, UPDATE)), "--monitoring_nr_regions_range",
        str(least), str(most)])
    for name, time in (("sample_us", sample), ("aggr_us", clock.aggregation), ("update_us", UPDATE)):
        found.put(f"monitoring_attrs/intervals/{name}", whole(time), "microseconds")
    found.put("monitoring_attrs/nr_regions/min", least)
    found.put("monitoring_attrs/nr_regions/max", most)
    schemes = script.schemes()
    found.put("schemes/nr_schemes", len(schemes))
    for number, line in enumerate(schemes):
        put_scheme(found, number, line, clock, len(schemes))
    found.lost += lost_of(script)
    return found


def whole(number: Fraction) -> int:
    """Rounded up."""
    return int(-(-number // 1))


def put_scheme(found: Machine, number: int, line: str, clock: Clock, schemes: int) -> None:
    """Adds a scheme. Where there are several each has all options, since damo takes those of one name in the order of the schemes."""
    action = words_of(line)[2].text
    keys = list(keys_of(line))
    by_name = {key.name.text: key for key in keys}
    options, path = ["--damos_action", action], f"schemes/{number}"
    found.put(f"{path}/action", action)
    options += put_pattern(found, path, by_name, clock)
    if "quota" in by_name or schemes > 1:
        options += put_quota(found, path, by_name, clock)
    if "marks" in by_name or schemes > 1:
        options += put_marks(found, path, by_name)
    filters = [key for key in keys if key.name.text == "filter"]
    options += put_filters(found, path, filters, schemes)
    found.options.append(options)
    if "quota" in by_name:
        wanted = "cold" if action in COLD_FIRST else "hot" if action in HOT_FIRST else None
        prefers = by_name["prefer"].value.text if "prefer" in by_name else "hot"
        if wanted != prefers:
            kind = "colder" if wanted == "cold" else "hotter"
            order = f"for {action} it takes {kind} regions first" if wanted else f"for {action} the order is not known here"
            found.lost.append(f"prefer={prefers} of scheme {number}: in the kernel the action decides, and {order}")
    if action in VIRTUAL or action in PHYSICAL:
        kind = "virtual" if action in VIRTUAL else "physical"
        found.lost.append(f"the address space of scheme {number}: the kernel has {action} for {kind} addresses only")


def put_pattern(found: Machine, path: str, by_name: dict[str, Key], clock: Clock) -> list[str]:
    """The spans of size, accesses and age."""
    size, count, age = (by_name[name].values() if name in by_name else [0, NO_BOUND] for name in ("size", "count", "age"))
    for end, pages in zip(("min", "max"), size):
        found.put(f"{path}/access_pattern/sz/{end}", MOST_BYTES if pages == NO_BOUND else pages * PAGE, "bytes")
    for end, samples in zip(("min", "max"), count):
        found.put(f"{path}/access_pattern/nr_accesses/{end}", samples, f"samples of {clock.aggr}")
    for end, aggregations in zip(("min", "max"), age):
        found.put(f"{path}/access_pattern/age/{end}", aggregations, "aggregations")
    return ["--damos_sz_region", *(NOT_BOUNDED if pages == NO_BOUND else str(pages * PAGE) for pages in size),
            "--damos_access_rate", *(share_words(min(samples, clock.aggr), clock.aggr) for samples in count),
            "--damos_age", *(NOT_BOUNDED if long == NO_BOUND else time_words(long * clock.aggregation) for long in age)]


def put_quota(found: Machine, path: str, by_name: dict[str, Key], clock: Clock) -> list[str]:
    """The quota with its time and its weights; with nothing that is limited where there is none."""
    most, ticks = by_name["quota"].values() if "quota" in by_name else (0, 0)
    spent = whole(Fraction(by_name["time"].values()[0], 10**6)) if "time" in by_name else 0
    reset = whole(ticks * clock.sample / 1000)
    if ticks * clock.sample % 1000:
        found.lost.append(f"a part of a millisecond of a reset interval: {counted(ticks, 'sampling interval')} are taken as {reset} ms")
    if "quota" in by_name and not most // PAGE:
        found.lost.append("a quota below a page, of which nothing is taken: in the kernel 0 bytes are no limit")
    limit = 0 if most == NO_QUOTA else most
    weights = permils(by_name["weights"].values() if "weights" in by_name else [1, 1, 1])
    for name, value, unit in (("ms", spent, "milliseconds"), ("bytes", limit, "bytes"), ("reset_interval_ms", reset, "milliseconds")):
        found.put(f"{path}/quotas/{name}", value, unit)
    for name, weight in zip(("sz_permil", "nr_accesses_permil", "age_permil"), weights):
        found.put(f"{path}/quotas/weights/{name}", weight, "thousandths")
    return ["--damos_quotas", f"{spent}ms", f"{limit}", f"{reset}ms", *map(str, weights)]


def permils(weights: list[int]) -> list[int]:
    """The weights as thousandths of their sum, rounded down."""
    return [1000 * weight // sum(weights) if sum(weights) else 0 for weight in weights]


def put_marks(found: Machine, path: str, by_name: dict[str, Key]) -> list[str]:
    """The watermarks on free memory; with no metric where there are none."""
    has_marks = "marks" in by_name
    metric, look, marks = (FREE_MEMORY, LOOK, by_name["marks"].values()) if has_marks else (NO_METRIC, Fraction(0), [0, 0, 0])
    found.put(f"{path}/watermarks/metric", metric)
    found.put(f"{path}/watermarks/interval_us", whole(look), "microseconds")
    for name, mark in zip(("high", "mid", "low"), marks):
        found.put(f"{path}/watermarks/{name}", mark, "thousandths")
    if has_marks:
        found.lost.append(f"the metric of the watermarks of scheme {path[8:]}: here commits hand it in, there it is {FREE_MEMORY}, "
                          f"looked at every {time_words(LOOK)}")
    return ["--damos_wmarks", metric, time_words(look), *map(str, marks)]


def put_filters(found: Machine, path: str, filters: list[Key], schemes: int) -> list[str]:
    """The filters that the kernel has too."""
    options: list[str] = []
    kept = [key for key in filters if key.filter_kind() != "class"]
    found.lost += [f"{key.name.text}={key.value.text}: the kernel has no classes" for key in filters if key not in kept]
    found.put(f"{path}/filters/nr_filters", len(kept))
    for number, key in enumerate(kept):
        answer, kind, _ = (piece.text for piece in key.value.parts(":"))
        place, values, is_other = f"{path}/filters/{number}", key.values(), kind.startswith("not-")
        found.put(f"{place}/type", key.filter_kind())
        found.put(f"{place}/matching", "N" if is_other else "Y")
        found.put(f"{place}/allow", "Y" if answer == "allow" else "N")
        if answer == "allow":
            found.lost.append(f"{place}/allow in older kernels, whose filters have no such file and reject")
        if key.filter_kind() == "addr":
            for name, value in zip(("addr_start", "addr_end"), values):
                found.put(f"{place}/{name}", value, "bytes")
        else:
            found.lost.append(f"the name of the file in {place} for the number of the target, {values[0]}: versions of the kernel differ")
        options += ["--damos_filter", answer, *["none"] * is_other, key.filter_kind(), *map(str, values)]
    if schemes > 1 and options:
        found.lost.append(f"{' '.join(options)}: of several schemes damo has to be told whose filters these are")
        return []
    return options


def lost_of(script: Script) -> Iterator[str]:
    """What of the settings has no counterpart."""
    yield f"seed {script.words('seed')[0]}: the kernel draws its own random words"
    yield f"cap {script.words('cap')[0]}: the most regions are its only limit"
    if script.words("unit")[0] != "1":
        yield f"unit {script.words('unit')[0]}: the kernel has no file for the smallest region"
    yield f"{counted(script.targets(), 'target')} with {counted(len(script.range_pages()), 'range')}: they are those of the traced program"
    if commits := script.intervals_of_commits():
        yield f"{counted(len(commits), 'commit')} of the body: on a machine `damo tune` changes settings"


def lines_of(found: Machine, sample: Fraction) -> list[str]:
    """All that is printed."""
    lines = [f"# a sampling interval is taken as {time_words(sample)}; TARGET is a process, a command or `paddr`", "damo start \\"]
    lines += [f"  {' '.join(options)} \\" for options in found.options]
    lines += ["  TARGET", "", f"# values of the kernel's files under {PLACE}"]
    wide = max(len(f"{one.path} {one.value}") for one in found.values)
    lines += [f"{one.path + ' ' + one.value:{wide}}  # {one.unit}" if one.unit else f"{one.path} {one.value}" for one in found.values]
    return [*lines, "", "# without a counterpart", *(f"# - {words}" for words in found.lost)]
