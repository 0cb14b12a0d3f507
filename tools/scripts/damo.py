"""Reads schemes and intervals as `damo` has them, as its options or as its JSON, and says them as lines of a script.

Only what is known to be of that form is read: all else is refused by name. Bytes become pages, shares of samples counts,
and times passes or aggregations. The least of a span is rounded up and the most of it down, so that nothing matches that
would not match there.
"""
from __future__ import annotations

import argparse
import json
import shlex
from dataclasses import dataclass, field
from fractions import Fraction
from typing import Any, Iterable, NoReturn, Sequence

from common import UsageError
from units import PAGE

from .amounts import NOT_BOUNDED, microseconds, parts, permil, size, time_words
from .grammar import ACTIONS, MOST_AGGR

NO_BOUND = (1 << 32) - 1
NO_QUOTA = (1 << 64) - 1
COLD_FIRST, HOT_FIRST = ("pageout", "lru_deprio"), ("lru_prio",)
"""The actions that say which regions come first."""
FREE_MEMORY, NO_METRIC = "free_mem_rate", "none"
FILTERS = ("addr", "target")
"""The kinds of filters that a script has too."""
WORDS = ("sudo", "damo", "start", "tune", "record")
"""What may stand before the options."""
LETTERS = {"--monitoring_intervals": ("-s", "-a", "-u"), "--monitoring_nr_regions_range": ("-n", "-m")}


@dataclass
class Scheme:
    """A scheme with its amounts as damo spells them."""

    action: str
    size: Sequence[str] = ("0", NOT_BOUNDED)
    rate: Sequence[str] = ("0%", NOT_BOUNDED)
    age: Sequence[str] = ("0", NOT_BOUNDED)
    quotas: Sequence[str] = ()
    """Time, bytes and reset interval, then the weights of size, accesses and age."""
    marks: Sequence[str] = ()
    """Metric, interval, and the marks high, mid and low."""
    filters: Sequence[Sequence[str]] = ()


@dataclass
class Wanted:
    """What damo is told."""

    intervals: Sequence[str] = ()
    """Sampling, aggregation, and update of the regions."""
    regions: Sequence[str] = ()
    """The least and the most."""
    schemes: list[Scheme] = field(default_factory=list)
    notes: list[str] = field(default_factory=list)


@dataclass(frozen=True)
class Clock:
    """How long things are."""

    sample: Fraction
    """Microseconds of a sampling interval, which is a pass of a script."""
    aggr: int
    """Passes of an aggregation."""

    @property
    def aggregation(self) -> Fraction:
        return self.sample * self.aggr


class Options(argparse.ArgumentParser):
    def error(self, message: str) -> NoReturn:
        known = sorted(option for option in self._option_string_actions if option.startswith("--"))
        raise UsageError(f"--damo: {message}; it takes {', '.join(known)}")


def options() -> Options:
    result = Options(prog="damo", add_help=False, allow_abbrev=False)
    add = result.add_argument
    add("--monitoring_intervals", nargs=3)
    add("--monitoring_nr_regions_range", nargs=2)
    add("-s", "--sample")
    add("-a", "--aggr")
    add("-u", "--updr")
    add("-n", "--minr")
    add("-m", "--maxr")
    add("--damos_action", action="append", default=[])
    for name in ("--damos_sz_region", "--damos_access_rate", "--damos_age"):
        add(name, nargs=2, action="append", default=[])
    add("--damos_quotas", nargs="+", action="append", default=[])
    add("--damos_wmarks", nargs=5, action="append", default=[])
    add("--damos_filter", nargs="+", action="append", default=[])
    return result


def wanted_of(text: str) -> Wanted:
    """What a text says: the options of a command line, or JSON. Raises UsageError."""
    if text.lstrip()[:1] in ("[", "{"):
        try:
            return wanted_of_json(json.loads(text))
        except ValueError as error:
            raise UsageError(f"--damo: not JSON: {error}") from None
        except (AttributeError, KeyError, TypeError) as error:
            raise UsageError(f"--damo: not the JSON of schemes or of kdamonds: {type(error).__name__} {error}") from None
    try:
        words = shlex.split(text)
    except ValueError as error:
        raise UsageError(f"--damo: {error}") from None
    while words and words[0] in WORDS:
        words.pop(0)
    return wanted_of_options(options().parse_args(words))


def wanted_of_options(found: argparse.Namespace) -> Wanted:
    """Each option of a scheme belongs to the action that has the same place among the actions."""
    intervals = found.monitoring_intervals or old_options("--monitoring_intervals", found.sample, found.aggr, found.updr)
    regions = found.monitoring_nr_regions_range or old_options("--monitoring_nr_regions_range", found.minr, found.maxr)
    schemes = [Scheme(action) for action in found.damos_action]
    for option, name in (("damos_sz_region", "size"), ("damos_access_rate", "rate"), ("damos_age", "age"), ("damos_quotas", "quotas"),
        ("damos_wmarks", "marks")):
        values = getattr(found, option)
        if len(values) > len(schemes):
            raise UsageError(f"--damo: --{option} comes {len(values)} times, and --damos_action {len(schemes)} times")
        for scheme, value in zip(schemes, values):
            setattr(scheme, name, value)
    if found.damos_filter and len(schemes) != 1:
        raise UsageError("--damo: which scheme a --damos_filter is of is known with one --damos_action only")
    for scheme in schemes:
        scheme.filters = found.damos_filter
    return Wanted(intervals, regions, schemes)


def old_options(name: str, *values: str | None) -> Sequence[str]:
    """The values of the short options, of which all or none are needed."""
    if any(values) and not all(values[:2]):
        raise UsageError(f"--damo: {' and '.join(LETTERS[name][:2])} come together, or {name} in their place")
    return [value for value in values if value is not None]


def wanted_of_json(found: Any) -> Wanted:
    """A list of schemes, an object with `schemes`, or kdamonds with one context. Raises UsageError."""
    if isinstance(found, list):
        return Wanted(schemes=[scheme_of_json(one) for one in found])
    if "kdamonds" in found:
        contexts = [context for kdamond in found["kdamonds"] for context in kdamond.get("contexts", [])]
        if len(contexts) != 1:
            raise UsageError(f"--damo: there are {len(contexts)} contexts, and a script is one")
        found = contexts[0]
    schemes = [scheme_of_json(one) for one in found.get("schemes", [])]
    intervals = [str(found["intervals"][name]) for name in ("sample_us", "aggr_us",
        "ops_update_us") if name in found["intervals"]] if "intervals" in found else []
    regions = [str(found["nr_regions"][name]) for name in ("min", "max")] if "nr_regions" in found else []
    return Wanted(intervals, regions, schemes)


def scheme_of_json(found: Any) -> Scheme:
    """A scheme with the members that are known here; a member with another value than nothing is refused."""
    known = {"action", "access_pattern", "quotas", "watermarks"}
    for name, value in found.items():
        if name not in known and value not in (None, [], 0, "0", "0 us", "0 ns", "-1", -1):
            raise UsageError(f"--damo: a scheme's {name!r} is not read from JSON: it is {json.dumps(value)}")
    scheme, pattern = Scheme(str(found["action"])), found.get("access_pattern", {})
    for member, name in (("sz_bytes", "size"), ("nr_accesses", "rate"), ("age", "age")):
        if member in pattern:
            setattr(scheme, name, [str(pattern[member][end]) for end in ("min", "max")])
    if quotas := found.get("quotas"):
        if quotas.get("goals"):
            raise UsageError("--damo: goals of a quota are not read from JSON: `./damon tune` takes goals")
        weights = quotas.get("weights", {})
        scheme.quotas = [str(quotas.get(name, 0)) for name in ("time_ms", "sz_bytes", "reset_interval_ms")]
        scheme.quotas += [str(weights.get(name, 0)) for name in ("sz_permil", "nr_accesses_permil", "age_permil")]
    if marks := found.get("watermarks"):
        scheme.marks = [str(marks.get(name, 0)) for name in ("metric", "interval_us", "high_permil", "mid_permil", "low_permil")]
    return scheme


def clock_of(wanted: Wanted, sample: Fraction, aggr: int) -> Clock:
    """The clock that is asked for, or else the one that is given. Raises UsageError."""
    if not wanted.intervals:
        return Clock(sample, aggr)
    first, second = (microseconds(text, "us") for text in wanted.intervals[:2])
    if not first or not second or second % first or not 1 <= second / first <= MOST_AGGR:
        raise UsageError(f"--damo: an aggregation of {wanted.intervals[1]} is not 1 to {MOST_AGGR} sampling intervals of {wanted.intervals[0]}")
    if len(wanted.intervals) > 2:
        wanted.notes.append("the interval of updates of the regions is left out: in a script only commits change ranges")
    return Clock(first, int(second / first))


def line_of(slot: int, scheme: Scheme, clock: Clock, notes: list[str]) -> str:
    """The line of a scheme. Raises UsageError for what a script does not have."""
    if scheme.action not in ACTIONS:
        raise UsageError(f"--damo: the action {scheme.action!r} has no counterpart: a script has {', '.join(ACTIONS)}")
    keys = [span("size", [pages(text, is_most) for text, is_most in zip(scheme.size, (False, True))], scheme.size),
            span("count", [count(text, is_most, clock) for text, is_most in zip(scheme.rate, (False, True))], scheme.rate),
            span("age", [aggregations(text, is_most, clock, notes) for text, is_most in zip(scheme.age, (False, True))], scheme.age)]
    keys += quota_keys(scheme, clock, notes)
    keys += marks_keys(scheme, notes)
    keys += [filter_key(words) for words in scheme.filters]
    return " ".join(["scheme", str(slot), scheme.action, *(key for key in keys if key)])


def span(name: str, values: Sequence[int], texts: Sequence[str]) -> str:
    """The key of a span; nothing for one without bounds. Raises UsageError if no whole number lies in it."""
    least, most = values
    if least > most:
        raise UsageError(f"--damo: no whole {name} lies between {texts[0]} and {texts[1]}")
    return "" if (least, most) == (0, NO_BOUND) else f"{name}={least},{most}"


def whole(value: Fraction | None, is_most: bool) -> int:
    """The most is rounded down and the least up."""
    return NO_BOUND if value is None else min(NO_BOUND, int(value // 1 if is_most else -(-value // 1)))


def pages(text: str, is_most: bool) -> int:
    found = size(text)
    return whole(None if found is None else found / PAGE, is_most)


def count(text: str, is_most: bool, clock: Clock) -> int:
    """How many of the samples of an aggregation are such a share."""
    if text == NOT_BOUNDED:
        return NO_BOUND
    number, unit = parts(text)
    if unit in ("samples", "sample"):
        return whole(number, is_most)
    if unit != "%" and number:
        raise UsageError(f"--damo: the access rate {text!r} is not a percentage, such as 5%")
    exact = number * clock.aggr / 100
    # A share with two decimals stands for the count that it is next above, as 66.67% for 2 of 3.
    return int(exact) if exact % 1 < Fraction(clock.aggr, 10_000) else whole(exact, is_most)


def aggregations(text: str, is_most: bool, clock: Clock, notes: list[str]) -> int:
    """How many aggregations last so long."""
    if text != NOT_BOUNDED and parts(text)[1] == "aggr_intervals":
        return whole(parts(text)[0], is_most)
    found = microseconds(text, "us")
    if found is None:
        return NO_BOUND
    exact = found / clock.aggregation
    if exact % 1:
        notes.append(f"the age {text} is not a whole number of aggregations of {time_words(clock.aggregation)}: "
                     f"it is taken as {whole(exact, is_most)} of them")
    return whole(exact, is_most)


def quota_keys(scheme: Scheme, clock: Clock, notes: list[str]) -> list[str]:
    """The quota with its time, the weights, and which regions come first; nothing if neither time nor bytes are limited."""
    if not scheme.quotas:
        return []
    time, limit, reset, *weights = [*scheme.quotas, *("0",) * (6 - len(scheme.quotas))]
    spent, most, interval = microseconds(time, "ms") or Fraction(0), size(limit) or Fraction(0), microseconds(reset, "ms")
    if not spent and not most:
        return []
    ticks = NO_BOUND if interval is None else max(1, whole(interval / clock.sample, False))
    if interval is not None and interval % clock.sample:
        notes.append(f"the reset interval {reset} is not a whole number of sampling intervals: it is taken as {ticks} of them")
    keys = [f"quota={int(most) or NO_QUOTA},{ticks}"]
    if spent:
        keys.append(f"time={int(spent * 1000)}")
    keys.append("weights=" + ",".join(str(int(permil(weight))) for weight in weights))
    if scheme.action in COLD_FIRST:
        keys.append("prefer=cold")
    elif scheme.action not in HOT_FIRST:
        notes.append(f"which regions come first within the quota is known for {', '.join(COLD_FIRST + HOT_FIRST)}; "
                     f"for {scheme.action} it is prefer=hot here")
    return keys


def marks_keys(scheme: Scheme, notes: list[str]) -> list[str]:
    if not scheme.marks or scheme.marks[0] == NO_METRIC:
        return []
    metric, _, *marks = scheme.marks
    if metric != FREE_MEMORY:
        raise UsageError(f"--damo: the watermark metric {metric!r} is not known: it is {FREE_MEMORY} or {NO_METRIC}")
    notes.append(f"the metric of watermarks comes from commits, --metric INTERVAL:N, in thousandths of {FREE_MEMORY}; "
                 "how often it is looked at is left out")
    return ["marks=" + ",".join(str(int(permil(mark))) for mark in marks)]


def filter_key(words: Sequence[str]) -> str:
    """A filter `allow|reject [none] KIND ..`, or as before `KIND matching|nomatching ..`, which rejects. Raises UsageError."""
    rest = list(words)
    if rest[0] in ("allow", "reject"):
        answer, is_other = rest.pop(0), rest[:1] == ["none"]
        rest = rest[is_other:]
    else:
        answer, is_other = "reject", rest[1:2] == ["nomatching"]
        if rest[1:2] not in (["matching"], ["nomatching"]):
            raise UsageError(f"--damo: not a filter: {' '.join(words)!r}")
        del rest[1]
    if not rest or rest[0] not in FILTERS:
        raise UsageError(f"--damo: the filter {' '.join(words)!r} has no counterpart: a script has filters by {' and '.join(FILTERS)}")
    kind, values = rest[0], [number(word) for word in rest[1:]]
    if len(values) != (2 if kind == "addr" else 1):
        raise UsageError(f"--damo: not a filter: {' '.join(words)!r}")
    what = f"{values[0]:#x}-{values[1]:#x}" if kind == "addr" else f"{values[0]}"
    return f"filter={answer}:{'not-' * is_other}{kind}:{what}"


def number(word: str) -> int:
    """A number of a filter: an address may be hexadecimal."""
    try:
        return int(word.replace(",", ""), 0)
    except ValueError:
        raise UsageError(f"--damo: {word!r} is not a number") from None


def lines_of(wanted: Wanted, clock: Clock) -> Iterable[str]:
    """The lines of all schemes, in slots from 0 on. Notes are added to what is wanted."""
    return [line_of(slot, scheme, clock, wanted.notes) for slot, scheme in enumerate(wanted.schemes)]
