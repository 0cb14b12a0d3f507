"""Notes on schemes that damon takes, but that cannot do anything, or not what they look like."""
from __future__ import annotations

from dataclasses import dataclass

from units import PAGE

from .grammar import words_of
from .schemes import Key, keys_of

COLD_ACTIONS = ("pageout", "cold", "lru_deprio")
"""The actions that are meant for memory that is not used."""


@dataclass(frozen=True)
class Circumstances:
    """The run in which a scheme works."""

    aggr: int
    """The most passes of an aggregation."""
    targets: int
    largest: int
    """The pages of the largest range."""
    metrics: tuple[int, ...]
    """The metrics that are handed in after the scheme was set."""
    aggregations: int | None = None
    """How many there are, where this is known."""


def advice(line: str, run: Circumstances) -> list[str]:
    """Notes on a scheme line that damon has accepted, as sentences about its slot."""
    slot, action = (word.text for word in words_of(line)[1:3])
    keys = list(keys_of(line))
    found = [note for key in keys if (note := useless(key, run))]
    if action in COLD_ACTIONS and prefers_hot_unsaid(keys):
        found.append("its quota goes to hotter regions first, whatever the action: add prefer=cold to take colder ones first")
    return [f"slot {slot}: {note}" for note in found]


def prefers_hot_unsaid(keys: list[Key]) -> bool:
    """Whether hot regions come first only because the line does not say which do."""
    by_name = {key.name.text: key for key in keys}
    counts_weigh = "weights" not in by_name or by_name["weights"].values()[1] > 0
    return "quota" in by_name and "prefer" not in by_name and counts_weigh


def useless(key: Key, run: Circumstances) -> str | None:
    """Why a scheme with this key is applied to nothing; None if it may be."""
    find = {"size": size, "count": count, "age": age, "quota": quota, "marks": marks, "filter": target_filter}
    return find[key.name.text](key, run) if key.name.text in find else None


def size(key: Key, run: Circumstances) -> str | None:
    least = key.values()[0]
    return f"it matches nothing: no range has {least} pages, the largest has {run.largest}" if least > run.largest else None


def count(key: Key, run: Circumstances) -> str | None:
    least = key.values()[0]
    return f"it matches nothing: a count of {least} is above aggr, {run.aggr}" if least > run.aggr else None


def age(key: Key, run: Circumstances) -> str | None:
    least = key.values()[0]
    if run.aggregations is None or least <= run.aggregations:
        return None
    return f"it matches nothing: an age of {least} needs as many aggregations, and there are {run.aggregations}"


def quota(key: Key, run: Circumstances) -> str | None:
    pages = key.values()[0]
    return f"it is applied to nothing: a quota of {pages} bytes is less than a page of {PAGE}" if pages < PAGE else None


def marks(key: Key, run: Circumstances) -> str | None:
    _, mid, low = key.values()
    if low == mid:
        return "it is never active: its watermarks mid and low are equal"
    if any(low <= metric < mid for metric in run.metrics):
        return None
    wanted = f"metric from {low} to {mid - 1}" if run.metrics else "metric"
    return f"it is never active in a replay: it has watermarks, and no {wanted} comes"


def target_filter(key: Key, run: Circumstances) -> str | None:
    if key.filter_kind() != "target" or (number := key.values()[0]) < run.targets:
        return None
    return f"its filter names target {number}, and the last target is {run.targets - 1}"
