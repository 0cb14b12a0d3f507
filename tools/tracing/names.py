"""Names for targets: from a copy of /proc/PID/maps, and by the places at which valgrind puts things."""
from __future__ import annotations

import re
from collections import Counter
from dataclasses import dataclass
from typing import Iterable, Mapping as Map

from units import PAGE_BITS
from .areas import Area, Lookup

LINE = re.compile(r"([0-9a-f]+)-([0-9a-f]+) ([-r][-w][-x][-ps]) [0-9a-f]+ [0-9a-f]+:[0-9a-f]+ [0-9]+ *(.*)")
BRACKETS = re.compile(r"\[(?:anon:)?(.*)\]")
DELETED = " (deleted)"
UNPRINTED = re.compile(r"[^ -~]")
ANONYMOUS = "anonymous"
HEAP, STACK = "heap", "stack"

# Where valgrind puts things on 64-bit Linux: the loader first, if there is one, the heap of `brk` behind it
# with room for 8 MiB, and memory that is mapped later behind that. The stack of the first thread ends at a
# fixed place.
LOADER_FIRST = 0x4000000 >> PAGE_BITS
MAPPED_FIRST = 0x4800000 >> PAGE_BITS
STACK_AFTER = 0x1FFF001000 >> PAGE_BITS
STACK_FIRST = STACK_AFTER - (8 << 20 >> PAGE_BITS)


class MapsError(Exception):
    """A line that is not one of /proc/PID/maps."""


@dataclass(frozen=True)
class Mapping:
    """A line of the maps: pages from `first` to before `after`."""

    first: int
    after: int
    name: str


def mappings(lines: Iterable[str]) -> list[Mapping]:
    """The mappings of a copy of /proc/PID/maps, by address. Raises MapsError."""
    result: list[Mapping] = []
    for number, line in enumerate(lines, 1):
        match = LINE.fullmatch(line.rstrip("\n"))
        if not match:
            raise MapsError(f"line {number}: not a line of /proc/PID/maps")
        first, after, text = int(match[1], 16) >> PAGE_BITS, int(match[2], 16) >> PAGE_BITS, match[4]
        result.append(Mapping(first, after, name_of(text) if text else anonymous_name(first, after)))
    return result


def name_of(text: str) -> str:
    """The last part of a path, or what stands in brackets."""
    match = BRACKETS.fullmatch(text)
    name = match[1] if match else text.removesuffix(DELETED).rsplit("/", 1)[-1]
    return UNPRINTED.sub("?", name).strip() or ANONYMOUS


def anonymous_name(first: int, after: int) -> str:
    """Under valgrind the stack and the heap have no name of their own in the maps."""
    if after == STACK_AFTER:
        return STACK
    return HEAP if LOADER_FIRST <= first < MAPPED_FIRST else ANONYMOUS


def known_names(areas: list[Area], uses: Map[int, int], maps: list[Mapping] | None, is_valgrinds: bool) -> dict[int, str]:
    """The names of targets that have one: by the maps, or else by the places at which valgrind puts things."""
    if maps is None:
        return names_by_place(areas) if is_valgrinds else {}
    return {target: name for target, name in names_by_maps(areas, uses, maps).items() if name != ANONYMOUS}


def names_by_maps(areas: list[Area], uses: Map[int, int], maps: list[Mapping]) -> dict[int, str]:
    """For each target the name of the mappings that most of its accesses lie in."""
    lookup = Lookup([Area(one.first, one.after, 0) for one in maps])
    found: dict[int, Counter[str]] = {}
    targets = Lookup(areas)
    for page, count in uses.items():
        target, mapping = targets.target_of(page), lookup.target_of(page)
        if target is not None and mapping is not None:
            found.setdefault(target, Counter())[maps[mapping].name] += count
    return {target: most_used(found[target]) for target in sorted(found)}


def most_used(names: Counter[str]) -> str:
    return max(sorted(names), key=lambda name: names[name])


def names_by_place(areas: list[Area]) -> dict[int, str]:
    """The stack, and the heap of a program that has a loader, where valgrind puts them.

    The data of the loader may lie in the heap's target.
    """
    names = {}
    for target, area in enumerate(areas):
        if STACK_FIRST < area.after <= STACK_AFTER:
            names[target] = STACK
    behind_loader = [target for target, area in enumerate(areas) if LOADER_FIRST < area.first and area.after <= MAPPED_FIRST]
    if behind_loader:
        names[behind_loader[-1]] = HEAP
    return names
