"""Names of areas, from a file with a line `START-END NAME` for each: addresses as in a report, END behind the last byte.

Names go by address and not by target, so that a file fits each script that is made of a trace.
"""
from __future__ import annotations

import re
from dataclasses import dataclass
from typing import Iterable, Mapping, Sequence

LINE = re.compile(r"0x([0-9a-f]{1,16})-0x([0-9a-f]{1,16}) ([!-~][ -~]*)")


class NamesError(Exception):
    """A line that names no area."""


@dataclass(frozen=True)
class NamedArea:
    """Addresses from `start` to before `end`."""

    start: int
    end: int
    name: str

    def shared(self, start: int, end: int) -> int:
        """How many bytes it has in common with others."""
        return max(0, min(end, self.end) - max(start, self.start))


def named_areas_of(lines: Iterable[str]) -> list[NamedArea]:
    """The areas of a file, in its order. Raises NamesError with the number of the first faulty line."""
    areas = []
    for number, line in enumerate(lines, 1):
        match = LINE.fullmatch(line.rstrip("\n"))
        if not match or int(match[1], 16) >= int(match[2], 16):
            raise NamesError(f"line {number}: not `START-END NAME`, as in `0x4d12000-0x4dce000 page cache`: {ascii(line.rstrip()[:60])}")
        areas.append(NamedArea(int(match[1], 16), int(match[2], 16), match[3]))
    return areas


def lines_of(areas: Iterable[NamedArea]) -> str:
    """The text of a file of these areas."""
    return "".join(f"{area.start:#x}-{area.end:#x} {area.name}\n" for area in areas)


def name_of(areas: Sequence[NamedArea], start: int, end: int) -> str | None:
    """The name of most of these bytes, the first of several that have as many; None if no area has one of them."""
    best = max(areas, key=lambda area: area.shared(start, end), default=None)
    return best.name if best and best.shared(start, end) else None


def names_by_target(areas: Sequence[NamedArea], spans: Mapping[int, tuple[int, int]]) -> dict[int, str]:
    """The names of targets, as far as they have one, by the addresses that they span."""
    found = {target: name_of(areas, start, end) for target, (start, end) in spans.items()}
    return {target: name for target, name in found.items() if name is not None}
