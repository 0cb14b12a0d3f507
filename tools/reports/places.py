"""Reads where the targets are, from a live script or a journal: heat tables do not say that."""
from __future__ import annotations

import re
from dataclasses import dataclass
from typing import Iterable, Sequence

from scripts.grammar import first_word
from scripts.reading import Setup
from units import PAGE_BITS
from wording import counted

from .heat import Heat

HEADER = re.compile(r"damon (?:live|journal) [12]")
TARGET = re.compile(r"target 0x([0-9a-f]+) ([1-9]\d*)")


class PlaceError(Exception):
    """A text that is not a live script or a journal, or not the one of some tables."""


@dataclass(frozen=True)
class Place:
    """Where a target is."""

    base: int
    pages: int

    @property
    def end(self) -> int:
        return self.base + (self.pages << PAGE_BITS)

    def borders(self, columns: int) -> list[int]:
        """The pages of the target at which its columns begin and end. If it has fewer pages than columns, some have none."""
        return [column * self.pages // columns for column in range(columns + 1)]


def places_of(lines: Iterable[str]) -> list[Place]:
    """The targets that the setup names, in order. Raises PlaceError with the number of the first faulty line."""
    setup = Setup.of(lines).lines
    if not HEADER.fullmatch(header := setup[0] if setup else ""):
        raise PlaceError(f"line 1: not a live script or a journal: {ascii(header[:60])}")
    found: list[Place] = []
    for number, line in enumerate(setup, 1):
        if first_word(line) == "target":
            match = TARGET.fullmatch(line)
            if not match:
                raise PlaceError(f"line {number}: not a target: {ascii(line[:60])}")
            found.append(Place(int(match[1], 16), int(match[2])))
    if not found or first_word(setup[-1]) == "target":
        raise PlaceError("the text ends before its targets do")
    return found


def check_places(heats: Iterable[Heat], places: Sequence[Place]) -> None:
    """Raises PlaceError if the tables are not of these targets: if they are other ones, or too hot for their pages."""
    for found in heats:
        if len(found.heat) != len(places):
            raise PlaceError(f"the targets are {len(places)}, and {len(found.heat)} in the tables: it is not the text of these")
        for target, (place, heat) in enumerate(zip(places, found.heat)):
            borders = place.borders(len(heat))
            for column, value in enumerate(heat):
                pages = borders[column + 1] - borders[column]
                if value > pages * found.passes:
                    raise PlaceError(f"column {column} of target {target} has {counted(pages, 'page')}, whose heat in "
                                     f"{found.passes} passes cannot be {value}: it is not the text of these tables")
