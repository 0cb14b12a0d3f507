"""Which pages schemes really put out, and when these came back.

A page goes out when `pageout` is applied to it, at the end of an aggregation, unless it is out
already. It comes back in a later aggregation, the first in which it was accessed: a refault of the
slot that put it out. Or it is fetched back when `willneed` is applied to it. Nothing else brings a
page back. These are the rules of `damon reclaim`.
"""
from __future__ import annotations

from dataclasses import dataclass, field
from typing import Iterable, NamedTuple

from reports.pages import PageRun, PageRuns, common, size, union, without

Owner = tuple[int, str]
"""A slot, and the action of its scheme."""
PAGEOUT, WILLNEED = "pageout", "willneed"


class Moment(NamedTuple):
    """An aggregation, by its number from 0 and its tick."""

    number: int
    tick: int


class Stay(NamedTuple):
    """A run of pages that are out."""

    start: int
    end: int
    slot: int
    since: Moment


class Move(NamedTuple):
    """A run of pages that went out together, and came back together or not at all."""

    stay: Stay
    back: Moment | None
    is_fetched: bool = False
    """Whether `willneed` brought them back, and no access."""


@dataclass
class Ledger:
    """What the scheme of one slot did; numbers of pages, but for `applied`."""

    applied: int = 0
    """Page-aggregations."""
    put_out: int = 0
    """Each time that a page went out counts."""
    different: PageRuns = field(default_factory=list)
    """The pages that went out at least once."""
    refaults: int = 0
    soon: int = 0
    """The refaults within that number of aggregations after the page went out."""
    prefetches: int = 0
    """Each time that `willneed` fetched a page back counts."""
    out: int = 0
    out_sum: int = 0
    """The pages that were out through a whole aggregation, added up."""

    @property
    def again(self) -> int:
        """The page-aggregations of `applied` whose pages were out already: they cost quota, and put nothing out."""
        return self.applied - self.put_out


class Paging:
    """Follows all slots with `pageout` through the aggregations."""

    def __init__(self, within: int, keep_moves: bool) -> None:
        self.within = within
        self.ledgers: dict[int, Ledger] = {}
        self.stays: list[Stay] = []
        """What is out, by page."""
        self.moves: list[Move] | None = [] if keep_moves else None
        self.again: dict[int, PageRuns] = {}
        """The pages that the last aggregation applied the `pageout` of a slot to although they were out already, by slot."""

    def add(self, now: Moment, accessed: PageRuns, applied: dict[Owner, list[PageRun]]) -> None:
        """Takes one aggregation: what was accessed in it comes in, and then schemes put out and fetch back, slot by slot."""
        for stay in self.come_in(now, accessed, is_fetched=False):
            ledger, pages = self.ledgers[stay.slot], stay.end - stay.start
            ledger.refaults += pages
            if now.number - stay.since.number <= self.within:
                ledger.soon += pages
        for ledger in self.ledgers.values():
            ledger.out_sum += ledger.out
        self.again = {}
        for (slot, action), runs in applied.items():
            if action == PAGEOUT:
                self.go_out(now, slot, runs)
            elif action == WILLNEED:
                for stay in self.come_in(now, sorted(runs), is_fetched=True):
                    self.ledgers[stay.slot].prefetches += stay.end - stay.start

    def come_in(self, now: Moment, pages: PageRuns, is_fetched: bool) -> list[Stay]:
        """Takes back those of the pages that are out, and gives them."""
        found = list(split(self.stays, pages))
        self.stays = [stay for stay, is_back in found if not is_back]
        back = [stay for stay, is_back in found if is_back]
        for stay in back:
            self.ledgers[stay.slot].out -= stay.end - stay.start
            self.keep(Move(stay, now, is_fetched))
        return back

    def go_out(self, now: Moment, slot: int, runs: list[PageRun]) -> None:
        ledger = self.ledgers.setdefault(slot, Ledger())
        ledger.applied += size(runs)
        are_out = [stay[:2] for stay in self.stays]
        new = without(sorted(runs), are_out)
        self.again[slot] = common(sorted(runs), are_out)
        if new:
            ledger.put_out += size(new)
            ledger.out += size(new)
            ledger.different = union(ledger.different, new)
            self.stays = sorted(self.stays + [Stay(start, end, slot, now) for start, end in new])

    def keep(self, move: Move) -> None:
        if self.moves is not None:
            self.moves.append(move)

    def all_moves(self) -> list[Move]:
        """The moves by the time they began and by page; the last ones are those of pages that are out now."""
        moves = (self.moves or []) + [Move(stay, None) for stay in self.stays]
        return join_moves(sorted(moves, key=lambda move: (move.stay.since, move.stay.slot, move.stay.start)))


def split(stays: Iterable[Stay], pages: PageRuns) -> Iterable[tuple[Stay, bool]]:
    """The stays, cut where the pages begin and end, each with whether it is one of them."""
    number = 0
    for stay in stays:
        while number < len(pages) and pages[number][1] <= stay.start:
            number += 1
        if number == len(pages) or stay.end <= pages[number][0]:
            yield stay, False
            continue
        start, ahead = stay.start, number
        while ahead < len(pages) and pages[ahead][0] < stay.end:
            first, after = max(start, pages[ahead][0]), min(stay.end, pages[ahead][1])
            if start < first:
                yield stay._replace(start=start, end=first), False
            yield stay._replace(start=first, end=after), True
            start, ahead = after, ahead + 1
        if start < stay.end:
            yield stay._replace(start=start), False


def join_moves(moves: Iterable[Move]) -> list[Move]:
    """Joins moves of neighbours that went out and came back together."""
    result: list[Move] = []
    for move in moves:
        last = result[-1] if result else None
        if last and last == move._replace(stay=move.stay._replace(start=last.stay.start, end=move.stay.start)):
            result[-1] = last._replace(stay=last.stay._replace(end=move.stay.end))
        else:
            result.append(move)
    return result


@dataclass
class Use:
    """What a scheme of another action was applied to, in page-aggregations."""

    applied: int = 0
    accessed: int = 0
    """Of these, what was accessed in at least one of the next aggregations."""


class Uses:
    """Follows the slots with other actions: are their pages accessed soon afterwards?"""

    def __init__(self, within: int) -> None:
        self.within = within
        self.found: dict[Owner, Use] = {}
        self.waiting: list[tuple[int, Owner, PageRuns]] = []
        """Pages that were applied to and not accessed since, with the number of the aggregation."""

    def add(self, now: Moment, accessed: PageRuns, applied: dict[Owner, list[PageRun]]) -> None:
        still: list[tuple[int, Owner, PageRuns]] = []
        for number, owner, runs in self.waiting:
            rest = without(runs, accessed)
            self.found[owner].accessed += size(runs) - size(rest)
            if rest and now.number - number < self.within:
                still.append((number, owner, rest))
        for owner, runs in applied.items():
            if owner[1] != PAGEOUT:
                self.found.setdefault(owner, Use()).applied += size(runs)
                still.append((now.number, owner, sorted(runs)))
        self.waiting = still
