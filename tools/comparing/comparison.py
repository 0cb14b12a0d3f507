"""Adds up, aggregation by aggregation, what a report missed and what its schemes did."""
from __future__ import annotations

from typing import Any

from measuring.sums import Sums
from reports.events import Aggregation

from .counts import Exact, applied_of, regions_of
from .paging import PAGEOUT, Ledger, Moment, Paging, Use, Uses


class Comparison:
    """A report beside the exact one."""

    def __init__(self, name: str, within: int, keep_moves: bool) -> None:
        self.name = name
        self.within = within
        self.sums = Sums()
        self.paging = Paging(within, keep_moves)
        self.uses = Uses(within)

    def add(self, exact: Exact, found: Aggregation, target: int | None, share: float) -> None:
        """Adds one aggregation. Raises LookupError if the exact counts lack a page, and ReportError."""
        now = Moment(self.sums.aggregations, found.tick)
        self.sums.add(exact.truth, exact.found_by(regions_of(found, target), share * found.passes))
        applied = applied_of(found, target)
        self.paging.add(now, exact.accessed, applied)
        self.uses.add(now, exact.accessed, applied)

    def slots(self) -> list[tuple[int, str, Ledger | Use]]:
        """What each scheme did, by slot and action."""
        found: list[tuple[int, str, Ledger | Use]] = [(slot, PAGEOUT, ledger) for slot, ledger in self.paging.ledgers.items()]
        found += [(slot, action, use) for (slot, action), use in self.uses.found.items()]
        return sorted(found, key=lambda one: one[:2])


def members(found: Comparison) -> dict[str, Any]:
    """A comparison as it stands in JSON: sums in page-aggregations, and means over aggregations."""
    sums, count = found.sums, found.sums.aggregations
    return {
        "report": found.name,
        "aggregations": count,
        "page_aggregations": sums.pages,
        "not_watched": sums.unwatched,
        "hot": {"exact": sums.hot, "called": sums.called_hot, "found": sums.hot_found},
        "cold": {"exact": sums.cold, "called": sums.called_cold, "found": sums.cold_found},
        "working_set": {"exact": sums.working_set / count, "found": sums.working_set_found / count, "off": sums.working_set_off / count},
        "slots": [slot_members(slot, action, one, count) for slot, action, one in found.slots()],
    }


def slot_members(slot: int, action: str, found: Ledger | Use, aggregations: int) -> dict[str, Any]:
    if isinstance(found, Use):
        return {"slot": slot, "action": action, "applied": found.applied, "accessed_soon": found.accessed}
    return {
        "slot": slot, "action": action, "applied": found.applied, "again": found.again, "put_out": found.put_out,
        "different": sum(end - start for start, end in found.different), "refaults": found.refaults, "refaults_soon": found.soon,
        "fetched": found.prefetches, "out_at_end": found.out, "out": found.out_sum / aggregations,
    }
