"""Reports page by page, counted one by one. Shares nothing with the tools, which are tested beside it."""
from __future__ import annotations

from collections import Counter
from typing import Any

Page = tuple[int, int]
"""A target, and the number of the page in the address space."""
PageCounts = dict[str, Any]
"""An aggregation: its tick, the count of each page, and the pages that schemes were applied to."""


def aggregations_of(report: str) -> list[PageCounts]:
    """The aggregations of a report, page by page."""
    result: list[PageCounts] = []
    is_inside = False
    for line in report.splitlines():
        word, *rest = line.split()
        if word == "aggregate":
            result.append({"tick": int(rest[0][5:]), "counts": {}, "applied": []})
        is_inside = word in ("aggregate", "apply", "slot") or is_inside and word == "row"
        if is_inside and word in ("apply", "row"):
            target, span = rest[:2] if word == "row" else rest[2:4]
            low, high = (int(address, 16) // 4096 for address in span.split("-"))
            pages = [(int(target), page) for page in range(low, high)]
            if word == "apply":
                result[-1]["applied"].append((int(rest[0]), rest[1], pages))
            else:
                result[-1]["counts"].update(dict.fromkeys(pages, int(rest[2][6:])))
    return result


def accuracy_of(exact: list[PageCounts], found: list[PageCounts], hot: float) -> Counter[str]:
    """What the second report found of what the first one has, in sums over all aggregations."""
    total: Counter[str] = Counter()
    before = 0
    for one, other in zip(exact, found):
        passes, before = one["tick"] - before, one["tick"]
        used = {page for page, count in one["counts"].items() if count}
        called = {page for page, count in other["counts"].items() if count}
        for page, count in one["counts"].items():
            seen = other["counts"].get(page)
            total["pages"] += 1
            total["blind"] += seen is None
            total["hot"] += count >= hot * passes
            total["hot called"] += seen is not None and seen >= hot * passes
            total["hot both"] += count >= hot * passes and seen is not None and seen >= hot * passes
            total["cold"] += count == 0
            total["cold called"] += seen == 0
            total["cold both"] += count == 0 and seen == 0
        total["used"] += len(used)
        total["called"] += len(called)
        total["off"] += abs(len(used) - len(called))
    return total
