"""Says a comparison in lines, and several beside each other in columns."""
from __future__ import annotations

from pathlib import Path
from typing import Sequence

from measuring.sums import Sums
from reports.pages import place, size
from units import PAGE
from wording import aligned, counted

from .comparison import Comparison
from .paging import Ledger, Move, Use


def share(part: int, whole: int) -> str:
    return f"{100 * part / whole:.1f} %" if whole else "none"


def lines_of(found: Comparison) -> list[str]:
    """All that is said of one report."""
    lines = accuracy_lines(found.sums)
    for slot, action, one in found.slots():
        lines += [f"slot {slot} {action}: {fact}" for fact in slot_facts(one, found)]
    return [*lines, *map(move_line, found.paging.all_moves() if found.paging.moves is not None else [])]


def accuracy_lines(found: Sums) -> list[str]:
    """What was found, in page-aggregations, and the working set."""
    lines = [
        f"{counted(found.aggregations, 'aggregation')}, {counted(found.pages, 'page-aggregation')}",
        f"hot: {found.hot_found} of {found.hot} page-aggregations found: {share(found.hot_found, found.hot)}",
        f"hot: {found.called_hot - found.hot_found} of {found.called_hot} page-aggregations called hot are not: "
        f"{share(found.called_hot - found.hot_found, found.called_hot)}",
        f"cold: {found.cold_found} of {found.cold} page-aggregations found: {share(found.cold_found, found.cold)}",
        f"cold: {found.called_cold - found.cold_found} of {found.called_cold} page-aggregations called cold are not: "
        f"{share(found.called_cold - found.cold_found, found.called_cold)}",
        working_set_line(found),
    ]
    if found.unwatched:
        lines.insert(1, f"not watched: {counted(found.unwatched, 'page-aggregation')}, which are never found")
    return lines


def working_set_line(found: Sums) -> str:
    count = found.aggregations
    return (f"working set: {found.working_set_found / count:.1f} pages on average, exactly {found.working_set / count:.1f}: "
            f"{working_set_error(found)}; off by {found.working_set_off / count:.1f} pages on average")


def working_set_error(found: Sums) -> str:
    off = found.working_set_found - found.working_set
    return f"{100 * off / found.working_set:+.1f} %" if found.working_set else "none"


def slot_facts(found: Ledger | Use, of: Comparison) -> list[str]:
    """What a scheme did, in pages."""
    within, aggregations = counted(of.within, "aggregation"), of.sums.aggregations
    if isinstance(found, Use):
        return [f"{found.accessed} of {found.applied} page-aggregations that it was applied to were accessed in the next {within}: "
                f"{share(found.accessed, found.applied)}"]
    return [
        f"applied to {counted(found.applied, 'page-aggregation')}",
        f"{found.again} of these were out already: {share(found.again, found.applied)}",
        f"{counted(found.put_out, 'page')} put out, {size(found.different)} of them different",
        f"{counted(found.refaults, 'refault')} of these: {share(found.refaults, found.put_out)}; "
        f"{found.refaults / aggregations:.1f} an aggregation",
        f"{counted(found.soon, 'refault')} within {within}: {share(found.soon, found.put_out)}",
        *([f"{counted(found.prefetches, 'page')} fetched back by willneed: {share(found.prefetches, found.put_out)}"]
          if found.prefetches else []),
        f"{counted(found.out, 'page')} out at the end; {found.out_sum / aggregations:.1f} on average through an aggregation",
    ]


def move_line(move: Move) -> str:
    stay, back, is_fetched = move
    target, start = place(stay.start)
    pages = stay.end - stay.start
    end = f"{'fetched ' if is_fetched else ''}back at tick {back.tick}" if back else "still out at the end"
    return (f"move: slot {stay.slot}, target {target}, {start:#x}-{start + pages * PAGE:#x}, {counted(pages, 'page')}, "
            f"out at tick {stay.since.tick}, {end}")


def columns_of(found: Sequence[Comparison]) -> list[str]:
    """A line for each number, with a column for each report. All reports have the same aggregations."""
    rows = [["", *headings([one.name for one in found])]]
    tables = [{**accuracy_cells(one.sums), **slot_cells(one)} for one in found]
    for name in dict.fromkeys(name for table in tables for name in table):
        rows.append([name, *(table.get(name, "-") for table in tables)])
    return aligned(rows)


def headings(paths: Sequence[str]) -> Sequence[str]:
    """The names of the files, or their paths as given where two files have the same name."""
    names = [Path(path).name for path in paths]
    return names if len(set(names)) == len(names) else paths


def accuracy_cells(found: Sums) -> dict[str, str]:
    count = found.aggregations
    return {
        "aggregations": str(count),
        "hot page-aggregations that are found": share(found.hot_found, found.hot),
        "called hot, and are not": share(found.called_hot - found.hot_found, found.called_hot),
        "cold page-aggregations that are found": share(found.cold_found, found.cold),
        "called cold, and are not": share(found.called_cold - found.cold_found, found.called_cold),
        "pages of the working set": f"{found.working_set_found / count:.1f}",
        "the same exactly": f"{found.working_set / count:.1f}",
        "error of the working set": working_set_error(found),
    }


def slot_cells(found: Comparison) -> dict[str, str]:
    cells: dict[str, str] = {}
    count = found.sums.aggregations
    for slot, action, one in found.slots():
        name = f"slot {slot} {action}: "
        cells[name + "applied to page-aggregations"] = str(one.applied)
        if isinstance(one, Use):
            cells[name + f"accessed in the next {counted(found.within, 'aggregation')}"] = share(one.accessed, one.applied)
            continue
        cells[name + "of these out already"] = share(one.again, one.applied)
        cells[name + "pages put out"] = str(one.put_out)
        cells[name + "refaults"] = str(one.refaults)
        cells[name + f"refaults within {counted(found.within, 'aggregation')}"] = str(one.soon)
        cells[name + "pages out on average"] = f"{one.out_sum / count:.1f}"
    return cells
