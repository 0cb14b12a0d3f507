#!/usr/bin/env python3
"""Prints which functions of a crate take longest to prove.

    tests/dear_functions.py FOLDER [MOST]

FOLDER is where a check with one job has kept what it proved (`--incremental`), from nothing and to its end: a module for each part
of a function's proof. A module was written when it was checked, so the time from the module before it is its own.
At most MOST functions are printed (20 if not said), each with its seconds and how many of them the borrow checker's part (`Lts`)
took. What loading and the front end take is before the first module, and not counted.
"""
import sys
from collections import defaultdict
from itertools import pairwise
from pathlib import Path
from typing import Dict, Iterable, Iterator, List, NamedTuple

ENDING = ".oantt"
BORROWS = "Lts"
MOST = 20


class Module(NamedTuple):
    """What was checked, and when."""

    name: str
    at: float


class Cost(NamedTuple):
    """The seconds of a function, and those of them that its borrows took."""

    all: float = 0
    borrows: float = 0


def modules_in(folder: Path) -> List[Module]:
    """The modules of a folder, in the order in which they were written."""
    found = [Module(it.name.removesuffix(ENDING), it.stat().st_mtime) for it in folder.rglob(f"*{ENDING}")]
    return sorted(found, key=lambda it: it.at)


def costs_of(modules: Iterable[Module]) -> Dict[str, Cost]:
    """The cost of each function: all but the last word of its modules' names is the function's."""
    costs: Dict[str, Cost] = defaultdict(Cost)
    for before, module in pairwise(modules):
        function, _, part = module.name.rpartition(".")
        seconds = module.at - before.at
        cost = costs[function]
        costs[function] = Cost(cost.all + seconds, cost.borrows + (seconds if part.startswith(BORROWS) else 0))
    return costs


def lines_of(costs: Dict[str, Cost], most: int) -> Iterator[str]:
    total = sum(cost.all for cost in costs.values())
    yield f"{total:8.1f} {sum(cost.borrows for cost in costs.values()):8.1f}  all (seconds, and those of borrows)"
    for function, cost in sorted(costs.items(), key=lambda it: -it[1].all)[:most]:
        yield f"{cost.all:8.1f} {cost.borrows:8.1f}  {function}"


def main(folder: str, most: str = str(MOST)) -> int:
    modules = modules_in(Path(folder))
    if not modules:
        print(f"{folder} has no module that was checked", file=sys.stderr)
        return 1
    print(*lines_of(costs_of(modules), int(most)), sep="\n")
    return 0


if __name__ == "__main__":
    if not 2 <= len(sys.argv) <= 3:
        sys.exit(__doc__)
    sys.exit(main(*sys.argv[1:]))
