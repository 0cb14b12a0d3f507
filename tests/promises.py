#!/usr/bin/env python3
"""Checks that docs/PROMISES.md names only contracts that the source has, and keeps the list of all of them.

    tests/promises.py            exits with 1 where the page names what is not there, or the list is stale
    tests/promises.py --write    writes the list, docs/generated/FUNCTIONS.md, again

The list has each exported function, method and law of each crate, with the names of its clauses and the comment above
it. What has no comment says so: its trait's method, or another of its name, has one.

The heads of the page's tables say what is in them:

    | clause | ..             a clause in each line, of the top call that the section's title names; the table has all of them
    | law | ..                an exported function, with its crate
    | crate | .. | contract | exported functions and methods of the crate that the line names, and in brackets the names
                              of clauses that at least one of them has. A definition may be named in place of a function.
                              Each crate that exports a function has one line, in the order of the list
"""
import re
import sys
from typing import Iterator, List

from sources import TOP, Repository

PAGE = TOP / "docs/PROMISES.md"
LIST = TOP / "docs/generated/FUNCTIONS.md"
TOP_CALLS = ("damon_app::replay_main", "damon_live::live_main")
NAME = re.compile(r"`([^`]*)`")
# The head of a table of crates, and its lines.
CRATES = re.compile(r"^\| crate \|.*\n\|[-|]+\n((?:\| `.*\n)*)", re.M)
# Functions, and the bracket with clauses that may follow them.
GROUP = re.compile(r"((?:[^`(]*`[^`]*`)+)\s*(?:\(([^)]*)\))?")
# How a comment links a name.
LINKED = re.compile(r"\[(`[^`\]]+`)\]")
HEAD = """# Exported functions, methods and laws

`tests/promises.py --write` writes this page from the sources: each exported function, method and law of each crate, with the
names of its clauses and the comment above it. [`PROMISES.md`](../PROMISES.md) has what leads.
"""


def main(words: List[str]) -> int:
    repository = Repository()
    if words == ["--write"]:
        LIST.write_text(listed(repository))
        return 0
    if words:
        sys.exit(__doc__)
    faults = [f"{PAGE.relative_to(TOP)}: {fault}" for fault in faults_of(PAGE.read_text(), repository)]
    if LIST.read_text() != listed(repository):
        faults.append(f"{LIST.relative_to(TOP)} is stale: run tests/promises.py --write")
    print(*faults, sep="\n", end="\n" if faults else "")
    return 1 if faults else 0


def faults_of(page: str, repository: Repository) -> List[str]:
    """What a page names that is not there, and the clauses of top calls that it lacks."""
    known = {*repository.functions, *repository.clauses, *(it.name for it in repository.definitions)}
    named = list(names_in(page))
    faults = [f"there is no {names[0]}" for names in named if not known & set(names)]
    given = {name for names in named for name in names}
    there = {name for name in repository.clauses if name.startswith(tuple(call + "." for call in TOP_CALLS))}
    faults += [f"{name} is missing" for name in sorted(there - given)]
    shown = [NAME.findall(line)[0] for lines in CRATES.findall(page) for line in lines.splitlines()]
    if shown != exporting(repository):
        faults.append("its table of crates has not one line for each crate, in their order")
    if not there or len(named) < len(there):
        faults.append("too few names were found in its tables")
    return faults


def exporting(repository: Repository) -> List[str]:
    """The crates that export a function, in their order."""
    there = {name.partition("::")[0] for name in repository.functions}
    return [crate for crate in repository.crates if crate in there]


def names_in(page: str) -> Iterator[List[str]]:
    """Gives the names of each contract, of which at least one must be there."""
    call, head = "", ""
    for line in page.splitlines():
        cells = [cell.strip() for cell in line.strip("|").split("|")]
        if line.startswith("#"):
            call = next(iter(NAME.findall(line)), "")
        if not line.startswith("|"):
            head = ""
        elif not head:
            head = cells[0]
        elif head == "clause":
            yield from ([f"{call}.{name}"] for name in NAME.findall(cells[0]))
        elif head == "law":
            yield from ([name] for name in NAME.findall(cells[0]))
        elif head == "crate" and NAME.findall(cells[0]):
            yield from names_in_cell(NAME.findall(cells[0])[0], cells[-1])


def names_in_cell(crate: str, cell: str) -> Iterator[List[str]]:
    for before, bracket in GROUP.findall(cell):
        names = NAME.findall(before)
        yield from ([f"{crate}::{name}", name] for name in names)
        for clause in NAME.findall(bracket):
            yield [f"{crate}::{name}.{clause}" for name in names]


def listed(repository: Repository) -> str:
    """The page of all exported functions."""
    lines = [HEAD]
    for crate in exporting(repository):
        lines += [f"## `{crate}`", "", "| function | clauses | in words |", "|---|---|---|"]
        lines += [row(name, repository) for name in repository.functions if name.startswith(f"{crate}::")]
        lines.append("")
    return "\n".join(lines)


def row(name: str, repository: Repository) -> str:
    clauses = [clause.rpartition(".")[2] for clause in repository.clauses if clause.rpartition(".")[0] == name]
    shown = ", ".join("one without a name" if clause == "the clause" else f"`{clause}`" for clause in clauses)
    words = LINKED.sub(r"\1", repository.functions[name].words).replace("|", "\\|")
    return f"| `{name.partition('::')[2]}` | {shown or '-'} | {words or 'no comment of its own'} |"


if __name__ == "__main__":
    sys.exit(main(sys.argv[1:]))
