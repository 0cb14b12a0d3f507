#!/usr/bin/env python3
"""Finds the definitions that a claim stands on, and keeps the counts and lists of them in the documents.

    tests/definitions.py ROOT ...    prints the definitions that these roots need, and counts them
    tests/definitions.py --write     writes docs/DEFINITIONS.md, docs/generated/DEFINITIONS.md and docs/THEOREM.md again
    tests/definitions.py --check     exits with 1 where --write would change one of these pages

A ROOT is one of these:

    NAME                     a definition, written `crate/File.NAME` where several have the name
    crate::function          all clauses of an exported function, or of a method: `crate::Type::method`
    crate::function.clause   one clause of it
    all                      all clauses of all exported functions and methods

What a definition is, and what it needs, is said in `sources.py`.

Everything between `<!-- NAME -->` and `<!-- end -->` is written by this script. docs/DEFINITIONS.md has the
table `counts` of CLAIMS, the constants and types of the headline, and where definitions are tried; the page in
docs/generated has the lists of LISTS. A definition is listed once, in the first list whose roots need it. The
list `internal` has the definitions that no exported clause needs. The number of definitions behind the headline also stands in
docs/THEOREM.md and in README.md, between `<!-- headline -->` and `<!-- end -->`.
"""
import sys
from pathlib import Path
from typing import Dict, Iterable, List, NamedTuple, Set

sys.path.insert(0, str(Path(__file__).resolve().parent.parent / "tools"))

from blocks import with_block, with_blocks
from sources import TOP, Definition, Repository
from unfollowed import unfollowed

PAGE = TOP / "docs/DEFINITIONS.md"
LISTED = TOP / "docs/generated/DEFINITIONS.md"
THEOREM = TOP / "docs/THEOREM.md"
README = TOP / "README.md"
MACHINE = ["Bound", "ServesBest", "opening", "damon_core/After.after", "damon_core/Event.Fits"]
OK = ["damon_app::replay_main.ok"]
HEADLINE = [*OK, "damon_app::replay_main.bound", "damon_app::replay_main.choices"]


class Claim(NamedTuple):
    """A claim in words, its roots, and the roots of claims that are believed already."""

    words: str
    roots: List[str]
    believed: List[str] = []


WHOLE = Claim(
    "**the headline as one claim: the clauses `ok`, `bound` and `choices` of `replay_main`**",
    HEADLINE,
)
CLAIMS = [
    WHOLE,
    Claim("the headline, for events: `Bound` and `ServesBest` of each state that they lead to", MACHINE),
    Claim("the headline, for a script: `IsBoundAlong` and `ChoosesBestAlong`", ["IsBoundAlong", "ChoosesBestAlong"]),
    Claim("which texts are scripts: `IsText`", ["IsText"]),
    Claim("which texts are live scripts: `IsLiveText`", ["IsLiveText"]),
    Claim("clause `ok` of `replay_main`: what was read, and what was written", OK),
    Claim("all clauses of `replay_main`", ["damon_app::replay_main"]),
    Claim("a journal of a live run: `IsWholeRun`", ["IsWholeRun"]),
    Claim("the same, where the machine is believed already", ["IsWholeRun"], [*MACHINE, "LiveValue"]),
    Claim("all clauses of `live_main`", ["damon_live::live_main"]),
    Claim("every clause of every exported function", ["all"]),
]
LISTS = {"headline": MACHINE, "program": ["damon_app::replay_main", "IsBoundAlong", "IsText"], "crates": ["all"]}


def counts(repository: Repository) -> List[str]:
    rows = ["| claim | definitions | lines | constants | types |", "|---|---|---|---|---|"]
    for claim in CLAIMS:
        believed = repository.needed(claim.believed) if claim.believed else []
        needed = [it for it in repository.needed(claim.roots) if it not in believed]
        cited, types = repository.constants(claim.roots), repository.types(claim.roots)
        rows.append(f"| {claim.words} | {len(needed)} | {line_count(needed)} | {len(cited)} | {len(types)} |")
    return rows


def line_count(definitions: Iterable[Definition]) -> int:
    return sum(len(it.lines) for it in definitions)


def constants(repository: Repository) -> List[str]:
    """The constants that the headline cites, each with its value as the code writes it."""
    rows = ["| crate | file | constant | value |", "|---|---|---|---|"]
    for it in repository.constants(WHOLE.roots):
        rows.append(f"| `{it.crate}` | {it.module.replace('.', '/')}.rt | `{it.name}` | `{it.value}` |")
    return rows


def types(repository: Repository) -> List[str]:
    """The types of the code that the headline cites, crate by crate."""
    rows = ["| crate | types |", "|---|---|"]
    cited = repository.types(WHOLE.roots)
    for crate in dict.fromkeys(it.crate for it in cited):
        rows.append(f"| `{crate}` | {', '.join(f'`{it.name}`' for it in cited if it.crate == crate)} |")
    return rows


def tried(repository: Repository) -> List[str]:
    """Where the definitions of each crate are tried on worked values: its examples."""
    rows = ["| crate | examples |", "|---|---|"]
    for crate in dict.fromkeys(it.crate for it in repository.definitions):
        folder = repository.top / "crates" / crate
        examples = [f"`proofs/{file.name}`" for file in sorted((folder / "proofs").glob("*Examples.antt"))]
        rows.append(f"| `{crate}` | {', '.join(examples) or '-'} |")
    return rows


def table(definitions: Iterable[Definition]) -> List[str]:
    """A table for each crate, in which a file is named at its first definition."""
    rows: List[str] = []
    crate, file = "", ""
    for it in definitions:
        if it.crate != crate:
            rows += ["", f"### `{it.crate}`", "", "| file | definition | in words |", "|---|---|---|"]
        shown = "" if (it.crate, it.file) == (crate, file) else it.file
        rows.append(f"| {shown} | `{it.name}` | {it.words.replace('|', chr(92) + '|')} |")
        crate, file = it.crate, it.file
    return rows[1:]


def internal(definitions: Iterable[Definition]) -> List[str]:
    """For each crate the names of its definitions that no exported clause needs."""
    by_crate: Dict[str, List[str]] = {}
    for it in definitions:
        by_crate.setdefault(it.crate, []).append(f"`{it.name}`")
    return [f"- `{crate}` ({len(names)}): {', '.join(names)}" for crate, names in by_crate.items()]


def written(page: str, repository: Repository) -> str:
    """The page of definitions with its tables written again."""
    blocks = {
        "counts": counts(repository), "constants": constants(repository), "types": types(repository), "tried": tried(repository),
    }
    return with_blocks(page, blocks)


def lists_written(page: str, repository: Repository) -> str:
    """The page of lists with these written again."""
    blocks: Dict[str, List[str]] = {}
    listed: Set[Definition] = set()
    for name, roots in LISTS.items():
        fresh = [it for it in repository.needed(roots) if it not in listed]
        listed.update(fresh)
        blocks[name] = table(fresh)
    blocks["internal"] = internal([it for it in repository.definitions if it not in listed])
    return with_blocks(page, blocks)


def theorem_written(page: str, repository: Repository) -> str:
    """The page of the theorem, or README, with the size of the headline written again."""
    needed = repository.needed(WHOLE.roots)
    files = {(it.crate, it.file) for it in needed}
    types_cited = repository.types(WHOLE.roots)
    size = (f"**{len(needed)} definitions in {line_count(needed):,} lines, in {len(files)} files**, with "
            f"{len(repository.constants(WHOLE.roots))} constants and {len(types_cited)} types of the code\n")
    return with_block(page, "headline", size)


def main(words: List[str]) -> None:
    if not words:
        sys.exit(__doc__)
    repository = Repository()
    silent = [it.path() for it in repository.definitions if not it.words]
    if silent:
        sys.exit("these have no comment above them: " + ", ".join(silent))
    strange = unfollowed(repository)
    if strange:
        sys.exit("these words name a definition and are not followed to it: " + ", ".join(strange))
    if words[0] in ("--write", "--check"):
        for file, write in ((PAGE, written), (LISTED, lists_written), (THEOREM, theorem_written), (README, theorem_written)):
            old = file.read_text()
            new = write(old, repository)
            if words[0] == "--write":
                file.write_text(new)
            elif new != old:
                sys.exit(f"{file.relative_to(TOP)} is stale: run tests/definitions.py --write")
        return
    needed = repository.needed(words)
    print(*(f"{it.path()}: {it.words}" for it in needed), sep="\n")
    print(f"{len(needed)} definitions, {line_count(needed)} lines")
    cited = {"constants": [it.name for it in repository.constants(words)], "types": [it.name for it in repository.types(words)]}
    for kind, names in cited.items():
        print(f"{len(names)} {kind} of the code: " + (", ".join(names) or "none"))


if __name__ == "__main__":
    main(sys.argv[1:])
