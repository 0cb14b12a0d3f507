"""The crates of a program: what each uses, and what its proof is expected to take."""
from pathlib import Path
from typing import Dict, List, NamedTuple

from . import costs, freshness
from .costs import Cost

TOP = Path(__file__).resolve().parent.parent
CRATES = TOP / "crates"
# Another process takes about as much memory as the first one.
PART_OF_A_JOB = 1.0


class Crate(NamedTuple):
    """A crate: its line of `crates.txt`, the crates of the repository that it uses, the cost of its proof, and its lines."""

    name: str
    line: str
    uses: List[str]
    cost: Cost
    lines: int

    def memory(self, jobs: int) -> float:
        """The bytes that its proof may take with this number of processes."""
        return self.cost.memory * (1 + PART_OF_A_JOB * (jobs - 1))

    def worth(self, jobs: int) -> int:
        """How many processes its proof is worth, at most this number."""
        return costs.worth(self.cost.seconds, self.lines, jobs)


# By name, each crate after those that it uses.
Crates = Dict[str, Crate]


def crates_for(program: str) -> Crates:
    """The crates that a program uses, each after those that it uses itself, and the program at the end."""
    lines = [line.partition("#")[0] for line in (TOP / "crates.txt").read_text().splitlines()]
    listed = {line.split(":")[0].split()[0]: line for line in lines if line.strip()}
    known = costs.measured()
    code: Dict[str, int] = {}
    found: Crates = {}

    def add(name: str) -> None:
        if name in listed and name not in found:
            uses = [used for used in listed[name].partition(":")[2].split() if used in listed]
            for used in uses:
                add(used)
            code[name] = lines_in(name, ".rt")
            under = sum(code[it] for it in below(name, {**found, name: Crate(name, "", uses, Cost(0, 0), 0)}))
            proofs = lines_in(name, ".antt")
            cost = known.get(name) or costs.estimated(costs.Lines(code[name], proofs, under))
            found[name] = Crate(name, listed[name], uses, cost, code[name] + proofs)

    add(program)
    return found


def lines_in(name: str, ending: str) -> int:
    files = (file for part in freshness.SOURCES for file in (CRATES / name / part).rglob("*" + ending))
    return sum(file.read_bytes().count(b"\n") for file in files)


def below(name: str, crates: Crates) -> List[str]:
    """All crates that one uses, directly or through others."""
    found: List[str] = []
    for used in crates[name].uses:
        found += [it for it in [*below(used, crates), used] if it not in found]
    return found


def chains(crates: Crates) -> Dict[str, float]:
    """For each crate the seconds of the longest chain of crates that begins with it and goes up."""
    lengths = {name: crate.cost.seconds for name, crate in crates.items()}
    for name in reversed(list(crates)):
        for used in crates[name].uses:
            lengths[used] = max(lengths[used], crates[used].cost.seconds + lengths[name])
    return lengths


def sum_of(name: str, crates: Crates) -> str:
    """A checksum of all that a crate is built of: its own sources and those of the crates below it."""
    names = [*below(name, crates), name]
    return freshness.sum_of(CRATES, names, [crates[it].line for it in names])


def note_of(name: str) -> Path:
    """Where the checksum of the sources stands that a crate was built of."""
    return CRATES / name / "out/sources"


def fresh(crates: Crates) -> List[str]:
    """The crates whose libraries were built of the sources that are there."""
    return [
        name for name in crates
        if (CRATES / name / "out/rlib/stamp").exists() and freshness.is_of(note_of(name), sum_of(name, crates))
    ]
