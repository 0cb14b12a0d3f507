#!/usr/bin/env python3
"""Proves one function, or a whole crate, before the crates below it are proved and built. It is a quick look, not a verdict.

    tests/check_over_sources.py CRATE [--only FUNCTION ..] [FLAG ..]

For example `tests/check_over_sources.py aggregator --only threshold`. The crates below are read from their sources. With --only the
prover looks at these functions, and at what they reach, in lower crates too: half a minute here, where `rt check` would first prove
every crate below. A crate below whose library `build.py` built of these sources is taken as it is built, unless --from-sources asks for sources.
Other flags go to the prover, such as --test, --allow-holes, --fix-imports, or --start FUNCTION with --generated FOLDER.

What was checked is kept in a folder for each checkout, below that for temporary files, so builds of the checkout are not disturbed.
The exit status is the prover's.
"""
import argparse
import hashlib
import shutil
import subprocess
import sys
import tempfile
import time
from pathlib import Path
from typing import List, NamedTuple

sys.path.insert(0, str(Path(__file__).resolve().parent.parent))

from building.crates import CRATES, TOP, Crate, Crates, below, crates_for, fresh  # noqa: E402


class Asked(NamedTuple):
    """What the words of the command line ask for."""

    crate: str
    from_sources: bool
    jobs: int
    flags: List[str]


def asked_for(words: List[str]) -> Asked:
    parser = argparse.ArgumentParser(description=__doc__, formatter_class=argparse.RawDescriptionHelpFormatter, allow_abbrev=False)
    parser.add_argument("crate", metavar="CRATE")
    parser.add_argument("--only", metavar="FUNCTION", action="append", default=[], help="a function to prove; may be given more than once")
    parser.add_argument("--from-sources", action="store_true", help="read every crate below from its sources")
    parser.add_argument("--jobs", type=int, default=1, help="how many processes prove (1 if not said)")
    known, others = parser.parse_known_args(words)
    only = [word for function in known.only for word in ("--only", function)]
    return Asked(known.crate, known.from_sources, known.jobs, [*only, *others])


def libraries(crates: Crates) -> List[str]:
    """The toolchain's libraries that these crates use."""
    return sorted({"core", "std", *(it for crate in crates.values() for it in used_by(crate) if it not in crates)})


def used_by(crate: Crate) -> List[str]:
    return crate.line.partition(":")[2].split()


def command(asked: Asked, crates: Crates, kit: Path, kept: Path) -> List[str]:
    """The call of the prover: each crate below as a library or as sources, held to its line of `crates.txt`."""
    words = [str(kit / "bin/rattle"), "check", "--crate-name", asked.crate, "src/lib.rt"]
    for name in libraries(crates):
        words += ["--extern", f"{name}={kit}/rlibs/{name}.rlib"]
    words += ["-L", f"dependency={kit}/rlibs"]
    built = [] if asked.from_sources else fresh(crates)
    for name in below(asked.crate, crates):
        folder = CRATES / name
        if name in built:
            words += ["--extern", f"{name}={folder}/out/rlib/{name}.rlib"]
        else:
            words += ["--lib", f"{name}:{','.join(['core', 'std', *used_by(crates[name])])}={folder}/src/lib.rt"]
    words += ["--antt-project", str(kit / "rattle/logic/antt-project.json"), "--logic-built", str(kit / "logic_built")]
    return [*words, "--jobs", str(asked.jobs), "--incremental", str(kept), *asked.flags]


def kept_folder(crate: str) -> Path:
    """Where a checkout's checks of a crate are kept: checkouts of one name have a folder each."""
    checkout = hashlib.sha256(str(TOP).encode()).hexdigest()[:12]
    return Path(tempfile.gettempdir()) / "check_over_sources" / checkout / crate


def main(words: List[str]) -> int:
    asked = asked_for(words)
    crates = crates_for(asked.crate)
    if not crates:
        sys.exit(f"check_over_sources.py: crates.txt has no crate {asked.crate}")
    prover = shutil.which("rt")
    if not prover:
        sys.exit("check_over_sources.py: there is no rt, which is found beside the prover")
    kept = kept_folder(asked.crate)
    kept.mkdir(parents=True, exist_ok=True)
    begun = time.monotonic()
    call = command(asked, crates, Path(prover).resolve().parent.parent, kept)
    status = subprocess.run(call, cwd=CRATES / asked.crate).returncode
    print(f"{asked.crate}: {time.monotonic() - begun:.0f} s, status {status}, {len(crates) - 1} crates below")
    return status


if __name__ == "__main__":
    sys.exit(main(sys.argv[1:]))
