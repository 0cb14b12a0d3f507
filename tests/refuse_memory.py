#!/usr/bin/env python3
"""Runs the built programs with one allocation refused, for each allocation in turn.

    tests/refuse_memory.py [--most N] [--only WORD]

Each run is a command over an input: the examples, the worked cases, journals and live scripts. It is run once as it
is, which counts its allocations, and then once for each of them with that one refused (for N of them, picked at random
with a fixed seed, where it has more than N; the default is 400). The refusal is made by `refuse_memory.c`, which is
compiled by `cc` and loaded before the C library.

Each status must be Ok or Memory. On Memory the line on standard error is that of it, and what was written is a prefix
of what the run writes as it is; on Ok all of it was written. Two runs of `damond run` may write two journals: there a
journal that was written whole must be accepted by `damon verify`, and one that was not is a text of whole lines.

A line is printed for each run, with its allocations and how its refusals ended. The last line counts refusals that
ended well and those that did not.
"""
import argparse
import json
import lzma
import os
import random
import subprocess
import sys
import tempfile
from concurrent.futures import ThreadPoolExecutor
from pathlib import Path
from typing import Dict, Iterator, List, NamedTuple, Optional, Sequence

from tool_runs import BUILT, TOP

DAMON, DAMOND = BUILT["damon"], BUILT["damond"]

OK, MEMORY = 0, 7
MEMORY_LINE = b"out of memory\n"
SECONDS = 60


class Run(NamedTuple):
    name: str
    program: Path
    words: List[str]
    text: bytes


class Ended(NamedTuple):
    status: int
    stdout: bytes
    stderr: bytes


class Refuser:
    """Runs programs with the library that refuses."""

    def __init__(self, folder: Path) -> None:
        self.folder = folder
        self.library = folder / "refuse_memory.so"
        source = TOP / "tests/refuse_memory.c"
        subprocess.run(["cc", "-O2", "-shared", "-fPIC", "-o", str(self.library), str(source)], check=True)

    def end(self, run: Run, at: int, count: Optional[Path] = None) -> Ended:
        given: Dict[str, str] = {**os.environ, "LD_PRELOAD": str(self.library), "REFUSE_AT": str(at)}
        if count:
            given["REFUSE_COUNT"] = str(count)
        done = subprocess.run([str(run.program), *run.words], input=run.text, capture_output=True, timeout=SECONDS, env=given)
        return Ended(done.returncode, done.stdout, done.stderr)

    def count(self, run: Run) -> int:
        """How many allocations a run makes."""
        place = self.folder / "count.txt"
        place.unlink(missing_ok=True)
        self.end(run, 0, place)
        return int(place.read_text())


def main() -> int:
    parser = argparse.ArgumentParser(description="Runs the built programs with each allocation refused in turn.")
    parser.add_argument("--most", type=int, default=400)
    parser.add_argument("--only", default="")
    wanted = parser.parse_args()
    passed = failed = 0
    with tempfile.TemporaryDirectory() as folder, ThreadPoolExecutor(os.cpu_count()) as pool:
        refuser = Refuser(Path(folder))
        for run in (it for it in runs() if wanted.only in it.name):
            whole = refuser.end(run, 0)
            count = refuser.count(run)
            numbers: Sequence[int] = range(1, count + 1)
            if count > wanted.most:
                numbers = sorted(random.Random(1).sample(numbers, wanted.most))
            ends = list(pool.map(lambda at: refuser.end(run, at), numbers))
            faults = [f"  allocation {at}: {fault}" for at, end in zip(numbers, ends) if (fault := fault_of(run, whole, end))]
            memory = sum(end.status == MEMORY for end in ends)
            print(f"{run.name}: {count} allocations; of {len(ends)} refused, {memory} ended with Memory and {len(ends) - memory} with Ok")
            print(*faults, sep="\n", end="\n" if faults else "")
            passed, failed = passed + len(ends) - len(faults), failed + len(faults)
    print(f"{passed} passed, {failed} failed")
    return 1 if failed or not passed else 0


def runs() -> Iterator[Run]:
    for file in sorted((TOP / "examples").glob("*.damon")):
        text = file.read_bytes()
        if text.startswith(b"damon live"):
            yield Run(f"damond run < {file.name}", DAMOND, ["run"], text)
        else:
            for words in (["replay"], ["json"], ["reclaim"], ["tune", "0:cold:500:4096:81920"]):
                yield Run(f"damon {' '.join(words)} < {file.name}", DAMON, words, text)
    for file in sorted((TOP / "examples").glob("*.admin")):
        yield Run(f"damon admin < {file.name}", DAMON, ["admin"], file.read_bytes())
    for file in sorted((TOP / "examples").glob("*.journal")):
        yield Run(f"damon verify < {file.name}", DAMON, ["verify"], file.read_bytes())
    for file in sorted((TOP / "examples").glob("*.journal.xz")):
        yield Run(f"damon heat 64 < {file.stem}", DAMON, ["heat", "64"], lzma.decompress(file.read_bytes()))
    for line in (TOP / "tests/cases/worked.jsonl").read_text().splitlines():
        case = json.loads(line)
        yield Run(f"damon {' '.join(case['words'])} < case {case['name']}", DAMON, case["words"], case["input"].encode("latin-1"))
    yield Run("damon gen 6", DAMON, ["gen", "6"], b"")


def fault_of(run: Run, whole: Ended, end: Ended) -> Optional[str]:
    """What is wrong with how a run ended of which one allocation was refused."""
    if end.status not in (OK, MEMORY):
        return f"status {end.status}, {end.stderr!r}"
    if end.stderr != (MEMORY_LINE if end.status == MEMORY else b""):
        return f"status {end.status}, but {end.stderr!r} on standard error"
    if run.program == DAMOND:
        return journal_fault(end)
    if end.status == OK and end.stdout != whole.stdout:
        return "Ok, but not all was written"
    return None if whole.stdout.startswith(end.stdout) else "what was written is no prefix"


def journal_fault(end: Ended) -> Optional[str]:
    if end.status == OK and subprocess.run([str(DAMON), "verify"], input=end.stdout, capture_output=True, timeout=SECONDS).returncode != OK:
        return "Ok, but the journal is not lawful"
    return None if end.stdout.endswith(b"\n") or not end.stdout else "the last line was cut"


if __name__ == "__main__":
    sys.exit(main())
