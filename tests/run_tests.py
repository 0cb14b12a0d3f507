#!/usr/bin/env python3
"""Runs all tests of this folder, and writes to a file what was skipped and why: a gate that skips much looks green.

    tests/run_tests.py FILE

Each file of tests has a process of its own, and as many of them run at once as there are processors. The status is 0 if no
test failed.
"""
from __future__ import annotations

import io
import multiprocessing
import sys
import unittest
from collections import Counter
from concurrent.futures import ProcessPoolExecutor, as_completed
from pathlib import Path
from typing import Iterable, NamedTuple

FOLDER = Path(__file__).resolve().parent
LONGEST = ("test_tools.py", "test_search.py")
"""They begin first, so that none of them runs on alone at the end."""


class Tested(NamedTuple):
    """What came of a file of tests."""

    text: str
    """What unittest says of it."""
    is_well: bool
    skipped: list[tuple[str, str]]
    """The tests that were skipped, and why."""


def tested(name: str) -> Tested:
    """Runs the tests of a file."""
    sys.path.insert(0, str(FOLDER))
    said = io.StringIO()
    result = unittest.TextTestRunner(said).run(unittest.defaultTestLoader.discover(str(FOLDER), name))
    return Tested(said.getvalue(), result.wasSuccessful(), [(test.id(), reason) for test, reason in result.skipped])


def skipped_lines(skipped: Iterable[tuple[str, str]]) -> list[str]:
    """What was skipped, by reason, with the tests."""
    tests: dict[str, list[str]] = {}
    for test, reason in skipped:
        tests.setdefault(reason, []).append(test)
    return [f"skipped: {reason}: {', '.join(f'{name} ({count})' if count > 1 else name for name, count in Counter(names).items())}"
            for reason, names in tests.items()]


def main(path: str) -> int:
    # A process that was forked could have a lock of another thread, and one that is used again what a file of tests left there.
    with ProcessPoolExecutor(mp_context=multiprocessing.get_context("spawn"), max_tasks_per_child=1) as pool:
        names = sorted((file.name for file in FOLDER.glob("test_*.py")), key=lambda name: (name not in LONGEST, name))
        began = {pool.submit(tested, name): name for name in names}
        results = []
        for one in as_completed(began):
            results.append(one.result())
            print(f"{began[one]}\n{results[-1].text}", file=sys.stderr, flush=True)
    failed = sum(not result.is_well for result in results)
    lines = skipped_lines(sorted(pair for result in results for pair in result.skipped)) or ["no test was skipped"]
    Path(path).write_text("".join(f"{line}\n" for line in lines))
    print(f"{len(results) - failed} files of tests passed, {failed} failed", file=sys.stderr)
    return 1 if failed else 0


if __name__ == "__main__":
    sys.exit(main(*sys.argv[1:]))
