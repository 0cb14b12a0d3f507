#!/usr/bin/env python3
"""Compares the built programs with other programs on hostile inputs, which are made from valid ones.

    tests/hostile.py [OTHER_DAMON [OTHER_DAMOND]] [--count N] [--seed N] [--only COMMAND] [--keep FOLDER]

OTHER_DAMON and OTHER_DAMOND are programs with the same formats. Without them they are those of the baseline, the plain programs
of the same rules, which are built by

    (cd baseline && cargo build --release)

The built programs are those of this checkout, or those that DAMON and DAMOND in the environment name. Each input is a
valid or a rejected text with one to four edits: of bytes, of words, of lines, or one that is aimed at a rule of the
formats (`hostile_edits.py`). It is given to both programs, with `replay`, `json`, `reclaim`, `tune` and two goals,
`admin`, `verify`, `heat 16` or `run`. Both must write
the same bytes to standard output and to standard error and end with the same status. Two runs of `damond run` in threads may
write two journals; there both programs must end alike, and each must accept the journal of either by its `verify`.

Nothing is compared with an answer that was stored. What differs is printed, and its input is written to FOLDER. The
last line counts the inputs that were the same and those that differ.
"""
import argparse
import json
import os
import random
import subprocess
import sys
import zlib
from concurrent.futures import ThreadPoolExecutor
from itertools import zip_longest
from pathlib import Path
from typing import Dict, List, NamedTuple, Optional

from hostile_edits import edited
from tool_runs import DAMOND, PROGRAM, TOP

NAMES = ("damon", "damond")
BASELINE = {name: TOP / f"baseline/target/release/{name}" for name in NAMES}
HOW_BUILT = "(cd baseline && cargo build --release) builds the baseline"
COMMANDS = ("replay", "json", "reclaim", "tune", "admin", "verify", "heat", "run")
# The words after a command.
WORDS = {"heat": ("16",), "tune": ("0:metric:100:4096:81920", "1:cold:700:0:40960")}
# A longer text is left out: most of its edits are far from the places where rules meet.
MOST_BYTES = 20_000
SECONDS = 60


class Ended(NamedTuple):
    status: int
    stdout: bytes
    stderr: bytes


class Input(NamedTuple):
    number: int
    command: str
    text: bytes


class Programs(NamedTuple):
    damon: Path
    damond: Optional[Path]

    def end(self, command: str, text: bytes) -> Ended:
        program = self.damond if command == "run" else self.damon
        done = subprocess.run([str(program), command, *WORDS.get(command, ())], input=text, capture_output=True, timeout=SECONDS)
        return Ended(done.returncode, done.stdout, done.stderr)


def main() -> int:
    wanted = parse_words()
    ours = Programs(PROGRAM, DAMOND)
    other = other_programs(wanted.other_damon, wanted.other_damond)
    seeds = load_seeds(with_live=other.damond is not None)
    commands = [it for it in ([wanted.only] if wanted.only else COMMANDS) if seeds.get(it)]
    inputs = make_inputs(seeds, commands, wanted.count, wanted.seed)
    failed = 0
    with ThreadPoolExecutor(os.cpu_count()) as pool:
        for given, fault in zip(inputs, pool.map(lambda it: difference(ours, other, it), inputs)):
            if fault:
                failed += 1
                print(f"input {given.number}, {given.command}: {fault}")
                if wanted.keep:
                    wanted.keep.mkdir(parents=True, exist_ok=True)
                    (wanted.keep / f"{given.number}.{given.command}").write_bytes(given.text)
    print(f"{len(inputs) - failed} passed, {failed} failed")
    return 1 if failed or not inputs else 0


def other_programs(damon: Optional[Path], damond: Optional[Path]) -> Programs:
    """The programs that are named, or those of the baseline."""
    named = Programs(damon, damond) if damon else Programs(BASELINE["damon"], BASELINE["damond"])
    for program in named:
        if program and not program.is_file():
            sys.exit(f"tests/hostile.py: there is no {program}: {HOW_BUILT}")
    return Programs(named.damon.resolve(), named.damond.resolve() if named.damond else None)


def parse_words() -> argparse.Namespace:
    parser = argparse.ArgumentParser(description=__doc__, formatter_class=argparse.RawDescriptionHelpFormatter)
    parser.add_argument("other_damon", type=Path, nargs="?", metavar="OTHER_DAMON")
    parser.add_argument("other_damond", type=Path, nargs="?", metavar="OTHER_DAMOND")
    parser.add_argument("--count", type=int, default=4_000)
    parser.add_argument("--seed", type=int, default=1)
    parser.add_argument("--only", choices=COMMANDS)
    parser.add_argument("--keep", type=Path)
    return parser.parse_args()


# The texts from which inputs are made.


def load_seeds(with_live: bool) -> Dict[str, List[bytes]]:
    """The short texts among cases and examples, by the command that reads them."""
    seeds: Dict[str, List[bytes]] = {command: [] for command in COMMANDS}
    for file in sorted((TOP / "tests/cases").glob("*.jsonl")):
        for line in file.read_text().splitlines():
            case = json.loads(line)
            command = case["words"][0] if case["words"] else ""
            is_asked = len(case["words"]) == 1 + len(WORDS.get(command, ()))
            if is_asked and isinstance(case.get("input"), str) and len(case["input"]) <= MOST_BYTES:
                seeds.get(command, []).append(case["input"].encode("latin-1"))
    for file in sorted((TOP / "examples").glob("*.damon")):
        text = file.read_bytes()
        if len(text) <= MOST_BYTES:
            seeds["run" if text.startswith(b"damon live") else "replay"].append(text)
    for command in ("json", "reclaim", "tune"):
        seeds[command] = seeds[command] + seeds["replay"]
    seeds["heat"] = seeds["heat"] + seeds["verify"]
    seeds["admin"] = seeds["admin"] + beside_each_other(seeds["replay"])
    seeds["run"] = [it for it in seeds["run"] + live_scripts(seeds["replay"]) if with_live]
    return seeds


def beside_each_other(scripts: List[bytes]) -> List[bytes]:
    """Inputs of two contexts: each script beside the next one, a line of each by turns."""
    made = []
    for one, other in zip(scripts, scripts[1:]):
        pairs = zip_longest(one.splitlines(), other.splitlines())
        lines = [b"%d %s" % (context, line) for pair in pairs for context, line in enumerate(pair) if line is not None]
        made.append(b"\n".join([b"damon admin 1", *lines, b""]))
    return [text for text in made if len(text) <= MOST_BYTES]


def live_scripts(scripts: List[bytes]) -> List[bytes]:
    """Live scripts with the setups of scripts, their touches as a worker, and their commits as a controller."""
    made = []
    for script in scripts:
        head, opens, body = script.partition(b"begin\n")
        if opens and head.startswith(b"damon script ") and body.endswith(b"end\n"):
            lines = body.splitlines(keepends=True)[:-1]
            touches = b"".join(it for it in lines if it.startswith((b"touch ", b"sweep ")))
            calls = b"".join(calls_of(lines))
            made.append(head.replace(b"damon script ", b"damon live ", 1) + b"passes 3\nworker\n" + touches + b"controller\n" + calls + b"end\n")
    return made


def calls_of(lines: List[bytes]) -> List[bytes]:
    """The shows and the whole commits among the lines of a script's body."""
    calls: List[bytes] = []
    within = False
    for line in lines:
        within = within or line == b"commit\n"
        if within or line == b"show\n":
            calls.append(line)
        within = within and line != b"apply\n"
    return calls


def make_inputs(seeds: Dict[str, List[bytes]], commands: List[str], count: int, seed: int) -> List[Input]:
    """Inputs of each command in turn. An input depends on the seed and its own number alone."""
    inputs = []
    for number in range(count if commands else 0):
        command = commands[number % len(commands)]
        rng = random.Random(zlib.crc32(f"{seed} {number}".encode()))
        text = rng.choice(seeds[command])
        for _ in range(rng.choice((1, 1, 1, 2, 3, 4))):
            text = edited(rng, text, seeds[command])
        inputs.append(Input(number, command, text))
    return inputs


# Comparing.


def difference(ours: Programs, other: Programs, given: Input) -> Optional[str]:
    """What the programs do differently, if anything."""
    try:
        mine, theirs = ours.end(given.command, given.text), other.end(given.command, given.text)
    except subprocess.TimeoutExpired as error:
        return f"no end: {error}"
    if (mine.status, mine.stderr) != (theirs.status, theirs.stderr):
        return f"{mine.status} {mine.stderr!r}, but the other: {theirs.status} {theirs.stderr!r}"
    if given.command == "run" and mine.status == 0:
        return journal_fault(ours, other, mine.stdout) or journal_fault(ours, other, theirs.stdout)
    if mine.stdout != theirs.stdout:
        return first_line_apart(mine.stdout, theirs.stdout)
    return None


def journal_fault(ours: Programs, other: Programs, journal: bytes) -> Optional[str]:
    """What is wrong with a journal by the check of either program."""
    checked = [programs.end("verify", journal) for programs in (ours, other)]
    if checked[0] != checked[1] or checked[0].status != 0:
        return f"a journal is judged {checked[0]}, and by the other {checked[1]}"
    return None


def first_line_apart(mine: bytes, theirs: bytes) -> str:
    """The first line of standard output that differs."""
    for number, (a, b) in enumerate(zip(mine.splitlines(), theirs.splitlines()), 1):
        if a != b:
            return f"line {number} is {a!r}, but the other's {b!r}"
    return f"{len(mine)} bytes, but the other's {len(theirs)}"


if __name__ == "__main__":
    sys.exit(main())
