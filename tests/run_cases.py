#!/usr/bin/env python3
"""Runs the built program on cases and compares what it does with what is wanted, byte for byte.

    tests/run_cases.py [PROGRAM [CASES ...]]

PROGRAM is the built program; the default is `crates/damon/out/damon` of this checkout, where `rt ci`
and `./damon` leave it. Each of CASES is a file of cases, or a folder whose files `*.jsonl` are read;
the default is `tests/cases`.

A line of a file of cases is one JSON object. Each character of a text stands for one byte.

    name           the case's own name
    words          the words after the program's name
    status         the exit status that is wanted
    stderr         what the program is to write to standard error
    memory         optional: the most bytes of address space that the program may use

Exactly one field says what stands on standard input:

    input          this text
    input_parts    a list of [text, times]: each text that many times, one after another
    stdin_from     the file or folder at this path; it starts at the top of the checkout

Exactly one field says what is to become of standard output:

    stdout         the program is to write this text
    stdout_sha256  the program is to write bytes with this checksum; `stdout_bytes` is their number
    stdout_to      standard output is the file at this path, and what is written there is not looked at

A case of `replay` whose standard output is given here in full and whose status is 0 is also run with `json`,
and the JSON lines are to say the same as the text (`json_text.py`).

Each failed case is printed with what was wanted and what was given. The last line counts the cases
that passed and failed, and the exit status is 1 where one failed or none was found.
"""
import hashlib
import json
import os
import re
import resource
import subprocess
import sys
from contextlib import ExitStack
from pathlib import Path
from typing import Any, Dict, Iterator, List, NamedTuple, Optional, Set, Tuple, Union

from json_text import text_of

TOP = Path(__file__).resolve().parent.parent
PROGRAM = TOP / "crates/damon/out/damon"
CASES = TOP / "tests/cases"
ALWAYS = {"name": str, "words": list, "stderr": str, "status": int}
OPTIONAL = {"memory": int, "stdout_bytes": int}
INPUTS: Dict[str, type] = {"input": str, "input_parts": list, "stdin_from": str}
OUTPUTS: Dict[str, type] = {"stdout": str, "stdout_sha256": str, "stdout_to": str}
FIELDS = {**ALWAYS, **OPTIONAL, **INPUTS, **OUTPUTS}
SECONDS = 60
# A line with its LF, which the last one may lack.
LINE = re.compile(rb"[^\n]*\n|[^\n]+")


class Digest(NamedTuple):
    """Bytes that are too many to be stored."""

    sha256: str
    length: int


class Ended(NamedTuple):
    """What a run of the program comes to."""

    stdout: bytes
    stderr: bytes
    status: int


class Wanted(NamedTuple):
    """What it should come to. An output of None is not looked at."""

    stdout: Union[bytes, Digest, None]
    stderr: bytes
    status: int


class Case(NamedTuple):
    place: str
    name: str
    words: List[bytes]
    stdin: Union[bytes, Path]
    stdout_to: Optional[str]
    memory: Optional[int]
    wanted: Wanted


def main(words: List[str]) -> int:
    program = Path(words[0]).resolve() if words else PROGRAM
    places = [Path(word) for word in words[1:]] or [CASES]
    faults = [f"there is no {place}" for place in places if not place.exists()]
    if not program.is_file():
        faults.append(f"there is no program {program}: `rt ci` builds it, and so does ./damon")
    if faults:
        return finish(0, faults)
    cases, faults = load(places)
    if not cases:
        faults.append("there are no cases in " + ", ".join(map(str, places)))
    failed = [report for case in cases for report in try_case(program, case)]
    return finish(len(cases) - len(failed), faults + failed)


def finish(passed: int, faults: List[str]) -> int:
    """Prints all faults and the counts, and gives the exit status."""
    for fault in faults:
        print(fault)
    print(f"{passed} passed, {len(faults)} failed")
    return 1 if faults else 0


# Reading cases.


def load(places: List[Path]) -> Tuple[List[Case], List[str]]:
    """Gives the cases in these places, and a fault for each line that is not a case."""
    cases: List[Case] = []
    faults: List[str] = []
    names: Set[str] = set()
    for place, line in lines_of(places):
        try:
            case = case_of(place, json.loads(line))
            if case.name in names:
                raise ValueError(f"the name {case.name} is used twice")
            names.add(case.name)
            cases.append(case)
        except ValueError as error:
            faults.append(f"{place}: not a case: {error}")
    return cases, faults


def lines_of(places: List[Path]) -> Iterator[Tuple[str, bytes]]:
    """Gives each line of the files in these places, with its file and number."""
    for place in places:
        for file in sorted(place.glob("*.jsonl")) if place.is_dir() else [place]:
            for number, line in enumerate(file.read_bytes().splitlines(), 1):
                yield f"{file}:{number}", line


def case_of(place: str, fields: Dict[str, Any]) -> Case:
    check_fields(fields)
    return Case(
        place,
        fields["name"],
        [to_bytes(word) for word in fields["words"]],
        stdin_of(fields),
        fields.get("stdout_to"),
        fields.get("memory"),
        Wanted(stdout_of(fields), to_bytes(fields["stderr"]), fields["status"]),
    )


def check_fields(fields: Any) -> None:
    if not isinstance(fields, dict) or set(fields) - set(FIELDS):
        raise ValueError("it is not an object of the known fields")
    if lacking := set(ALWAYS) - set(fields):
        raise ValueError(f"it lacks {', '.join(sorted(lacking))}")
    for field, value in fields.items():
        if not isinstance(value, FIELDS[field]):
            raise ValueError(f"{field} has the wrong type")
    for choice in (INPUTS, OUTPUTS):
        if len(set(choice) & set(fields)) != 1:
            raise ValueError(f"it needs exactly one of {', '.join(choice)}")
    if ("stdout_sha256" in fields) != ("stdout_bytes" in fields):
        raise ValueError("stdout_sha256 and stdout_bytes come together")


def to_bytes(text: str) -> bytes:
    return text.encode("latin-1")


def stdin_of(fields: Dict[str, Any]) -> Union[bytes, Path]:
    if "stdin_from" in fields:
        return TOP / str(fields["stdin_from"])
    if "input_parts" in fields:
        return b"".join(to_bytes(text) * times for text, times in fields["input_parts"])
    return to_bytes(fields["input"])


def stdout_of(fields: Dict[str, Any]) -> Union[bytes, Digest, None]:
    if "stdout_to" in fields:
        return None
    if "stdout_sha256" in fields:
        return Digest(fields["stdout_sha256"], fields["stdout_bytes"])
    return to_bytes(fields["stdout"])


# Trying cases.


def try_case(program: Path, case: Case) -> List[str]:
    """Runs a case, and gives a report if it failed."""
    try:
        wrong = differences(case, run(program, case)) + json_differences(program, case)
    except (OSError, ValueError, subprocess.SubprocessError) as error:
        wrong = [f"the program could not be run to its end: {error}"]
    return ["\n    ".join([f"{case.place}: {case.name} failed", *wrong])] if wrong else []


def json_differences(program: Path, case: Case) -> List[str]:
    """Runs a replay in its JSON form too: that report says the same as the text, number for number."""
    wanted = case.wanted
    if case.words != [b"replay"] or wanted.status != 0 or not isinstance(wanted.stdout, bytes):
        return []
    given = run(program, case._replace(words=[b"json"], memory=None))
    if given.status != 0:
        return [f"json: status {given.status}"]
    try:
        return [f"json, as text: {line}" for line in unlike_text("stdout", wanted.stdout, text_of(given.stdout))]
    except (KeyError, ValueError) as error:
        return [f"json: {error!r}"]


def run(program: Path, case: Case) -> Ended:
    with ExitStack() as files:
        how: Dict[str, Any] = {"stdout": subprocess.PIPE, "stderr": subprocess.PIPE, "timeout": SECONDS}
        if isinstance(case.stdin, Path):
            # `open` would refuse a folder.
            how["stdin"] = os.open(case.stdin, os.O_RDONLY)
            files.callback(os.close, how["stdin"])
        else:
            how["input"] = case.stdin
        if case.stdout_to:
            how["stdout"] = files.enter_context(open(case.stdout_to, "wb"))
        if case.memory:
            limits = (case.memory, case.memory)
            how["preexec_fn"] = lambda: resource.setrlimit(resource.RLIMIT_AS, limits)
        ran = subprocess.run([program, *case.words], **how)
    return Ended(ran.stdout, ran.stderr, ran.returncode)


def differences(case: Case, given: Ended) -> List[str]:
    """Says in lines how what was given differs from what is wanted."""
    wanted = case.wanted
    lines = [*unlike_stdout(wanted.stdout, given.stdout), *unlike_text("stderr", wanted.stderr, given.stderr)]
    if wanted.status != given.status:
        lines.append(f"status: wanted {wanted.status}, given {given.status}")
    return lines


def unlike_stdout(wanted: Union[bytes, Digest, None], given: bytes) -> List[str]:
    if wanted is None:
        return []
    if isinstance(wanted, bytes):
        return unlike_text("stdout", wanted, given)
    digest = Digest(hashlib.sha256(given).hexdigest(), len(given))
    return [] if digest == wanted else [f"stdout: wanted {described(wanted)}", f"stdout: given  {described(digest)}"]


def described(digest: Digest) -> str:
    return f"{digest.length} bytes with SHA-256 {digest.sha256}"


def unlike_text(stream: str, wanted: bytes, given: bytes) -> List[str]:
    """Names the first line in which two texts differ."""
    if wanted == given:
        return []
    wanted_lines, given_lines = LINE.findall(wanted), LINE.findall(given)
    same = 0
    while wanted_lines[same : same + 1] == given_lines[same : same + 1]:
        same += 1
    where = f"{stream}, line {same + 1}:"
    return [f"{where} wanted {line_at(wanted_lines, same)}", f"{where} given  {line_at(given_lines, same)}"]


def line_at(lines: List[bytes], index: int) -> str:
    return repr(lines[index].decode("latin-1")) if index < len(lines) else "the end of the text"


if __name__ == "__main__":
    sys.exit(main(sys.argv[1:]))
