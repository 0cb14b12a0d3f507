"""Asks damon itself what it says of a script. No tool decides this on its own."""
from __future__ import annotations

import os
import re
from pathlib import Path
from typing import TYPE_CHECKING, NamedTuple, Sequence

from common import UsageError

if TYPE_CHECKING:
    from subprocess import CompletedProcess

TOP = Path(__file__).resolve().parent.parent.parent
BUILT = TOP / "crates/damon/out/damon"
VARIABLE, LIVE_VARIABLE = "DAMON", "DAMOND"
"""The environment variables that name other programs than those that were built here."""

OK, USAGE, SCRIPT_FAULT, TOO_LONG, UNLAWFUL = 0, 2, 3, 4, 10
AFTER_END = "text after end"
FAULT = re.compile(r"line ([0-9]+): (.+)\n")


class Fault(NamedTuple):
    """Why damon rejects a script."""

    line: int
    """The first rejected line, counted from 1."""
    kind: str
    """The text of the kind of fault, such as `bad form`."""


def program() -> Path:
    """The program that is asked. It need not be there."""
    return Path(os.environ.get(VARIABLE) or BUILT)


def is_there() -> bool:
    return program().is_file()


def has_judge() -> bool:
    """Whether there is a program to ask. Raises UsageError if one that somebody has named is not there."""
    if not is_there() and os.environ.get(VARIABLE):
        raise UsageError(f"there is no program {program()}, which {VARIABLE} in the environment names")
    return is_there()


def live_program() -> Path:
    """The program for live scripts: the one that is named, or the one that was built here."""
    return Path(os.environ.get(LIVE_VARIABLE) or TOP / "crates/damond/out/damond")


def asked(path: Path, words: Sequence[str], text: bytes, keep_output: bool) -> CompletedProcess[bytes]:
    """Runs a program over a text. Raises UsageError if it cannot be run."""
    # Some tools only ask where the program is, and this takes long to load.
    import subprocess

    output = subprocess.PIPE if keep_output else subprocess.DEVNULL
    try:
        return subprocess.run([path, *words], input=text, stdout=output, stderr=subprocess.PIPE)
    except FileNotFoundError:
        name = LIVE_VARIABLE if path == live_program() else VARIABLE
        raise UsageError(f"there is no program {path}: ./{name.lower()} builds it, or {name} in the environment names another") from None
    except OSError as error:
        raise UsageError(f"{path}: {error.strerror}") from None


def replay(script: bytes, keep_report: bool) -> CompletedProcess[bytes]:
    """Runs a script. Raises UsageError if the program cannot be run."""
    return asked(program(), ["replay"], script, keep_report)


def fault_in(ran: CompletedProcess[bytes], status: int = SCRIPT_FAULT) -> Fault | None:
    """The fault that a run ends with; None if the text was taken. Raises UsageError if there is no answer."""
    message = ran.stderr.decode("ascii", "replace")
    if ran.returncode == OK:
        return None
    match = FAULT.fullmatch(message)
    if ran.returncode != status or not match:
        raise UsageError(f"damon ends with status {ran.returncode}: {message.strip()}")
    return Fault(int(match[1]), match[2])


def fault_of(script: bytes) -> Fault | None:
    """The fault of a script; None if damon takes it. Raises UsageError if damon gives no answer."""
    return fault_in(replay(script, keep_report=False))


def live_fault_of(script: bytes) -> Fault | None:
    """The fault of a live script. Raises UsageError.

    One that is right is not carried out: a byte behind its end is a fault too, and the first one there is.
    """
    is_whole = script.endswith(b"\nend\n")
    fault = fault_in(asked(live_program(), ["run"], script + b"x" * is_whole, keep_output=False))
    return None if is_whole and fault == Fault(script.count(b"\n") + 1, AFTER_END) else fault


def refusals_of(script: bytes) -> list[tuple[int, str]]:
    """The refused commits of a script that damon takes: the number of each, from 0, and the reason."""
    report = replay(script, keep_report=True).stdout.decode("ascii")
    answers = [line.split(" ", 2)[2] for line in report.splitlines() if line.startswith("commit ")]
    return [(number, answer.removeprefix("refused ")) for number, answer in enumerate(answers)
            if answer.startswith("refused ")]
