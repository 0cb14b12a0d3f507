"""Lets damon judge the lines that a user gives, before a long trace is read."""
from __future__ import annotations

import re

from common import UsageError
from scripts.judge import Fault, fault_of
from scripts.reasons import reason_of
from units import PAGE

from .commits import commit_lines
from .script import Settings, opening

LINE_NUMBER = re.compile(r" \(line [0-9]+\)| of line [0-9]+")


def check_lines(settings: Settings) -> None:
    """Raises UsageError for the first scheme or line of a commit that damon rejects.

    The script that damon is asked about has these lines, one target and no workload. Whether a commit is
    refused depends on the targets, so this is seen only at the end.
    """
    setup = [*opening(settings), f"target 0x0 {settings.unit}", f"range 0 0x0 {settings.unit * PAGE:#x} 0"]
    # Each line with the option that it comes from.
    lines = [("", line) for line in setup]
    lines += [("--scheme ", line) for line in settings.schemes]
    lines.append(("", "begin"))
    lines += [(f"--at {interval}:", line) for interval, commits in settings.commits.items()
              for commit in commits for line in commit_lines(commit)]
    lines.append(("", "end"))
    script = "".join(f"{line}\n" for _, line in lines).encode("ascii")
    if fault := fault_of(script):
        option, line = lines[fault.line - 1]
        raise UsageError(f"{option}{line!r}: {in_words(script, fault)}")


def in_words(script: bytes, fault: Fault) -> str:
    """The kind of fault and its reason, without numbers of lines, which no file has."""
    found = reason_of(script, fault)
    return LINE_NUMBER.sub("", f"{fault.kind}: {found[0]}") if found else fault.kind
