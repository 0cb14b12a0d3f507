"""The contexts of an admin text: which of its lines are of which context, and what damon says of each."""
from __future__ import annotations

import re
from dataclasses import dataclass

from .grammar import Piece
from .judge import Fault
from .reasons import Reason

HEADER = "damon admin 1"
FAULT = re.compile(r"([0-7]) fault line=([0-9]+) (.+)")
LAST_CONTEXT = 7


@dataclass
class Context:
    """The script of a context."""

    lines: list[str]
    numbers: list[int]
    """Where each of its lines stands in the whole text, counted from 1."""

    def text(self) -> bytes:
        return "".join(f"{line}\n" for line in self.lines).encode("latin-1")


def contexts_of(text: bytes) -> dict[str, Context]:
    """The contexts of a text that damon takes, by their digits."""
    found: dict[str, Context] = {}
    for number, line in enumerate(text.decode("latin-1").splitlines()[1:], 2):
        context = found.setdefault(line[0], Context([], []))
        context.lines.append(line[2:])
        context.numbers.append(number)
    return found


def faults_in(output: str) -> list[tuple[str, Fault]]:
    """The contexts whose text is no script, and why, as `damon admin` wrote it."""
    return [(match[1], Fault(int(match[2]), match[3])) for match in map(FAULT.fullmatch, output.splitlines()) if match]


def reason_of_split(text: bytes, fault: Fault) -> Reason | None:
    """Why a line belongs to no context."""
    lines = text.decode("latin-1").split("\n")
    line = lines[fault.line - 1] if fault.line <= len(lines) else ""
    if fault.kind == "no header":
        return f"the first line must be exactly `{HEADER}`, and it is {line[:40]!r}", Piece(line, 0)
    if fault.kind == "bad form":
        return f"each later line begins with the digit of a context, from 0 to {LAST_CONTEXT}, and one space", Piece(line[:2], 0)
    if fault.kind == "input ends early":
        return (f"the text ends before the LF of this line, {line[:40]!r}" if line
                else f"the text is empty, and its first line must be `{HEADER}`"), None
    return None
