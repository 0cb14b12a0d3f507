"""What the lines before a rejected one say. Damon has accepted each of them."""
from __future__ import annotations

from dataclasses import dataclass, field
from functools import cached_property

from units import PAGE

from .grammar import (AFTER_IN_LIVE, AFTER_IN_SETUP, BODY, FIELDS, HEADERS, LIVE_FIELDS, LIVE_HEADERS, Field, after_in_commit, first_word,
                      pass_work, words_of)
from .reading import Setup, Target, Watched

PARTS_OF_COMMIT = ("commit", "attrs", "range", "scheme", "drop", "metric", "cost")


@dataclass(frozen=True)
class Work:
    """The work of body lines."""

    passes: int = 0
    """That of `arm` and `finish`."""
    others: int = 0

    @property
    def total(self) -> int:
        return self.passes + self.others


@dataclass
class Context:
    """A script up to a line that damon rejects."""

    lines: list[str]
    """The lines before it."""
    line: str
    """The rejected line itself; empty where the text has ended."""
    rest: str = field(default="")
    """What follows the last LF."""

    @property
    def number(self) -> int:
        return len(self.lines) + 1

    @cached_property
    def is_live(self) -> bool:
        """Whether it is, or is meant to be, a live script."""
        return (self.lines or [self.line])[0].startswith("damon live")

    @property
    def headers(self) -> dict[int, str]:
        return LIVE_HEADERS if self.is_live else HEADERS

    @property
    def fields(self) -> dict[str, tuple[Field, ...]]:
        """The fields of each line of this kind of text."""
        return LIVE_FIELDS if self.is_live else FIELDS

    @property
    def opening(self) -> str:
        """The line after the setup."""
        return "passes" if self.is_live else "begin"

    @cached_property
    def version(self) -> int | None:
        """The version of the script; None where its first line is no header."""
        return next((version for version, header in self.headers.items() if self.lines[:1] == [header]), None)

    @cached_property
    def setup(self) -> Setup:
        return Setup.of(self.lines)

    @property
    def in_body(self) -> bool:
        return len(self.setup.lines) < len(self.lines)

    @cached_property
    def commit_line(self) -> int | None:
        """The number of the line `commit` of a commit that is still open."""
        if not self.in_body:
            return None
        for number in range(len(self.lines), 0, -1):
            word = first_word(self.lines[number - 1])
            if word == "commit":
                return number
            if word not in PARTS_OF_COMMIT:
                return None
        return None

    @property
    def allowed(self) -> tuple[str, ...]:
        """The words that may begin the rejected line."""
        word = first_word(self.lines[-1])
        if not self.in_body:
            return tuple(self.opening if after == "begin" else after for after in AFTER_IN_SETUP[word])
        if self.commit_line:
            return after_in_commit(word, self.version or 1)
        return AFTER_IN_LIVE[next(word for word in map(first_word, reversed(self.lines)) if word in AFTER_IN_LIVE)] if self.is_live else BODY

    def one(self, word: str) -> int:
        """The number of `unit` or `cap`."""
        return self.setup.numbers(word)[0][0]

    @cached_property
    def targets(self) -> list[Target]:
        return self.setup.targets

    @cached_property
    def ranges(self) -> list[Watched]:
        return self.setup.ranges

    def slot_line(self, slot: int) -> int:
        """The number of the line of the setup that sets this slot."""
        return next(number for number, line in enumerate(self.setup.lines, 1)
                    if first_word(line) == "scheme" and words_of(line)[1].number() == slot)

    def blocks(self, word: str) -> int:
        """How many workers or controllers a live script has before the rejected line."""
        return sum(line == word for line in self.lines[len(self.setup.lines) :])

    def touches(self) -> int:
        """The touches of all workers of a live script up to the rejected line, which counts."""
        body = [*self.lines[len(self.setup.lines) + 1 :], self.line]
        return sum(pages_of(line) for line in body if first_word(line) in ("touch", "sweep"))

    def work(self) -> Work:
        """The work of the body up to the rejected line, which counts."""
        passes = others = 0
        of_pass = pass_work(self.one("cap"))
        for line in [*self.lines[len(self.setup.lines) + 1 :], self.line]:
            word = first_word(line)
            if word in ("arm", "finish"):
                passes += of_pass
            elif word in ("touch", "sweep"):
                others += pages_of(line)
            elif word == "step":
                others += words_of(line)[1].number()
            elif word in ("show", "apply"):
                others += 1
        return Work(passes, others)


def pages_of(line: str) -> int:
    """The pages that a line `touch` or `sweep` touches."""
    addresses = [piece.number() for piece in words_of(line)[2:]]
    return (addresses[1] - addresses[0]) // PAGE if len(addresses) == 2 else 1


def context_of(script: bytes, number: int) -> Context:
    """The script at its line of this number, counted from 1. Each byte is one character."""
    *lines, rest = script.decode("latin-1").split("\n")
    rejected = lines[number - 1] if number <= len(lines) else rest
    return Context(lines[: number - 1], rejected, rest)
