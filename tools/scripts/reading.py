"""Reads the text of a script: the lines of its setup, and the commits and passes of its body.

All tools that look into a script use it. Whether a text is a script is for damon to say: here a line is read by its words
alone, and what is not known is left to whoever asks.
"""
from __future__ import annotations

from itertools import takewhile
from typing import Iterable, Iterator, NamedTuple, Sequence

from units import PAGE

from .grammar import Piece, first_word, words_of

SETUP_ENDS = ("begin", "passes")
"""The words of the line after the setup: of a script or a journal, and of a live script."""
ARM, FINISH = "arm", "finish"
COMMIT, APPLY = "commit", "apply"
TOUCHES = ("touch", "sweep")


class Target(NamedTuple):
    """A target of the setup; addresses are in bytes."""

    base: int
    pages: int

    @property
    def end(self) -> int:
        return self.base + PAGE * self.pages


class Watched(NamedTuple):
    """A range; addresses are in bytes."""

    target: int
    start: int
    end: int
    label: int
    """Its class."""
    line: int
    """The number of its line, counted from 1."""

    @property
    def pages(self) -> int:
        return (self.end - self.start) // PAGE


class Setup:
    """The lines before `begin`."""

    def __init__(self, lines: Sequence[str]) -> None:
        self.lines = list(lines)

    @staticmethod
    def of(lines: Iterable[str]) -> Setup:
        """The setup at the beginning of a script, a live script or a journal, whose lines may end with LF."""
        return Setup(list(takewhile(lambda line: first_word(line) not in SETUP_ENDS, (line.rstrip("\n") for line in lines))))

    def with_word(self, word: str) -> list[str]:
        """The lines with this first word."""
        return [line for line in self.lines if first_word(line) == word]

    def numbers(self, word: str) -> list[list[int]]:
        """The numbers of each of these lines."""
        return [[piece.number() for piece in words_of(line)[1:]] for line in self.with_word(word)]

    @property
    def targets(self) -> list[Target]:
        return [Target(base, pages) for base, pages in self.numbers("target")]

    @property
    def ranges(self) -> list[Watched]:
        return ranges_in(enumerate(self.lines, 1))


class Commit(NamedTuple):
    """The lines of a commit between `commit` and `apply`."""

    number: int
    """That of its line `commit`, counted from 1 at the line after `begin`."""
    parts: tuple[str, ...]

    def with_word(self, word: str) -> list[str]:
        """Its lines with this first word."""
        return [line for line in self.parts if first_word(line) == word]

    @property
    def ranges(self) -> list[Watched]:
        """The ranges that take the place of all that were there; none where they stay."""
        return ranges_in(enumerate(self.parts, self.number + 1))


class Pass(NamedTuple):
    """A pass that is written as `arm`, touches and `finish`."""

    number: int
    """That of its line `arm`, counted as in a commit."""
    touches: tuple[str, ...]


class OtherLine(NamedTuple):
    """Any other line of the body, also a touch that lies in no such pass."""

    number: int
    line: str


def ranges_in(lines: Iterable[tuple[int, str]]) -> list[Watched]:
    """The ranges among some lines with their numbers."""
    found: list[Watched] = []
    for number, line in lines:
        if first_word(line) == "range":
            target, start, end, label = (piece.number() for piece in words_of(line)[1:])
            found.append(Watched(target, start, end, label, number))
    return found


def body_of(lines: Iterable[str]) -> Iterator[Commit | Pass | OtherLine]:
    """What follows `begin`, in order."""
    found = [(number, line.rstrip("\n")) for number, line in enumerate(lines, 1)]
    place = 0
    while place < len(found):
        number, line = found[place]
        word = first_word(line)
        after = place + 1
        if word in (COMMIT, ARM):
            end = APPLY if word == COMMIT else FINISH
            while after < len(found) and belongs(first_word(found[after][1]), word):
                after += 1
            if after < len(found) and first_word(found[after][1]) == end:
                parts = tuple(text for _, text in found[place + 1 : after])
                yield Commit(number, parts) if word == COMMIT else Pass(number, parts)
                place = after + 1
                continue
        yield OtherLine(number, line)
        place += 1


def belongs(word: str, first: str) -> bool:
    """Whether a line with this word may stand between `commit` and `apply`, or between `arm` and `finish`."""
    return word not in (COMMIT, APPLY) if first == COMMIT else word in TOUCHES


def commits_in(lines: Iterable[str]) -> list[Commit]:
    """The commits of a script, or of its body."""
    return [part for part in body_of(lines) if isinstance(part, Commit)]


def touched_by(line: str) -> Iterator[tuple[int, int]]:
    """The pages of a line `touch` or `sweep`, each with its target, by their numbers in the address space."""
    words: list[Piece] = words_of(line)
    first = words[2].number() // PAGE
    after = words[3].number() // PAGE if len(words) > 3 else first + 1
    return ((words[1].number(), page) for page in range(first, after))
