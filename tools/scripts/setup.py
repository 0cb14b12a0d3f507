"""A script that is there: its setup is taken apart, changed and put together again."""
from __future__ import annotations

import re
from bisect import bisect_right
from typing import Iterator, Mapping, Sequence

from common import UsageError

from .grammar import HEADERS, first_word, words_of
from .reading import Commit, OtherLine, Pass, Setup, body_of

BEGIN = b"\nbegin\n"
ARMED = re.compile(rb"^arm\n", re.MULTILINE)
COMMIT = re.compile(rb"^commit$", re.MULTILINE)
METRIC = re.compile(rb"^metric ([0-9]{1,10})$", re.MULTILINE)
ATTRS = re.compile(rb"^attrs [0-9]+ [0-9]+ ([0-9]{1,10})$", re.MULTILINE)


class Script:
    """A script as the lines of its setup, and its body as it stands."""

    def __init__(self, lines: list[str], body: bytes) -> None:
        """The lines before `begin`, and what follows it."""
        self.lines = lines
        self.body = body

    @staticmethod
    def of(text: bytes) -> Script:
        """Raises UsageError if there is no line `begin`."""
        setup, begin, body = text.partition(BEGIN)
        if not begin:
            raise UsageError("there is no line `begin`: this is no script of damon")
        return Script(setup.decode("latin-1").split("\n"), body)

    @property
    def setup(self) -> Setup:
        return Setup(self.lines)

    def parts(self) -> Iterator[Commit | Pass | OtherLine]:
        """The commits, the passes and the other lines of the body."""
        return body_of(self.body.decode("latin-1").split("\n"))

    def starts(self) -> list[int]:
        """Where the line `arm` of each pass begins in the body."""
        return [match.start() for match in ARMED.finditer(self.body)]

    def text(self) -> bytes:
        return "\n".join(self.lines).encode("latin-1") + BEGIN + self.body

    def place(self, word: str) -> int:
        """Where the line with this first word stands. Raises UsageError if there is none."""
        for number, line in enumerate(self.lines):
            if first_word(line) == word:
                return number
        raise UsageError(f"there is no line `{word}` before `begin`: this is no script of damon")

    def words(self, word: str) -> list[str]:
        """The words of this line but its first one."""
        return [piece.text for piece in words_of(self.lines[self.place(word)])[1:]]

    def set_line(self, word: str, *values: object) -> None:
        self.lines[self.place(word)] = " ".join([word, *map(str, values)])

    def schemes(self) -> list[str]:
        return self.setup.with_word("scheme")

    def drop(self, slot: str) -> bool:
        """Removes the scheme of this slot; False if there is none."""
        kept = [line for line in self.lines if not sets(line, slot)]
        dropped, self.lines = len(kept) < len(self.lines), kept
        return dropped

    def set_scheme(self, new: str) -> None:
        """Puts a scheme line in the place of that of the same slot, or behind all others."""
        slot = slot_of(new)
        for number, line in enumerate(self.lines):
            if sets(line, slot):
                self.lines[number] = new
                return
        last = self.place("range")
        while last + 1 < len(self.lines) and first_word(self.lines[last + 1]) in ("range", "scheme"):
            last += 1
        self.lines.insert(last + 1, new)

    @property
    def version(self) -> int:
        """That of the rules; 1 where the first line is no header, which damon says."""
        return next((version for version, header in HEADERS.items() if self.lines[:1] == [header]), 1)

    def set_version(self, version: int) -> None:
        self.lines[0] = HEADERS[version]

    def put_commits(self, commits: Mapping[int, Sequence[Sequence[str]]]) -> list[int]:
        """Puts commits, each of some lines, before these intervals, behind what is there. Gives the intervals that are not there."""
        places = self.starts()
        pieces, since = [], 0
        for interval in sorted(commits):
            if interval < len(places):
                made = "".join("".join(f"{line}\n" for line in ("commit", *lines, "apply")) for lines in commits[interval])
                pieces += [self.body[since : places[interval]], made.encode("latin-1")]
                since = places[interval]
        self.body = b"".join([*pieces, self.body[since:]])
        return [interval for interval in sorted(commits) if interval >= len(places)]

    def intervals_of_commits(self) -> list[int]:
        """For each commit of the body the interval before which, or in which, it stands."""
        places = self.starts()
        return [bisect_right(places, match.start()) for match in COMMIT.finditer(self.body)]

    def metrics(self) -> tuple[int, ...]:
        """The metrics that commits of the body hand in."""
        return tuple(map(int, METRIC.findall(self.body)))

    def most_aggr(self) -> int:
        """The greatest `aggr` of the setup and the commits."""
        return max(map(int, [self.words("attrs")[2], *ATTRS.findall(self.body)]))

    def range_pages(self) -> list[int]:
        return [one.pages for one in self.setup.ranges]

    def targets(self) -> int:
        return len(self.setup.with_word("target"))


def slot_of(line: str) -> str:
    words = words_of(line)
    return words[1].text if len(words) > 1 else ""


def sets(line: str, slot: str) -> bool:
    return first_word(line) == "scheme" and slot_of(line) == slot
