"""The words of a script: which lines there are, which fields each has, and where each may stand.

`docs/FORMATS.md` has the format. Whether a text is a script is decided by damon alone; this table only
serves to say in words why damon rejected a line.
"""
from __future__ import annotations

from typing import NamedTuple

HEADERS = {1: "damon script 1", 2: "damon script 2"}
"""The first line of each version."""
LIVE_HEADERS = {1: "damon live 1", 2: "damon live 2"}
"""The same of live scripts, which have `passes` in place of `begin`, then workers and controllers."""
HEADER = HEADERS[1]
MOST_BYTES = 16_777_216
MOST_WORK = 16_777_216
MOST_CAP = 4096
MOST_UNIT = 1 << 20
MOST_STEPS = 1_000_000
MOST_PASSES = 1_000_000
MOST_WORKERS, MOST_CONTROLLERS = 16, 4
MOST_TOUCHES, MOST_CALLS = 1_048_576, 65_536
MOST_RESULTS = 4_194_304
"""The most passes times `cap` of a live script."""
MOST_FILTERS = 8
LAST_SLOT = 15
LAST_CLASS = 15
LEAST_REGIONS = 3
MOST_AGGR = 1000


class Piece(NamedTuple):
    """A part of a line, and the column at which it begins."""

    text: str
    start: int

    def parts(self, separator: str) -> list[Piece]:
        """The parts between the separators."""
        result, start = [], self.start
        for text in self.text.split(separator):
            result.append(Piece(text, start))
            start += len(text) + len(separator)
        return result

    def number(self) -> int:
        """The value of a number or an address that damon has accepted."""
        return int(self.text, 16 if self.text.startswith("0x") else 10)


class Field(NamedTuple):
    """A number or an address of a line."""

    name: str
    bits: int
    """The bits of its greatest value; 0 for an address."""


def n8(name: str) -> Field:
    return Field(name, 8)


def n16(name: str) -> Field:
    return Field(name, 16)


def n32(name: str) -> Field:
    return Field(name, 32)


def n64(name: str) -> Field:
    return Field(name, 64)


def address(name: str) -> Field:
    return Field(name, 0)


FIELDS: dict[str, tuple[Field, ...]] = {
    "seed": (n64("SEED"),),
    "unit": (n32("PAGES"),),
    "cap": (n32("REGIONS"),),
    "attrs": (n32("MIN"), n32("MAX"), n32("AGGR")),
    "target": (address("BASE"), n32("PAGES")),
    "range": (n32("TARGET"), address("FROM"), address("TO"), n8("CLASS")),
    "begin": (),
    "touch": (n32("TARGET"), address("ADDRESS")),
    "sweep": (n32("TARGET"), address("FROM"), address("TO")),
    "step": (n32("STEPS"),),
    "arm": (),
    "finish": (),
    "show": (),
    "commit": (),
    "drop": (n8("SLOT"),),
    "metric": (n32("METRIC"),),
    "cost": (n8("SLOT"), n64("NANOS")),
    "apply": (),
    "end": (),
}
"""The fields of each line but `scheme`, which has keys."""
LIVE_FIELDS: dict[str, tuple[Field, ...]] = {
    **{word: fields for word, fields in FIELDS.items() if word not in ("begin", "step", "arm", "finish")},
    "passes": (n32("PASSES"),),
    "worker": (),
    "controller": (),
}
"""The same in a live script."""

ACTIONS = ("stat", "willneed", "cold", "pageout", "hugepage", "nohugepage", "lru_prio", "lru_deprio")
KEY_FIELDS: dict[str, tuple[Field, ...]] = {
    "size": (n32("MIN"), n32("MAX")),
    "count": (n32("MIN"), n32("MAX")),
    "age": (n32("MIN"), n32("MAX")),
    "quota": (n64("BYTES"), n32("TICKS")),
    "time": (n64("NANOS"),),
    "weights": (n16("SIZE"), n16("COUNT"), n16("AGE")),
    "prefer": (),
    "marks": (n32("HIGH"), n32("MID"), n32("LOW")),
    "filter": (),
}
"""The keys of a scheme in their order, with the numbers of each."""
KEYS = {1: tuple(key for key in KEY_FIELDS if key != "time"), 2: tuple(KEY_FIELDS)}
"""The keys of each version: the time of a quota came with version 2."""
FILTER_FIELDS: dict[str, tuple[Field, ...]] = {
    "addr": (address("FROM"), address("TO")),
    "target": (n32("TARGET"),),
    "class": (n8("CLASS"),),
}

BODY = ("touch", "sweep", "step", "arm", "finish", "show", "commit", "end")
AFTER_IN_SETUP: dict[str, tuple[str, ...]] = {
    "damon": ("seed",),
    "seed": ("unit",),
    "unit": ("cap",),
    "cap": ("attrs",),
    "attrs": ("target",),
    "target": ("target", "range"),
    "range": ("range", "scheme", "begin"),
    "scheme": ("scheme", "begin"),
}
"""The words that may begin the line after one with this word, before `begin`."""
AFTER_IN_LIVE = {
    "passes": ("worker", "controller", "end"),
    "worker": ("touch", "sweep", "worker", "controller", "end"),
    "controller": ("show", "commit", "controller", "end"),
}
"""The words that may follow in a live script, by the last line with one of these words."""
AFTER_IN_COMMIT: dict[str, tuple[str, ...]] = {
    "commit": ("attrs", "range", "scheme", "drop", "metric", "apply"),
    "attrs": ("range", "scheme", "drop", "metric", "apply"),
    "range": ("range", "scheme", "drop", "metric", "apply"),
    "scheme": ("metric", "apply"),
    "drop": ("metric", "apply"),
    "metric": ("apply",),
}
"""The same between `commit` and `apply`, in version 1."""


def after_in_commit(word: str, version: int) -> tuple[str, ...]:
    """The words that may follow a line of a commit: in version 2 a cost may stand before `apply`."""
    if word == "cost":
        return ("apply",)
    words = AFTER_IN_COMMIT[word]
    return words if version == 1 else (*words[:-1], "cost", "apply")


def words_of(line: str) -> list[Piece]:
    return Piece(line, 0).parts(" ")


def first_word(line: str) -> str:
    return line.split(" ", 1)[0]


def pass_work(cap: int) -> int:
    """The work of `arm`, and of `finish`."""
    return 2 * cap + 3
