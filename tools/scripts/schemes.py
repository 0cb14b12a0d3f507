"""The parts of a line `scheme SLOT ACTION KEYS`, and what can be wrong with each."""
from __future__ import annotations

from dataclasses import dataclass
from difflib import get_close_matches
from typing import Iterator

from units import PAGE
from wording import counted, listed

from .grammar import (ACTIONS, FILTER_FIELDS, KEY_FIELDS, KEYS, LAST_CLASS, LAST_SLOT, MOST_FILTERS, Field, Piece, n8,
                      words_of)

Finding = tuple[str, Piece]
"""A reason in words, and the part of the line that it is about."""
ANSWERS = ("allow", "reject")
PREFERENCES = ("hot", "cold")
ALIKE = 0.7
"""How alike a word must be to be guessed, from 0 to 1."""


@dataclass(frozen=True)
class Key:
    """A word `key=value` of a scheme."""

    name: Piece
    value: Piece

    @staticmethod
    def of(word: Piece) -> Key:
        """The word cut at its first `=`, which it has."""
        name, _, value = word.text.partition("=")
        return Key(Piece(name, word.start), Piece(value, word.start + len(name) + 1))

    def filter_kind(self) -> str:
        """`addr`, `target` or `class`, without `not-`."""
        return self.value.parts(":")[1].text.removeprefix("not-")

    def numbers(self) -> list[tuple[Piece, Field]]:
        """The numbers and addresses of a value whose form is right."""
        if self.name.text != "filter":
            return list(zip(self.value.parts(","), KEY_FIELDS[self.name.text]))
        fields = FILTER_FIELDS[self.filter_kind()]
        value = self.value.parts(":")[2]
        return list(zip(value.parts("-") if len(fields) > 1 else [value], fields))

    def values(self) -> list[int]:
        """The same as numbers, where damon has accepted their spelling."""
        return [piece.number() for piece, _ in self.numbers()]


def keys_of(line: str) -> Iterator[Key]:
    """The keys of a scheme line, each of which has a `=`."""
    return map(Key.of, words_of(line)[3:])


def numbers_of(line: str) -> list[tuple[Piece, Field]]:
    """The slot and all numbers of the keys of a scheme line whose form is right."""
    return [(words_of(line)[1], n8("SLOT")), *(number for key in keys_of(line) for number in key.numbers())]


def like(word: str, known: tuple[str, ...]) -> str:
    """A guess at what was meant, for the end of a sentence."""
    close = get_close_matches(word, known, 1, ALIKE)
    return f" (is it {close[0]!r}?)" if close else ""


def wrong_form(line: str, version: int) -> Finding | None:
    """Why the form of a scheme line is wrong in a script of this version, where its spaces are right."""
    words = words_of(line)
    if len(words) < 3:
        return "a scheme needs a slot and an action: `scheme SLOT ACTION KEYS`", words[-1]
    if words[2].text not in ACTIONS:
        return f"there is no action {words[2].text!r}{like(words[2].text, ACTIONS)}: it is {listed(ACTIONS)}", words[2]
    before: str | None = None
    for word in words[3:]:
        if "=" not in word.text:
            return f"{word.text!r} is not a word `key=value`", word
        key = Key.of(word)
        if wrong := wrong_key(key, before, version) or wrong_value(key):
            return wrong
        before = key.name.text
    return None


def wrong_key(key: Key, before: str | None, version: int) -> Finding | None:
    """Why this key cannot stand here, after the key `before`."""
    name, keys = key.name.text, KEYS[version]
    if name not in keys:
        later = " in version 1" if name in KEY_FIELDS else like(name, keys)
        return f"there is no key {name!r}{later}: the keys are {', '.join(keys)}", key.name
    if name == "time" and before != "quota":
        return "key 'time' stands directly after 'quota', of which it is a part", key.name
    if before is None or keys.index(name) > keys.index(before) or name == before == "filter":
        return None
    if name == before:
        return f"key {name!r} twice: only 'filter' may be repeated", key.name
    return f"key {name!r} after {before!r}: the order is {', '.join(keys)}", key.name


def wrong_value(key: Key) -> Finding | None:
    """Why the value of a known key has the wrong form."""
    name, value = key.name.text, key.value
    if name == "prefer":
        return None if value.text in PREFERENCES else (f"'prefer' is hot or cold, and not {value.text!r}", value)
    if name == "filter":
        return wrong_filter(value)
    wanted, parts = KEY_FIELDS[name], value.parts(",")
    if len(parts) == len(wanted):
        return None
    names = ",".join(field.name for field in wanted)
    return f"'{name}' needs {counted(len(wanted), 'number')}, `{name}={names}`, and has {len(parts)}", value


def wrong_filter(value: Piece) -> Finding | None:
    parts = value.parts(":")
    if len(parts) != 3:
        return f"a filter has three parts, `allow:KIND:VALUE` or `reject:KIND:VALUE`, and this has {len(parts)}", value
    answer, kind, what = parts
    kinds = tuple(FILTER_FIELDS)
    if answer.text not in ANSWERS:
        return f"a filter begins with allow or reject, and not with {answer.text!r}", answer
    bare = kind.text.removeprefix("not-")
    if bare not in kinds:
        return f"there is no filter by {kind.text!r}: it is {listed(kinds)}, or one of them with 'not-' before it", kind
    if bare == "addr" and len(what.parts("-")) != 2:
        return f"a filter by addr needs two addresses, `FROM-TO`, and has {len(what.parts('-'))}", what
    return None


def too_many_filters(line: str) -> Finding | None:
    filters = [key for key in keys_of(line) if key.name.text == "filter"]
    if len(filters) <= MOST_FILTERS:
        return None
    return f"this is a ninth filter, and a scheme has at most {MOST_FILTERS}", filters[MOST_FILTERS].name


def broken_limit(line: str) -> Finding | None:
    """Which limit of a slot or a scheme is broken, in the order in which damon looks for it."""
    slot = words_of(line)[1]
    if slot.number() > LAST_SLOT:
        return f"slot {slot.text} is above {LAST_SLOT}, the last slot", slot
    keys = list(keys_of(line))
    for wanted in (reversed_span, zero_reset, rising_marks, bad_filter):
        for key in keys:
            if reason := wanted(key):
                return reason, key.value
    return None


def reversed_span(key: Key) -> str | None:
    if key.name.text not in ("size", "count", "age"):
        return None
    low, high = key.values()
    return f"the minimum of '{key.name.text}', {low}, is above its maximum, {high}" if low > high else None


def zero_reset(key: Key) -> str | None:
    if key.name.text != "quota" or key.values()[1] > 0:
        return None
    return "the reset interval of 'quota' is 0, and must be at least 1 tick"


def rising_marks(key: Key) -> str | None:
    if key.name.text != "marks":
        return None
    high, mid, low = key.values()
    if mid > high:
        return f"the watermarks rise: mid, {mid}, is above high, {high}"
    return f"the watermarks rise: low, {low}, is above mid, {mid}" if low > mid else None


def bad_filter(key: Key) -> str | None:
    if key.name.text != "filter":
        return None
    values = key.values()
    if key.filter_kind() == "class" and values[0] > LAST_CLASS:
        return f"class {values[0]} is above {LAST_CLASS}, the last class"
    if key.filter_kind() != "addr":
        return None
    for value in values:
        if value % PAGE:
            return f"the address {value:#x} is not a multiple of {PAGE}"
    return f"FROM, {values[0]:#x}, is not below TO, {values[1]:#x}" if values[0] >= values[1] else None
