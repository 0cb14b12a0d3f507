"""Names of targets that a user gives: as `TARGET=TEXT`, or in a file by addresses."""
from __future__ import annotations

import re
from typing import Iterable

from common import UsageError, opened_text

from .names import NamedArea, NamesError, named_areas_of

LABEL = re.compile(r"([0-9]{1,2})=(.*)")


def labels_of(words: list[str]) -> dict[int, str]:
    """The options --label as names by target. Raises UsageError."""
    labels = {}
    for word in words:
        match = LABEL.fullmatch(word)
        if not match:
            raise UsageError(f"--label needs TARGET=TEXT, and not {word!r}")
        labels[int(match[1])] = match[2]
    return labels


def names_read(path: str) -> list[NamedArea]:
    """The areas of a file of names. Raises UsageError that names the file."""
    with opened_text(path) as stream:
        try:
            return named_areas_of(stream)
        except NamesError as error:
            raise UsageError(f"{path}: {error}") from None


def check_targets(option: str, named: Iterable[int], targets: Iterable[int], whose: str) -> None:
    """Raises UsageError if an option names a target that is not there."""
    known = list(targets)
    for target in named:
        if target not in known:
            raise UsageError(f"{option} names target {target}, and {whose} {', '.join(map(str, known))}")


def check_labels(labels: Iterable[int], targets: Iterable[int], whose: str) -> None:
    """Raises UsageError if a label names a target that is not there."""
    check_targets("--label", labels, targets, whose)
