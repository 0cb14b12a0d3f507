"""Whether what was built is of these sources, by what the files hold and not by their times.

A checkout that is copied, or whose files were changed to and fro, is not proved again.
"""
import hashlib
from functools import lru_cache
from pathlib import Path
from typing import Iterable

SOURCES = ("src", "specs", "proofs")


@lru_cache(maxsize=None)
def own_sum(crate: Path) -> str:
    """A checksum of the sources of one crate, as they are when it is first asked for."""
    total = hashlib.sha256()
    for part in SOURCES:
        for file in sorted((crate / part).rglob("*")):
            if file.is_file():
                total.update(f"{file.relative_to(crate)}\n".encode())
                total.update(hashlib.sha256(file.read_bytes()).digest())
    return total.hexdigest()


def sum_of(crates: Path, names: Iterable[str], lines: Iterable[str]) -> str:
    """A checksum of the sources of crates, and of their lines of `crates.txt`."""
    parts = [*sorted(lines), *(f"{name} {own_sum(crates / name)}" for name in sorted(names))]
    return hashlib.sha256("\n".join(parts).encode()).hexdigest()


def is_of(note: Path, total: str) -> bool:
    """Whether what stands beside this note was built of sources with this checksum."""
    return note.exists() and note.read_text() == total
