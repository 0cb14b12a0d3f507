"""Packs columns of numbers into one block, which a browser unpacks into typed arrays."""
from __future__ import annotations

import base64
import sys
import zlib
from array import array
from typing import Sequence, TypedDict

SIZES = (("u1", "B"), ("u2", "H"), ("u4", "I"))
"""The names that the page has for whole numbers of 1, 2 and 4 bytes, and those of Python's arrays."""
FLOATS = "f8"
ALIGNMENT = 8
"""A typed array begins at a multiple of the size of its numbers."""


class Column(TypedDict):
    """Where a column is in the block."""

    type: str
    at: int
    length: int


class Block:
    """Columns one after another, each with the smallest numbers that hold its values."""

    def __init__(self) -> None:
        self.content = bytearray()

    def put(self, values: Sequence[int]) -> Column:
        """Adds a column of numbers from 0 to below 2^53."""
        most = max(values, default=0)
        for bytes_of, (name, code) in zip((1, 2, 4), SIZES):
            if most < 1 << 8 * bytes_of:
                return self.added(name, array(code, values))
        return self.put_floats(values)

    def put_floats(self, values: Sequence[float]) -> Column:
        """Adds a column of any numbers; what is not known is NaN."""
        return self.added(FLOATS, array("d", values))

    def added(self, name: str, values: array[int] | array[float]) -> Column:
        if sys.byteorder == "big":
            values.byteswap()
        column = Column(type=name, at=len(self.content), length=len(values))
        self.content += values.tobytes()
        self.content += bytes(-len(self.content) % ALIGNMENT)
        return column

    def text(self) -> str:
        """The block as a page has it: compressed, in letters."""
        return base64.b64encode(zlib.compress(bytes(self.content), 6)).decode()
