"""Amounts as damo spells them: times, sizes and shares, with a unit or in the unit of their option."""
from __future__ import annotations

import re
from fractions import Fraction

from common import UsageError

AMOUNT = re.compile(r"([0-9][0-9,]*(?:\.[0-9]+)?) ?([A-Za-z%_]*)")
NOT_BOUNDED = "max"
MICROSECONDS = {"ns": Fraction(1, 1000), "us": Fraction(1), "usec": Fraction(1), "ms": Fraction(1000), "msec": Fraction(1000),
                "s": Fraction(10**6), "sec": Fraction(10**6), "m": Fraction(60 * 10**6), "h": Fraction(3600 * 10**6), "d": Fraction(86_400 * 10**6)}
BYTES = {"B": 1, **{letters: 1 << 10 * power for power, letter in enumerate("KMGT", 1) for letters in (letter, f"{letter}B", f"{letter}iB")}}


def parts(text: str) -> tuple[Fraction, str]:
    """The number of an amount, and its unit, which may be missing. Raises UsageError."""
    match = AMOUNT.fullmatch(text)
    if not match:
        raise UsageError(f"{text!r} is not an amount, such as 5ms, 4K or 10%")
    return Fraction(match[1].replace(",", "")), match[2]


def microseconds(text: str, unit: str) -> Fraction | None:
    """A time; without a unit of its own it has this one. None if it is not bounded. Raises UsageError."""
    if text == NOT_BOUNDED:
        return None
    number, own = parts(text)
    if (own or unit) not in MICROSECONDS:
        raise UsageError(f"{text!r} is not a time: its unit is one of {', '.join(MICROSECONDS)}")
    return number * MICROSECONDS[own or unit]


def size(text: str) -> Fraction | None:
    """A number of bytes. None if it is not bounded. Raises UsageError."""
    if text == NOT_BOUNDED:
        return None
    number, unit = parts(text)
    if (unit or "B") not in BYTES:
        raise UsageError(f"{text!r} is not a size: its unit is one of {', '.join(BYTES)}")
    return number * BYTES[unit or "B"]


def permil(text: str) -> Fraction:
    """Thousandths: a plain number, or a percentage. Raises UsageError."""
    number, unit = parts(text)
    if unit not in ("", "%"):
        raise UsageError(f"{text!r} is neither a number of thousandths nor a percentage")
    return number * (10 if unit else 1)


def time_words(time: Fraction) -> str:
    """A time in its largest unit in which it is whole; else in nanoseconds, rounded up."""
    for unit in ("s", "ms", "us"):
        if time % MICROSECONDS[unit] == 0:
            return f"{time / MICROSECONDS[unit]}{unit}"
    return f"{-(-time // MICROSECONDS['ns'])}ns"


def share_words(part: int, whole: int) -> str:
    """A share as a percentage with at most two decimals, rounded up: so the whole part of what it stands for is `part` again."""
    hundredths = -(-10_000 * part // whole)
    return f"{hundredths / 100:.2f}".rstrip("0").rstrip(".") + "%"
