"""Says in words why a number or an address is misspelt."""
from __future__ import annotations

from .grammar import Field

LOWER_HEX = "0123456789abcdef"
MOST_DIGITS = 16
"""The most digits of an address."""


def misspelling(word: str, field: Field) -> str | None:
    """What is wrong with the word as the value of this field; None if nothing is."""
    return number_misspelling(word, field) if field.bits else address_misspelling(word)


def number_misspelling(word: str, field: Field) -> str | None:
    most = (1 << field.bits) - 1
    if not word:
        return f"{field.name} is empty, and must be a decimal number"
    if word.lower().startswith("0x"):
        return f"{word!r} is an address, and {field.name} is a decimal number"
    if wrong := next((letter for letter in word if not "0" <= letter <= "9"), None):
        return f"{word!r} is not a decimal number: {wrong!r} is not a digit"
    if word[0] == "0" and word != "0":
        return f"{word!r} has a leading zero"
    if int(word) > most:
        return f"{word} is above {most}, the greatest {field.name}"
    return None


def address_misspelling(word: str) -> str | None:
    if not word:
        return "an address is empty"
    if not word.startswith("0x"):
        return f"{word!r} is not an address: it must begin with 0x"
    digits = word[2:]
    if not digits:
        return "'0x' has no digits"
    if wrong := next((letter for letter in digits if letter not in LOWER_HEX), None):
        upper = " in lower case" if wrong in "ABCDEF" else ""
        return f"{word!r} is not an address: {wrong!r} is not a hexadecimal digit{upper}"
    if digits[0] == "0" and digits != "0":
        return f"{word!r} has a leading zero"
    if len(digits) > MOST_DIGITS:
        return f"{word!r} has {len(digits)} digits, and an address has at most {MOST_DIGITS}"
    return None
