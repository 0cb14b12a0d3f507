"""Edits that make hostile inputs out of valid ones: of bytes, of words, of lines, and aimed at rules of the formats."""
import random
import re
from typing import Callable, List, Sequence

Edit = Callable[[random.Random, bytes, Sequence[bytes]], bytes]

# Numbers at the limits of the formats and of types, and spellings that no number has.
NUMBERS = [
    b"0", b"1", b"2", b"3", b"4", b"15", b"16", b"17", b"63", b"64", b"65", b"99", b"100", b"255", b"256", b"999", b"1000", b"1001", b"1023",
    b"4095", b"4096", b"4097", b"65535", b"65536", b"999999", b"1000000", b"1000001", b"1048575", b"1048576", b"1048577", b"4194304", b"16777216",
    b"16777217", b"4294967295", b"4294967296", b"9223372036854775807", b"18446744073709551615", b"18446744073709551616", b"00", b"01", b"-1", b"+1",
    b"1 ", b"0x1", b"",
]
ADDRESSES = [
    b"0x0", b"0x1", b"0xfff", b"0x1000", b"0x1001", b"0x2000", b"0x10000", b"0xffff000", b"0x7ffffffffffff000", b"0x8000000000000000",
    b"0xffffffffffffffff", b"0x10000000000000000", b"0x00", b"0X1000", b"0x", b"0xABC000", b"1000",
]
# Words of the formats, which edits put where other words stand.
WORDS = [
    b"begin", b"end", b"show", b"arm", b"finish", b"step", b"touch", b"sweep", b"commit", b"apply", b"attrs", b"range", b"scheme", b"drop", b"metric",
    b"cost", b"target", b"seed", b"unit", b"cap", b"passes", b"worker", b"controller", b"receipts", b"settled", b"seen",
    b"prepare", b"check", b"void", b"aggregate", b"call", b"answer", b"at", b"yes", b"no", b"pageout", b"stat", b"cold", b"hot",
    b"quota=1,1", b"time=1", b"age=0,1", b"size=1,2",
]
BYTES = b"\x00\t\n\r -+0123456789abcdefx:=,.\x7f\x80\xff"


# ---- bytes


def set_byte(rng: random.Random, text: bytes, others: Sequence[bytes]) -> bytes:
    at = rng.randrange(len(text) + 1)
    return text[:at] + bytes([rng.choice(BYTES)]) + text[at + 1:]


def insert_byte(rng: random.Random, text: bytes, others: Sequence[bytes]) -> bytes:
    at = rng.randrange(len(text) + 1)
    return text[:at] + bytes([rng.choice(BYTES)]) + text[at:]


def cut_bytes(rng: random.Random, text: bytes, others: Sequence[bytes]) -> bytes:
    at = rng.randrange(len(text) + 1)
    return text[:at] + text[at + rng.choice((1, 1, 2, 5, 40)):]


def cut_end(rng: random.Random, text: bytes, others: Sequence[bytes]) -> bytes:
    return text[:rng.randrange(len(text) + 1)]


def append_bytes(rng: random.Random, text: bytes, others: Sequence[bytes]) -> bytes:
    return text + rng.choice((b"x", b"\n", b"end\n", b" ", b"\x00", text[-20:]))


# ---- words


def on_word(rng: random.Random, text: bytes, change: Callable[[List[bytes], int], None]) -> bytes:
    """Changes a word of a line by what is done to the list of the line's words."""
    lines = text.split(b"\n")
    at = rng.randrange(len(lines))
    words = lines[at].split(b" ")
    change(words, rng.randrange(len(words)))
    lines[at] = b" ".join(words)
    return b"\n".join(lines)


def set_word(rng: random.Random, text: bytes, others: Sequence[bytes]) -> bytes:
    def change(words: List[bytes], at: int) -> None:
        old = words[at]
        if old.startswith(b"0x"):
            words[at] = rng.choice(ADDRESSES)
        elif re.fullmatch(rb"[0-9]+", old):
            words[at] = rng.choice(NUMBERS)
        elif rng.random() < 0.5 and re.search(rb"[0-9]", old):
            words[at] = re.sub(rb"[0-9]+", lambda _: rng.choice(NUMBERS), old, count=1)
        else:
            words[at] = rng.choice(WORDS)

    return on_word(rng, text, change)


def step_number(rng: random.Random, text: bytes, others: Sequence[bytes]) -> bytes:
    """One number of the text, one greater or smaller, in its spelling: so a position, tick, count or limit is just off."""
    found = list(re.finditer(rb"(?<![0-9a-fx])(0x[0-9a-f]+|[0-9]+)(?![0-9a-f])", text))
    if not found:
        return text
    it = rng.choice(found)
    old = it.group()
    if old.startswith(b"0x"):
        new = b"%#x" % max(0, int(old, 16) + rng.choice((-4096, -1, 1, 4096)))
    else:
        new = b"%d" % max(0, int(old) + rng.choice((-1, 1)))
    return text[: it.start()] + new + text[it.end():]


def copy_word(rng: random.Random, text: bytes, others: Sequence[bytes]) -> bytes:
    return on_word(rng, text, lambda words, at: words.insert(at, words[at]))


def drop_word(rng: random.Random, text: bytes, others: Sequence[bytes]) -> bytes:
    return on_word(rng, text, lambda words, at: words.__delitem__(at))


def swap_words(rng: random.Random, text: bytes, others: Sequence[bytes]) -> bytes:
    def change(words: List[bytes], at: int) -> None:
        other = rng.randrange(len(words))
        words[at], words[other] = words[other], words[at]

    return on_word(rng, text, change)


# ---- lines


def on_lines(rng: random.Random, text: bytes, change: Callable[[List[bytes], int], None]) -> bytes:
    lines = text.splitlines(keepends=True) or [b"\n"]
    change(lines, rng.randrange(len(lines)))
    return b"".join(lines)


def drop_line(rng: random.Random, text: bytes, others: Sequence[bytes]) -> bytes:
    return on_lines(rng, text, lambda lines, at: lines.__delitem__(at))


def copy_line(rng: random.Random, text: bytes, others: Sequence[bytes]) -> bytes:
    return on_lines(rng, text, lambda lines, at: lines.insert(rng.randrange(len(lines)), lines[at]))


def repeat_line(rng: random.Random, text: bytes, others: Sequence[bytes]) -> bytes:
    """A line many times: so a limit on how often it may stand is passed."""
    return on_lines(rng, text, lambda lines, at: lines.__setitem__(slice(at, at), [lines[at]] * rng.choice((2, 16, 17, 64, 65))))


def swap_lines(rng: random.Random, text: bytes, others: Sequence[bytes]) -> bytes:
    def change(lines: List[bytes], at: int) -> None:
        other = rng.choice((at + 1, rng.randrange(len(lines)))) % len(lines)
        lines[at], lines[other] = lines[other], lines[at]

    return on_lines(rng, text, change)


def foreign_line(rng: random.Random, text: bytes, others: Sequence[bytes]) -> bytes:
    lines = rng.choice(others).splitlines(keepends=True) or [b"end\n"]
    return on_lines(rng, text, lambda own, at: own.insert(at, rng.choice(lines)))


def foreign_end(rng: random.Random, text: bytes, others: Sequence[bytes]) -> bytes:
    """The front of one text and the end of another, cut at lines."""
    front = text.splitlines(keepends=True)
    back = rng.choice(others).splitlines(keepends=True)
    return b"".join(front[: rng.randrange(len(front) + 1)] + back[rng.randrange(len(back) + 1):])


# ---- rules of the formats


def other_version(rng: random.Random, text: bytes, others: Sequence[bytes]) -> bytes:
    return re.sub(rb"\A(damon [a-z]+ )([0-9])", lambda it: it.group(1) + rng.choice((b"1", b"2", b"3", b"01")), text)


def other_line_end(rng: random.Random, text: bytes, others: Sequence[bytes]) -> bytes:
    return text.replace(b"\n", b"\r\n", rng.choice((1, -1)))


def drop_last_line_end(rng: random.Random, text: bytes, others: Sequence[bytes]) -> bytes:
    return text[:-1] if text.endswith(b"\n") else text + b"\n"


def with_line(line: Callable[[random.Random], bytes]) -> Edit:
    """An edit that puts a new line somewhere."""

    def edit(rng: random.Random, text: bytes, others: Sequence[bytes]) -> bytes:
        return on_lines(rng, text, lambda lines, at: lines.insert(at, line(rng) + b"\n"))

    return edit


def a_number(rng: random.Random) -> bytes:
    return rng.choice(NUMBERS)


def an_address(rng: random.Random) -> bytes:
    return rng.choice(ADDRESSES)


SCHEMES = (b"stat", b"pageout quota=4096,1", b"cold age=1,0", b"stat quota=4096,5 time=9", b"hot")
NEW_LINES: List[Callable[[random.Random], bytes]] = [
    lambda rng: b"seed " + a_number(rng),
    lambda rng: b"target " + an_address(rng) + b" " + a_number(rng),
    lambda rng: b"range 0 " + an_address(rng) + b" " + an_address(rng) + b" " + a_number(rng),
    lambda rng: b"attrs " + b" ".join(a_number(rng) for _ in range(3)),
    lambda rng: b"scheme " + a_number(rng) + b" " + rng.choice(SCHEMES),
    lambda rng: b"drop " + a_number(rng),
    lambda rng: b"metric " + a_number(rng),
    lambda rng: b"cost " + a_number(rng) + b" " + a_number(rng),
    lambda rng: b"touch 0 " + an_address(rng),
    lambda rng: b"sweep 0 " + an_address(rng) + b" " + an_address(rng),
    lambda rng: b"step " + a_number(rng),
    lambda rng: b"prepare " + a_number(rng) + b" at " + a_number(rng),
    lambda rng: b"check " + a_number(rng) + b" " + rng.choice((b"0", b"1", b"01", b"000")),
    lambda rng: b"call " + rng.choice((b"0", b"3", b"4")) + b" " + rng.choice((b"0", b"1")) + b" " + rng.choice((b"show", b"commit", b"stop")),
    lambda rng: b"seen " + rng.choice((b"0", b"1", b"15", b"16")) + b" 0 " + an_address(rng) + b" " + a_number(rng),
]

EDITS: List[Edit] = [
    set_byte, insert_byte, cut_bytes, cut_end, append_bytes,
    set_word, set_word, step_number, step_number, copy_word, drop_word, swap_words,
    drop_line, copy_line, repeat_line, swap_lines, foreign_line, foreign_end,
    other_version, other_line_end, drop_last_line_end,
    *(with_line(line) for line in NEW_LINES),
]


def edited(rng: random.Random, text: bytes, others: Sequence[bytes]) -> bytes:
    """The text with one edit. `others` are texts from which lines are taken."""
    return rng.choice(EDITS)(rng, text or b"\n", others)
