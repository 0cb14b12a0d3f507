"""Says what was expected at a line of a journal that damon does not take, as far as the lines before it tell.

Each of these is right, since the line is the first that is rejected. What only the run itself determines, such as where regions
are cut, is not worked out again here: then it is said which numbers are left.
"""
from __future__ import annotations

import re
from dataclasses import dataclass, field

from units import PAGE
from wording import counted, listed

from .grammar import first_word
from .judge import fault_of
from .reasons import reason_of

HEADERS = {"damon journal 1": "damon script 1", "damon journal 2": "damon script 2"}
FORMS = {
    "prepare": re.compile(r"prepare (\d+) at (\d+)"), "check": re.compile(r"check (\d+) ([01]+)"), "void": re.compile(r"void (\d+)"),
    "aggregate": re.compile(r"aggregate (\d+) at (\d+)"), "call": re.compile(r"call (\d+) (\d+) (show|commit)"), "receipts": re.compile(r"receipts"),
    "seen": re.compile(r"seen (\d+) (\d+) 0x([0-9a-f]+) (\d+)"), "settled": re.compile(r"settled"),
    "answer": re.compile(r"answer (?:shown tick=(\d+) rows=(\d+)|ok rows=(\d+) void=(yes|no)|refused .+)"),
    "show": re.compile(r"show tick=(\d+) phase=(\w+) rows=(\d+)"), "row": re.compile(r"row .+"), "scheme": re.compile(r"scheme .+"),
    "end": re.compile(r"end ticks=(\d+) rows=(\d+) checks=(\d+) hits=(\d+)"),
}
"""The lines behind `begin`, but for those of a commit."""
SPELLED = {
    "prepare": "prepare PASS at POSITION", "check": "check PASS BITS", "void": "void PASS", "aggregate": "aggregate TICK at POSITION",
    "call": "call CONTROLLER INDEX show|commit", "seen": "seen WORKER TARGET ADDRESS TAG", "answer": "answer ..",
        "show": "show tick=T phase=PHASE rows=N",
    "end": "end ticks=T rows=N checks=N hits=N",
}
LAST_WORKER = 15
LEFT_TO_THE_RUN = "its form is right, and so are the numbers that the lines before it tell; the others only the run itself determines"


@dataclass
class State:
    """What the lines so far tell."""

    allowed: tuple[str, ...] = ("prepare", "call", "receipts")
    """The first words of the next line."""
    ended: int = 0
    """The passes that have ended."""
    prepared: int = 0
    """The pass that was prepared last."""
    position: int | None = 0
    """The random words that were drawn, where the lines tell."""
    rows: int | None = None
    """The rows, where the lines tell."""
    loads: int = 0
    hits: dict[int, int] = field(default_factory=dict)
    """The hits of each pass."""
    calls: dict[int, int] = field(default_factory=dict)
    """The next number of a call of each controller."""
    seen: dict[int, set[tuple[int, str]]] = field(default_factory=dict)
    """The pages in receipts with each tag."""
    worker: int = 0

    @property
    def between(self) -> tuple[str, ...]:
        """What may come when no call is open."""
        if self.prepared > self.ended:
            return ("check", "void", "call", "receipts")
        return ("prepare", "aggregate", "call", "receipts")


def reason_of_journal(text: bytes, number: int) -> str:
    """What was expected at this line of the text, counted from 1."""
    lines = text.decode("latin-1").split("\n")
    line = lines[number - 1] if number <= len(lines) else ""
    is_cut = number >= len(lines)
    if number == 1:
        return f"the first line must be exactly {listed(tuple(f'`{header}`' for header in HEADERS))}, and it is {line[:40]!r}"
    before = lines[: number - 1]
    if "begin" not in before:
        return reason_in_setup(before, line, is_cut)
    state = State()
    for earlier in before[before.index("begin") + 1 :]:
        follow(state, earlier)
    wanted = f"here must come {listed(tuple(f'`{SPELLED.get(word, word)}`' for word in state.allowed))}"
    if is_cut:
        return f"the text ends {'before the LF of this line' if line else f'after line {number - 1}'}: {wanted}"
    word = first_word(line)
    if word not in state.allowed:
        return f"{line[:40]!r}: {wanted}"
    if word in FORMS and not FORMS[word].fullmatch(line):
        return f"the line is not of the form `{SPELLED.get(word, word)}`"
    return wrong_number(state, line) or LEFT_TO_THE_RUN


def reason_in_setup(before: list[str], line: str, is_cut: bool) -> str:
    """Why a line of the setup is wrong: damon is asked of a script with the same lines."""
    script = "\n".join([HEADERS[before[0]], *before[1:], line, *([] if is_cut else [""])]).encode("latin-1")
    fault = fault_of(script)
    if fault and fault.line == len(before) + 1 and (reason := reason_of(script, fault)):
        return f"{fault.kind}: {reason[0]}"
    return "it may stand in a script, but not in a journal, which has no key of a scheme with its default"


def follow(state: State, line: str) -> None:
    """Takes a line that damon has accepted into what is known."""
    word = first_word(line)
    match = FORMS[word].fullmatch(line) if word in FORMS else None
    if word in ("commit", "attrs", "range", "drop", "metric", "cost") or word == "scheme" and state.allowed[-1] == "apply":
        return
    if word == "apply":
        state.allowed = ("answer",)
    elif match is None:
        return
    elif word == "prepare":
        state.prepared, state.position = int(match[1]), int(match[2])
        state.allowed = state.between
    elif word in ("check", "void"):
        end_pass(state, int(match[1]), match[2] if word == "check" else None)
    elif word == "aggregate":
        state.rows = state.position = None
        state.allowed = state.between
    elif word == "call":
        state.calls[int(match[1])] = int(match[2]) + 1
        state.allowed = ("answer",) if match[3] == "show" else ("attrs", "range", "scheme", "drop", "metric", "cost", "apply")
    elif word == "answer":
        found = match[2] or match[3]
        state.rows = int(found) if found else state.rows
        state.allowed = state.between
    elif word == "receipts":
        state.allowed = ("seen", "settled")
    elif word == "seen":
        state.worker = int(match[1])
        state.seen.setdefault(int(match[4]), set()).add((int(match[2]), match[3]))
    elif word == "settled":
        state.allowed = ("show",)
    elif word == "show":
        state.rows = int(match[3])
        state.allowed = ("row", "scheme", "end")


def end_pass(state: State, number: int, bits: str | None) -> None:
    """A pass ends, with these results of its checks; void, if there are none."""
    state.ended = number
    state.allowed = state.between
    state.position = None if bits is None or state.position is None else state.position + len(bits)
    if bits is not None:
        state.loads += len(bits)
        state.hits[number] = bits.count("1")


def wrong_number(state: State, line: str) -> str | None:
    """Which number of a line of the right form is not the one that the lines before it tell; None if that is not known."""
    word = first_word(line)
    match = FORMS[word].fullmatch(line) if word in FORMS else None
    if match is None:
        return None
    found: list[tuple[str, str, int | None]] = []
    if word == "prepare":
        found = [("PASS", match[1], state.ended + 1), ("POSITION", match[2], state.position)]
    elif word == "check":
        found = [("PASS", match[1], state.prepared), ("the number of BITS", f"{len(match[2])}", state.rows)]
    elif word == "void":
        found = [("PASS", match[1], state.prepared)]
    elif word == "aggregate":
        found = [("TICK", match[1], state.ended), ("POSITION", match[2], state.position)]
    elif word == "call":
        found = [(f"INDEX of controller {match[1]}", match[2], state.calls.get(int(match[1]), 0))]
    elif word == "answer":
        found = [("tick", match[1] or "", state.ended if match[1] else None)]
    elif word == "seen":
        return wrong_receipt(state, *match.groups())
    elif word == "settled":
        return lacking_receipts(state)
    elif word == "show":
        found = [("tick", match[1], state.ended)]
    elif word == "end":
        found = [("ticks", match[1], state.ended), ("rows", match[2], state.rows), ("checks", match[3], state.loads), ("hits", match[4],
            sum(state.hits.values()))]
    return next((f"{name} is {given}, and must be {wanted}" for name, given, wanted in found if wanted is not None and given != f"{wanted}"), None)


def wrong_receipt(state: State, worker: str, target: str, address: str, tag: str) -> str | None:
    if int(worker) > LAST_WORKER:
        return f"WORKER is {worker}, and the last one there can be is {LAST_WORKER}"
    if int(worker) < state.worker:
        return f"WORKER is {worker} after {state.worker}: the receipts go by workers"
    if int(address, 16) % PAGE:
        return f"ADDRESS is 0x{address}, which is not the first byte of a page"
    return f"TAG is {tag}, and the last pass that was prepared is {state.prepared}" if int(tag) > state.prepared else None


def lacking_receipts(state: State) -> str | None:
    """A hit needs a receipt of a touch of its page, whose tag is its pass."""
    for number, hits in state.hits.items():
        if hits > len(state.seen.get(number, ())):
            pages = counted(len(state.seen.get(number, ())), "page")
            return f"pass {number} has {counted(hits, 'hit')}, and receipts with its tag for {pages}: each hit needs one of its page"
    return None
