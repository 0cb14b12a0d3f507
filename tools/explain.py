#!/usr/bin/env python3
"""Says in words why damon rejects a text or the words of a command: the line, the word and the reason. Damon itself is asked."""
from __future__ import annotations

import argparse
import sys
from pathlib import Path

sys.path.insert(0, str(Path(__file__).resolve().parent))

from common import UsageError, opened, parser, run
from scripts import admin
from scripts.command_words import reason_of_words
from scripts.grammar import MOST_RESULTS, Piece
from scripts.journals import reason_of_journal
from scripts.judge import UNLAWFUL, USAGE, Fault, asked, fault_in, fault_of, live_fault_of, live_program, program
from scripts.reasons import Reason, reason_of

TOOL = "explain.py"
EXAMPLE = """\
example:
  tools/explain.py shop.damon
  tools/explain.py --words tune 0:cold:880:163840:32768

Damon is asked about the text, which is a script, a live script (damond is asked), a text of several
contexts or a journal, as its first line says; what it rejects is explained. A live script is not carried
out. Of a journal it is said what was expected at the line, as far as the lines before it tell.

--words explains words after `damon`, such as the goals of `tune`; it is the last option.

DAMON and DAMOND in the environment name the programs; without them, these are the ones that ./damon and
./damond build. The status is 0 if damon takes it, and 1 if it does not.
"""
REJECTED = 1
WIDTH = 100
"""The most characters that are shown of a line."""


def explained(script: bytes, fault: Fault) -> str:
    """The fault of a script with its reason, and the line with a mark under the word."""
    lines = script.decode("latin-1").split("\n")
    return told(f"line {fault.line}: {fault.kind}", reason_of(script, fault), lines[fault.line - 1] if fault.line <= len(lines) else None)


def told(head: str, found: Reason | None, line: str | None) -> str:
    """A fault with its reason, and the line, where there is one, with a mark under the word."""
    if found is None:
        return head + "\n"
    reason, place = found
    return f"{head}: {reason}\n" + (marked(line, place) if place is not None and line is not None else "")


def marked(line: str, place: Piece) -> str:
    """The part of the line around a place, and a mark under it."""
    first = max(0, place.start - WIDTH // 2)
    part = "".join(letter if " " <= letter <= "~" else "?" for letter in line[first : first + WIDTH])
    length = max(1, min(len(place.text), WIDTH // 2))
    return f"    {part}\n    {' ' * (place.start - first)}{'^' * length}\n"


def script_explained(text: bytes) -> str:
    """What is wrong with a script; nothing if damon takes it. Raises UsageError."""
    fault = fault_of(text)
    return explained(text, fault) if fault else ""


def live_explained(text: bytes) -> str:
    """The same of a live script. Raises UsageError."""
    if fault := live_fault_of(text):
        return explained(text, fault)
    numbers = {words[0]: int(words[1]) for words in map(str.split, text.decode("ascii").splitlines()) if words[0] in ("cap", "passes")}
    if (results := numbers["passes"] * numbers["cap"]) <= MOST_RESULTS:
        return ""
    ran = asked(live_program(), ["run"], text, keep_output=False)
    return f"{ran.stderr.decode().strip()}: {numbers['passes']} passes with cap {numbers['cap']} are {results}\n" if ran.returncode else ""


def admin_explained(text: bytes) -> str:
    """The same of the lines of several contexts: each that is no script. Raises UsageError."""
    ran = asked(program(), ["admin"], text, keep_output=True)
    if fault := fault_in(ran):
        lines = text.decode("latin-1").split("\n")
        return told(f"line {fault.line}: {fault.kind}", admin.reason_of_split(text, fault), lines[fault.line - 1])
    contexts, said = admin.contexts_of(text), ""
    for digit, fault in admin.faults_in(ran.stdout.decode("ascii")):
        context = contexts[digit]
        is_there = fault.line <= len(context.lines)
        place = f"line {context.numbers[fault.line - 1]}, " if is_there else ""
        said += told(f"{place}context {digit}, its line {fault.line}: {fault.kind}", reason_of(context.text(), fault),
                     context.lines[fault.line - 1] if is_there else None)
    return said


def journal_explained(text: bytes) -> str:
    """The same of a journal. Raises UsageError."""
    fault = fault_in(asked(program(), ["verify"], text, keep_output=False), UNLAWFUL)
    return f"line {fault.line}: {fault.kind}: {reason_of_journal(text, fault.line)}\n" if fault else ""


KINDS = {b"damon live": ("live script", live_explained), b"damon admin": ("text of contexts", admin_explained),
         b"damon journal": ("journal", journal_explained)}
"""How texts are explained, by how they begin; all others are scripts."""


def text_explained(text: bytes) -> int:
    name, explain = next((kind for start, kind in KINDS.items() if text.startswith(start)), ("script", script_explained))
    if said := explain(text):
        sys.stdout.write(said)
        return REJECTED
    print(f"damon takes this {name}")
    return 0


def words_explained(words: list[str]) -> int:
    """What is wrong with words after `damon`. Raises UsageError."""
    ran = asked(program(), words, b"", keep_output=False)
    if ran.returncode != USAGE:
        print("damon takes these words")
        return 0
    reason = reason_of_words(words)
    print(reason or ran.stderr.decode().strip())
    return REJECTED


def options_of() -> argparse.Namespace:
    """The options of this run. Raises UsageError."""
    result = parser(TOOL, "Says in words why damon rejects a text, or the words of a command.", EXAMPLE)
    result.add_argument("script", nargs="?", help="the text; `-`, the default, is standard input")
    result.add_argument("--words", nargs=argparse.REMAINDER, metavar="WORD", help="explain these words after `damon`, in place of a text")
    options = result.parse_args()
    if options.words is not None and options.script is not None:
        raise UsageError("--words takes no text")
    return options


def work() -> int:
    options = options_of()
    if options.words is not None:
        return words_explained(options.words)
    with opened(options.script or "-") as stream:
        return text_explained(stream.read())


if __name__ == "__main__":
    run(TOOL, work)
