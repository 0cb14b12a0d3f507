"""Says in words why damon rejects a line of a script.

Damon names the line and the kind of fault; here is only looked for what in this line is of that kind, in
the order of `docs/FORMATS.md`. Where nothing is found, nothing is made up.
"""
from __future__ import annotations

from typing import Callable, Optional, Sequence

from units import MOST_PAGES, MOST_TARGETS, PAGE, SPACE_END
from wording import counted, listed

from . import schemes
from .context import Context, context_of
from .grammar import (LAST_CLASS, LEAST_REGIONS, MOST_AGGR, MOST_CALLS, MOST_CAP, MOST_CONTROLLERS, MOST_PASSES, MOST_STEPS, MOST_TOUCHES,
                      MOST_UNIT, MOST_WORK, MOST_WORKERS, Field, Piece, first_word, pass_work, words_of)
from .judge import Fault
from .schemes import Finding, like
from .spelling import misspelling

Reason = tuple[str, Optional[Piece]]
"""A reason in words, and the part of the line that it is about, if there is one."""
LIMITS = {"unit": (1, MOST_UNIT), "cap": (LEAST_REGIONS, MOST_CAP), "step": (1, MOST_STEPS), "passes": (1, MOST_PASSES)}
BLOCKS = {"worker": MOST_WORKERS, "controller": MOST_CONTROLLERS}
SHOWN = 40
"""The most characters of a word in a sentence."""


def reason_of(script: bytes, fault: Fault) -> Reason | None:
    """Why damon rejects this line; None if no reason of the fault's kind is found in it."""
    find = BY_KIND.get(fault.kind)
    context = context_of(script, fault.line)
    # The lines of another version of the format are not known here.
    if find is None or context.lines and context.version is None:
        return None
    return find(context)


def short(text: str) -> str:
    return repr(text if len(text) <= SHOWN else text[: SHOWN - 3] + "...")


def whole(context: Context) -> Piece:
    return Piece(context.line, 0)


def cut(context: Context) -> Reason:
    if context.rest:
        return f"the text ends before the LF of this line, {short(context.rest)}", None
    if not context.lines:
        return f"the text is empty, and its first line must be {wanted_header(context)}", None
    if context.commit_line:
        return f"the text ends in the commit that begins at line {context.commit_line}: `apply` is missing", None
    missing = "`end` is missing" if context.in_body else f"{listed(context.allowed)} must follow"
    return f"the text ends after line {context.number - 1}: {missing}", None


def after_end(context: Context) -> Reason:
    what = short(context.line) if context.line else "an empty line"
    return f"{what} after `end`: nothing may follow that line", whole(context)


def wanted_header(context: Context) -> str:
    return " or ".join(f"`{header}`" for header in context.headers.values())


def header(context: Context) -> Reason:
    line, wanted = context.line, f"the first line must be exactly {wanted_header(context)}"
    if line.removesuffix("\r") in context.headers.values():
        return f"{wanted}, and it ends with CR LF: lines end with LF alone", Piece("\r", len(line) - 1)
    if line.strip() in context.headers.values():
        return f"{wanted}, without a space before or after it", whole(context)
    if line.startswith("\xef\xbb\xbf"):
        return f"{wanted}, and it begins with a byte order mark", Piece(line[:3], 0)
    return f"{wanted}, and it is {short(line)}", whole(context)


def unexpected_word(context: Context) -> Reason:
    word = words_of(context.line)[0]
    here = f"here must come {listed(context.allowed)}"
    if context.commit_line:
        here = f"in the commit of line {context.commit_line} must come {listed(context.allowed)}"
    if not context.line.strip():
        return f"an empty line: {here}", None
    if word.text == "" or word.text[0] == "\t":
        return f"a space at the beginning of the line: {here}", Piece(context.line[0], 0)
    if word.text.endswith("\r"):
        return f"{short(word.text)}: lines end with LF alone, and this one with CR LF", Piece("\r", len(word.text) - 1)
    if word.text[0] in "#;/":
        return f"{short(context.line)}: a script has no comments", word
    if word.text not in context.fields and word.text != "scheme":
        return f"there is no line {short(word.text)}{like(word.text, (*context.fields, 'scheme'))}: {here}", word
    return f"{word.text!r} is not allowed at this place{why_not(context, word.text)}: {here}", word


def why_not(context: Context, word: str) -> str:
    """What to say of a second change of a slot in one commit, and of a cost in version 1."""
    if context.commit_line and word == "cost" and context.version == 1:
        return " (costs came with version 2)"
    if not context.commit_line or word not in ("scheme", "drop"):
        return ""
    before = [first_word(line) for line in context.lines[context.commit_line :]]
    return " (a commit changes one slot)" if "scheme" in before or "drop" in before else ""


def bad_form(context: Context) -> Reason | None:
    line = context.line
    for column, letter in enumerate(line):
        if not " " <= letter <= "~":
            name = {"\r": "a CR", "\t": "a tab"}.get(letter, f"the byte {ord(letter):#04x}")
            return f"{name}, and a line has only printable ASCII characters", Piece(letter, column)
    if "  " in line:
        return "two spaces: exactly one stands between two words", Piece("  ", line.index("  "))
    if line.endswith(" "):
        return "a space at the end of the line", Piece(" ", len(line) - 1)
    word = first_word(line)
    return schemes.wrong_form(line, context.version or 1) if word == "scheme" else wrong_count(line, word, context.fields[word])


def wrong_count(line: str, word: str, fields: Sequence[Field]) -> Reason | None:
    words = words_of(line)
    if len(words) - 1 == len(fields):
        return None
    form = " ".join([word, *(field.name for field in fields)])
    extra = words[len(fields) + 1] if len(words) - 1 > len(fields) else words[-1]
    return f"{counted(len(words) - 1, 'word')} after {word!r}, and the line is `{form}`", extra


def bad_number(context: Context) -> Reason | None:
    line = context.line
    if first_word(line) == "scheme":
        numbers = schemes.numbers_of(line)
    else:
        numbers = list(zip(words_of(line)[1:], context.fields[first_word(line)]))
    for word, field in numbers:
        if wrong := misspelling(word.text, field):
            return wrong, word
    return None


def out_of_limit(context: Context) -> Reason | None:
    words = words_of(context.line)
    name = words[0].text
    if name == "scheme":
        return schemes.too_many_filters(context.line)
    if name == "target":
        return bad_target(context, words[1], words[2])
    if name == "sweep":
        return bad_sweep(words[2], words[3])
    if name in BLOCKS:
        most = BLOCKS[name]
        return (f"this is {name} {most}, counted from 0, and there are at most {most}", None) if context.blocks(name) == most else None
    low, high = LIMITS[name]
    if low <= words[1].number() <= high:
        return None
    return f"{name} is {words[1].text}, and must be from {low} to {high}", words[1]


def bad_target(context: Context, base: Piece, pages: Piece) -> Reason | None:
    count, before = pages.number(), sum(target.pages for target in context.targets)
    if len(context.targets) == MOST_TARGETS:
        return f"this is target {MOST_TARGETS}, counted from 0, and there are at most {MOST_TARGETS}", None
    if base.number() % PAGE:
        return f"the base {base.text} is not a multiple of {PAGE}", base
    if not 1 <= count <= MOST_PAGES:
        return f"a target has from 1 to {MOST_PAGES} pages, and this one {count}", pages
    if base.number() + PAGE * count > SPACE_END:
        return f"the target ends at {base.number() + PAGE * count:#x}, above {SPACE_END:#x}", base
    if before + count > MOST_PAGES:
        return f"with this target there are {before + count} pages in all, and at most {MOST_PAGES} are allowed", pages
    return None


def bad_sweep(start: Piece, end: Piece) -> Reason | None:
    for word in (start, end):
        if word.number() % PAGE:
            return f"{word.text} is not a multiple of {PAGE}", word
    return (f"FROM, {start.text}, is not below TO, {end.text}", start) if start.number() >= end.number() else None


def bad_attrs(context: Context) -> Reason | None:
    least, most, aggr = words_of(context.line)[1:]
    if least.number() < LEAST_REGIONS:
        return f"min {least.text} is below {LEAST_REGIONS}", least
    if least.number() > most.number():
        return f"min {least.text} is above max {most.text}", least
    if not 1 <= aggr.number() <= MOST_AGGR:
        return f"aggr is {aggr.text}, and must be from 1 to {MOST_AGGR}", aggr
    return None


def over_cap(context: Context) -> Reason | None:
    most, cap = words_of(context.line)[2], context.one("cap")
    return (f"max {most.text} above cap {cap}", most) if most.number() > cap else None


def bad_range(context: Context) -> Reason | None:
    target, start, end, label = words_of(context.line)[1:]
    if len(context.ranges) >= context.one("cap"):
        return f"there are {len(context.ranges)} ranges before it, and cap is {context.one('cap')}", None
    if target.number() >= len(context.targets):
        return no_target(context, target)
    for word in (start, end):
        if word.number() % PAGE:
            return f"{word.text} is not a multiple of {PAGE}", word
    if start.number() >= end.number():
        return f"FROM, {start.text}, is not below TO, {end.text}", start
    span = context.targets[target.number()]
    for word, is_inside in ((start, start.number() >= span.base), (end, end.number() <= span.end)):
        if not is_inside:
            return f"{word.text} is outside target {target.text}, from {span.base:#x} to {span.end:#x}", word
    pages, unit = (end.number() - start.number()) // PAGE, context.one("unit")
    if pages < unit:
        return f"the range has {counted(pages, 'page')}, and a region has at least {unit} (`unit`)", end
    if label.number() > LAST_CLASS:
        return f"class {label.text} is above {LAST_CLASS}", label
    return not_after_the_last_range(context, target, start)


def not_after_the_last_range(context: Context, target: Piece, start: Piece) -> Reason | None:
    if not context.ranges:
        return None
    before = context.ranges[-1]
    if target.number() < before.target:
        return f"target {target.text} after target {before.target} (line {before.line}): ranges go by target, then address", target
    if target.number() == before.target and start.number() < before.end:
        return f"{start.text} is below {before.end:#x}, the end of the range of line {before.line}", start
    return None


def no_target(context: Context, target: Piece) -> Reason:
    return f"there is no target {target.text}: the last one is target {len(context.targets) - 1}", target


def ranges_over_max(context: Context) -> Reason | None:
    most, number = context.setup.numbers("attrs")[0][1], len(context.ranges) + 1
    return (f"this is range {number}, counted from 1, and max is {most}", None) if number > most else None


def set_twice(context: Context) -> Reason:
    slot = words_of(context.line)[1]
    number = context.slot_line(slot.number())
    return f"`{context.lines[number - 1]}` (line {number}) has set slot {slot.text} already", slot


def outside(context: Context) -> Reason | None:
    target, *addresses = words_of(context.line)[1:]
    if target.number() >= len(context.targets):
        return no_target(context, target)
    span = context.targets[target.number()]
    lasts = [addresses[0].number(), *(end.number() - PAGE for end in addresses[1:])]
    for word, last in zip(addresses, lasts):
        if not span.base <= last < span.end:
            return f"{word.text} is outside target {target.text}, from {span.base:#x} to {span.end:#x}", word
    return None


def too_much_work(context: Context) -> Reason:
    if context.is_live:
        if (touches := context.touches()) > MOST_TOUCHES:
            return f"with this line there are {touches} touches of all workers, and at most {MOST_TOUCHES} are allowed", None
        return f"with this line there are more than {MOST_CALLS} calls of all controllers", None
    cap, work = context.one("cap"), context.work()
    return (f"with this line the work is {work.total}, and at most {MOST_WORK} is allowed; {work.passes} of it are "
            f"`arm` and `finish`, each of which counts {pass_work(cap)} with cap {cap}: a smaller cap, fewer passes "
            "or fewer touches help", None)


def bad_scheme(context: Context) -> Finding | None:
    return schemes.broken_limit(context.line)


BY_KIND: dict[str, Callable[[Context], Reason | None]] = {
    "text after end": after_end,
    "input ends early": cut,
    "no header": header,
    "unexpected word": unexpected_word,
    "bad form": bad_form,
    "bad number": bad_number,
    "out of limit": out_of_limit,
    "bad attrs": bad_attrs,
    "max over cap": over_cap,
    "bad range": bad_range,
    "ranges over max": ranges_over_max,
    "bad scheme": bad_scheme,
    "slot set twice": set_twice,
    "outside span": outside,
    "too much work": too_much_work,
}
"""How a reason is looked for, by the text of the kind of fault."""
