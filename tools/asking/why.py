"""Why a page was taken by a slot in an aggregation, or was not."""
from __future__ import annotations

from dataclasses import dataclass

from reports.events import Aggregation
from wording import counted

from .policy import Policy, PolicyError, Scheme
from .rows import Row, rows_seen

TAKEN, INACTIVE, NO_MATCH, FILTERED, NOT_CHOSEN, OPEN = "taken", "inactive", "no match", "filtered", "not chosen", "open"
"""What came of it. `open`: the report does not tell whether the row matched."""


@dataclass(frozen=True)
class Answer:
    """What came of a page in one slot."""

    slot: int
    action: str
    outcome: str
    reason: str
    row: Row | None
    """The row that held it, as the slot saw it."""


def answers_of(found: Aggregation, policy: Policy, target: int, address: int) -> list[Answer]:
    """The answers of all slots that are set. Raises PolicyError if the report is not one of this script."""
    return [answer_of(found, policy, slot, target, address) for slot in sorted(found.active)]


def answer_of(found: Aggregation, policy: Policy, slot: int, target: int, address: int) -> Answer:
    scheme = policy.schemes[slot]
    action = scheme.line.split(" ")[2]
    if not found.active[slot]:
        return Answer(slot, action, INACTIVE, "the slot is not active: no metric has made it so", None)
    row = next((row for row in rows_seen(found, policy, slot) if row.holds(target, address)), None)
    if row is None:
        raise PolicyError(f"at tick {found.tick} no region holds this page")
    choice = found.choices[slot]
    label = next((one.label for one in policy.ranges if one.target == target and one.start <= address < one.end), 0)
    passes, decider = scheme.decides(target, address, label)
    run = next((run for run in found.applied if (run.slot, run.target) == (slot, target) and run.start <= address < run.end), None)
    if run:
        check(passes and mismatch(row, scheme) is None and scored(row, run.score, policy, scheme), found, slot)
        return Answer(slot, action, TAKEN, f"taken with the score {run.score}; the lowest score that was taken is {choice.lowest}", row)
    if reason := mismatch(row, scheme):
        return Answer(slot, action, NO_MATCH, reason, row)
    if not passes:
        which = f"its filter {decider.text} decides" if decider else f"no filter applies to it, and the last one is {scheme.filters[-1].text}"
        return Answer(slot, action, FILTERED, f"the page does not pass: {which}", row)
    if reason := in_doubt(row, scheme):
        return Answer(slot, action, OPEN, reason, row)
    low, high = (policy.score(scheme, row.pages, row.count, age) for age in row.ages)
    check(choice.left == choice.taken and (not choice.taken or not row.is_sure or low <= (choice.lowest or 0)), found, slot)
    score = f"its score is {low}" if low == high else f"its score is from {low} to {high}"
    if not row.is_sure:
        score += " (the report does not tell whether the row was larger)"
    if not choice.left:
        return Answer(slot, action, NOT_CHOSEN, f"nothing is left of the quota; {score}", row)
    return Answer(slot, action, NOT_CHOSEN, f"the {counted(choice.left, 'page')} that were left of the quota went to others; {score}, "
                  f"and the lowest that was taken is {choice.lowest}", row)


def check(holds: bool, found: Aggregation, slot: int) -> None:
    """Raises PolicyError where the report says of a slot what its scheme cannot do."""
    if not holds:
        raise PolicyError(f"at tick {found.tick} slot {slot} has done what the script does not say: the report is of another script")


def scored(row: Row, score: int, policy: Policy, scheme: Scheme) -> bool:
    """Whether a row may have this score."""
    low, high = (policy.score(scheme, row.pages, row.count, age) for age in row.ages)
    return not row.is_sure or low <= score <= high


def mismatch(row: Row, scheme: Scheme) -> str | None:
    """Why a row certainly does not match."""
    for name, least, most in (("size", row.pages, row.pages), ("count", row.count, row.count), ("age", *row.ages)):
        low, high = scheme.spans.get(name, (least, most))
        if name == "size" and not row.is_sure:
            continue
        if most < low or high < least:
            value = f"{least}" if least == most else f"from {least} to {most}"
            return f"the row does not match: its {name} is {value}, and {name}={low},{high} is wanted"
    return None


def in_doubt(row: Row, scheme: Scheme) -> str | None:
    """Why it is not known whether a row matched."""
    low, high = scheme.spans.get("age", row.ages)
    if row.ages.least < low or high < row.ages.most:
        return f"the report does not tell the age of the row: it is from {row.ages.least} to {row.ages.most}, and age={low},{high} is wanted"
    if not row.is_sure and "size" in scheme.spans:
        return "the report does not tell the size of the row: a later slot may have cut it"
    return None
