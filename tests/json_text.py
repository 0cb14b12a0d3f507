"""The text form of a report, made from its JSON lines with Python's own JSON parser.

Both forms of a report say the same: each number of the text is taken from a member of an object, and each
member is used once. So two reports agree number for number where this text is the text form.
"""
import json
from typing import Any, Dict, List

Members = Dict[str, Any]


def text_of(report: bytes) -> bytes:
    """Gives the text form; a ValueError or KeyError tells what is wrong with the lines."""
    lines: List[str] = []
    for line in report.decode("ascii").splitlines(keepends=True):
        if not line.endswith("\n"):
            raise ValueError(f"a line without LF: {line!r}")
        members = json.loads(line)
        if json.dumps(members, separators=(",", ":"), sort_keys=True) + "\n" != line:
            raise ValueError(f"not compact, or its members are not in order: {line!r}")
        lines += PARTS[members.pop("kind")](members)
        if members:
            raise ValueError(f"further members: {', '.join(members)}")
    return "".join(f"{line}\n" for line in lines).encode("ascii")


def shown(members: Members) -> List[str]:
    rows = [row_line(row) for row in members.pop("rows")]
    slots = [scheme_line(slot) for slot in members.pop("slots")]
    return [f"show tick={members.pop('tick')} phase={members.pop('phase')} rows={len(rows)}", *rows, *slots]


def aggregated(members: Members) -> List[str]:
    rows = [row_line(row) for row in members.pop("rows")]
    applied = members.pop("applied")
    lines = [f"aggregate tick={members.pop('tick')} threshold={members.pop('threshold')} rows={len(rows)}"]
    for choice in members.pop("choices"):
        # The runs come in the order of the slots.
        while applied and applied[0]["slot"] == choice["slot"]:
            lines.append(apply_line(applied.pop(0)))
        lines.append(slot_line(choice))
    if applied:
        raise ValueError(f"runs of no slot, or out of order: {applied}")
    return lines + rows


def committed(members: Members) -> List[str]:
    return [f"commit tick={members.pop('tick')} {members.pop('answer')}"]


def ended(members: Members) -> List[str]:
    return ["end " + " ".join(f"{name}={members.pop(name)}" for name in ("ticks", "rows", "checks", "hits"))]


PARTS = {"show": shown, "aggregate": aggregated, "commit": committed, "end": ended}


def row_line(row: Members) -> str:
    return "row {target} {start}-{end} count={count} last={last} age={age}".format(**all_of(row, 6))


def apply_line(run: Members) -> str:
    return "apply {slot} {action} {target} {start}-{end} score={score}".format(**all_of(run, 6))


def slot_line(choice: Members) -> str:
    members = all_of(choice, 5)
    if not members["active"]:
        if (members["left"], members["taken"], members["lowest"]) != (None, 0, None):
            raise ValueError(f"a slot that is not active, with a choice: {choice}")
        return f"slot {members['slot']} inactive"
    left, lowest = ("none" if members[name] is None else members[name] for name in ("left", "lowest"))
    return f"slot {members['slot']} left={left} taken={members['taken']} lowest={lowest}"


def scheme_line(slot: Members) -> str:
    members = all_of(slot, 8)
    members["active"] = "yes" if members["active"] else "no"
    numbers = " ".join(f"{name}={members[name]}" for name in ("active", "charged", "start", "tried", "applied", "exceeds"))
    return f"scheme {members['slot']} {members['action']} {numbers}"


def all_of(members: Members, count: int) -> Members:
    if len(members) != count:
        raise ValueError(f"not {count} members: {members}")
    return dict(members)
