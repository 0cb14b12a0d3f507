"""Says in words why damon does not take the words of a command line, where its own line names all commands alike."""
from __future__ import annotations

import re

from wording import listed

from .grammar import LAST_SLOT
from .schemes import like

COMMANDS = ("replay", "json", "verify", "gen", "tune", "heat", "admin", "reclaim")
ALONE = ("replay", "json", "verify", "admin", "reclaim")
COLUMNS = ("8", "16", "64")
KINDS = ("metric", "hot", "cold")
MOST_GOALS = 16
GOAL = "SLOT:KIND:TARGET:LOW:HIGH"
NUMBER = re.compile(r"0|[1-9][0-9]*")
LIMITS = {"SLOT": (0, LAST_SLOT), "TARGET": (1, (1 << 32) - 1), "LOW": (0, (1 << 64) - 1), "HIGH": (0, (1 << 64) - 1)}


def reason_of_words(words: list[str]) -> str | None:
    """What is wrong with the words after `damon`; None if nothing is found."""
    if not words:
        return f"there is no command: it is {listed(COMMANDS)}"
    command, *rest = words
    if command.startswith("-"):
        return f"{command!r}: damon has no options; its page is docs/damon.1"
    if command == "run":
        return "'run' is a command of damond"
    if command not in COMMANDS:
        return f"there is no command {command!r}{like(command, COMMANDS)}: it is {listed(COMMANDS)}"
    if command in ALONE:
        return f"{command!r} takes no word after it, and here is {rest[0]!r}" if rest else None
    if command == "tune":
        return wrong_goals(rest)
    what = "a number of at most 64 bits" if command == "gen" else f"{listed(COLUMNS)} columns"
    if len(rest) != 1:
        return f"{command!r} takes one word, {what}, and here are {len(rest)}"
    if command == "heat":
        return None if rest[0] in COLUMNS else f"'heat' takes {what}, and not {rest[0]!r}"
    return f"'gen': {wrong_number('N', rest[0], (0, (1 << 64) - 1))}" if wrong_number("N", rest[0], (0, (1 << 64) - 1)) else None


def wrong_goals(goals: list[str]) -> str | None:
    if not 1 <= len(goals) <= MOST_GOALS:
        return f"'tune' takes 1 to {MOST_GOALS} goals {GOAL}, and here are {len(goals)}"
    return next((f"the goal {goal!r}: {wrong}" for goal in goals if (wrong := wrong_goal(goal))), None)


def wrong_goal(goal: str) -> str | None:
    """What is wrong with a goal; None if nothing is."""
    names, fields = GOAL.split(":"), goal.split(":")
    if len(fields) != len(names):
        return f"it has {len(fields)} fields, and needs {len(names)}, {GOAL}"
    for name, field in zip(names, fields):
        if name == "KIND":
            if field not in KINDS:
                return f"KIND is {listed(KINDS)}, and not {field!r}"
        elif wrong := wrong_number(name, field, LIMITS[name]):
            return wrong
    return f"LOW, {fields[3]}, is above HIGH, {fields[4]}" if int(fields[3]) > int(fields[4]) else None


def wrong_number(name: str, text: str, limits: tuple[int, int]) -> str | None:
    low, high = limits
    if not NUMBER.fullmatch(text):
        return f"{name} is a decimal number without a sign or a leading zero, and not {text!r}"
    return None if low <= int(text) <= high else f"{name} is from {low} to {high}, and not {text}"
