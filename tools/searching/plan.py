"""Reads a plan: which workloads are run with which settings. `docs/SEARCH.md` shows one."""
from __future__ import annotations

import re
import tomllib
from pathlib import Path
from string import Formatter
from typing import Any, Mapping, NamedTuple

from common import UsageError
from scripts.grammar import HEADERS, first_word
from tracing.clocks import CLOCKS
from tracing.commits import PARTS
from tracing.forms import FORMS
from tracing.kept import interval_of, is_kept, kept_at
from tracing.lackey import KINDS

from .measures import COMMANDS, MEASURES, OF_MEMORY, RECLAIM, REPLAY, measures_by
from .questions import EACH, Question, aim_of, condition_of
from .quotas import COLD, HOT

SETTINGS = ("interval", "unit", "cap", "min", "max", "aggr")
"""The settings of a point, in the order of the columns; the seed comes last."""
SEED = "seed"
PASSES = "passes"
"""In place of `interval`: that of each kept trace which makes about this number of passes."""
TUNE = "tune"
"""The command of damon that takes goals."""
TUNED = "tuned"
"""What it has beside the measures of `replay`: the bytes at the end of all quotas that follow goals."""
OF_TRACES: dict[str, Any] = {"interval": 10_000, "unit": 1, "min": 10, "max": 100, "aggr": 20, SEED: 1}
"""What holds where a plan with traces does not say it, as in tools/trace_to_script.py; `cap` is `max`."""
NAME = re.compile(r"[a-z][a-z0-9_]*")
PLACED = re.compile(r"([^:]+):(.+)")
RANGE = {"from", "to", "step"}
MOST_VALUES = 1_000_000

Value = int | str


class Source(NamedTuple):
    """How traces are read."""

    clock: str
    form: str | None
    kinds: tuple[str, ...]
    gap: int


Reading = tuple[Path, Source, int | None, float, int | None]
"""The folder of a trace, how it is read, the version of the rules, what is hot, and the target that is measured."""


class Plan(NamedTuple):
    """What is run, and what is measured."""

    command: str
    """That of damon, by which scripts are run."""
    goals: tuple[str, ...]
    """Those of quotas, for the command `tune`; they may have placeholders."""
    version: int | None
    """That of the rules; None for that of a script."""
    workloads: tuple[str, ...]
    """Paths as the plan has them."""
    are_traces: bool
    source: Source
    settings: Mapping[str, tuple[Value, ...]]
    """The values of `SETTINGS` that the plan names or that have a default."""
    values: Mapping[str, tuple[Value, ...]]
    """Those of the placeholders."""
    seeds: tuple[Value, ...]
    schemes: tuple[str, ...]
    commits: tuple[tuple[str, str], ...]
    """Each an interval and a line of a commit; both may have placeholders."""
    hot: float
    target: int | None
    """The target whose pages are measured; None for all."""
    measures: tuple[str, ...]
    question: Question
    folder: Path = Path()
    """Where the paths of workloads begin."""
    intervals: Mapping[tuple[str, Value], int] = {}
    """The interval of each trace for each number of passes; none where the plan says the intervals itself."""
    is_fixed: bool = False
    """Whether each region is a range of its own, so that none is ever merged or split."""

    @property
    def columns(self) -> list[str]:
        """The names of what makes up a run."""
        return ["workload", *SETTINGS, *self.values, SEED]

    @property
    def reading(self) -> Reading:
        """How a trace becomes a workload: plans with the same have the same workloads."""
        return self.folder, self.source, self.version, self.hot, self.target

    @property
    def is_tuned_memory(self) -> bool:
        """Whether it is asked what quotas that follow goals put out, which a second run of `reclaim` tells."""
        return self.command == TUNE and not OF_MEMORY.isdisjoint(self.measures)


def plan_of(path: str, trace: Path | None = None) -> Plan:
    """A plan, with this trace in place of its own if one is given. Raises UsageError that names the file."""
    try:
        with open(path, "rb") as stream:
            members = tomllib.load(stream)
    except OSError as error:
        raise UsageError(f"{path}: {error.strerror}") from None
    except (tomllib.TOMLDecodeError, UnicodeDecodeError) as error:
        raise UsageError(f"{path}: {error}") from None
    own = {} if trace is None else {"traces": [trace.name]}
    try:
        return plan_from(Table({**members, **own}, "the plan"), Path(path).parent if trace is None else trace.parent)
    except UsageError as error:
        raise UsageError(f"{path}: {error}") from None


class Table:
    """A table of the plan, whose members are taken one after another."""

    def __init__(self, members: dict[str, Any], name: str) -> None:
        self.members = dict(members)
        self.name = name

    def take(self, name: str, kind: type, default: Any) -> Any:
        """A member of this type. Raises UsageError."""
        value = self.members.pop(name, default)
        if not isinstance(value, kind) or isinstance(value, bool) != (kind is bool):
            raise UsageError(f"{name} of {self.name} must be {WORDS[kind]}")
        return value

    def strings(self, name: str) -> tuple[str, ...]:
        """A member that is a list of texts."""
        found = self.take(name, list, [])
        if not all(isinstance(one, str) and one.isprintable() for one in found):
            raise UsageError(f"{name} of {self.name} must be a list of texts, each one line")
        return tuple(found)

    def lines(self, name: str) -> tuple[str, ...]:
        """A member that is a list of lines of a script, with placeholders."""
        found = self.strings(name)
        for line in found:
            if not line.isascii():
                raise UsageError(f"{name} of {self.name} has a character that is not ASCII: {line!r}")
        return found

    def table(self, name: str) -> Table:
        return Table(self.take(name, dict, {}), f"[{name}]")

    def end(self) -> None:
        """Raises UsageError for a member that nobody took."""
        for name in self.members:
            raise UsageError(f"{self.name} has {name!r}, which is not known there")


WORDS: dict[type, str] = {bool: "true or false", str: "a text", int: "a whole number", float: "a number", list: "a list", dict: "a table"}


def plan_from(table: Table, folder: Path) -> Plan:
    """Raises UsageError for the first thing that is wrong."""
    traces, scripts = table.strings("traces"), table.strings("scripts")
    if bool(traces) == bool(scripts):
        raise UsageError("the plan needs one of `traces` and `scripts`, a list of paths")
    command = table.take("command", str, REPLAY)
    if command not in (*COMMANDS, TUNE):
        raise UsageError(f"command is {command!r}, and must be one of {', '.join((*COMMANDS, TUNE))}")
    goals, version = table.lines("goals"), table.take("version", int, 0)
    if bool(goals) != (command == TUNE):
        raise UsageError(f'goals, as `damon tune` takes them, and command = "{TUNE}" need each other')
    if version not in (0, *HEADERS):
        raise UsageError(f"version is {version}, and must be one of {', '.join(map(str, HEADERS))}")
    source = source_of(table, bool(traces))
    settings = settings_of(table.table("settings"), bool(traces))
    passes = settings.pop(PASSES, ())
    intervals = {(name, count): interval_at(folder / name, count) for name in traces for count in passes}
    settings |= {"interval": passes} if passes else {}
    values = values_of(table.table("values"))
    seeds, is_fixed = settings.pop(SEED, ()), table.take("fixed", bool, False)
    schemes, commits = table.lines("schemes"), tuple(map(placed, table.lines("commits")))
    hot, target, measures = measures_of(table.table("measure"), command)
    question = question_of(table, settings, values, measures)
    table.end()
    if any(first_word(line) == "attrs" for _, line in commits) and any(one.unit == EACH for one in question.conditions):
        raise UsageError(f"commits that change attrs change how many aggregations there are, so no condition can have `{EACH}`")
    check_schemes(schemes)
    if command == TUNE and not OF_MEMORY.isdisjoint(measures):
        check_tuned(traces, goals, commits)
    check_placeholders([*schemes, *goals, *(text for commit in commits for text in commit)], values)
    return Plan(command, goals, version or None, traces or scripts, bool(traces), source, settings, values, seeds, schemes, commits,
                hot, target, measures, question, folder, intervals, is_fixed)


def source_of(table: Table, are_traces: bool) -> Source:
    if not are_traces:
        for name in ("clock", "form", "take", "gap", "fixed"):
            if name in table.members:
                raise UsageError(f"{name} is for traces, and the plan has scripts")
    clock, form = table.take("clock", str, "accesses"), table.take("form", str, "")
    kinds, gap = table.strings("take"), table.take("gap", int, 16)
    for name, value, allowed in (("clock", clock, CLOCKS), ("form", form, ("", *FORMS)),
                                 *(("take", kind, KINDS) for kind in kinds)):
        if value not in allowed:
            raise UsageError(f"{name} is {value!r}, and must be one of {', '.join(filter(None, allowed))}")
    if gap < 0:
        raise UsageError("gap must be at least 0")
    return Source(clock, form or None, kinds, gap)


def settings_of(table: Table, are_traces: bool) -> dict[str, tuple[Value, ...]]:
    """The settings that the plan names, and the defaults of traces."""
    for name in ("interval", PASSES):
        if name in table.members and not are_traces:
            raise UsageError(f"{name} is for traces, and the plan has scripts")
    if {"interval", PASSES} <= set(table.members):
        raise UsageError(f"the plan has one of interval and {PASSES}, and not both")
    result: dict[str, tuple[Value, ...]] = {}
    for name in (*SETTINGS, PASSES, SEED):
        if name in table.members:
            result[name] = listed(name, table.members.pop(name), texts=False)
        elif are_traces and name in OF_TRACES:
            result[name] = (OF_TRACES[name],)
    table.end()
    return result


def interval_at(path: Path, passes: Value) -> int:
    """The interval with which a kept trace has about this number of passes. Raises UsageError."""
    if not isinstance(passes, int) or passes < 1:
        raise UsageError(f"{PASSES} must be at least 1")
    if not is_kept(path):
        raise UsageError(f"{path} is no kept trace, and {PASSES} needs some: tools/trace_to_script.py --keep writes them")
    return interval_of(kept_at(path), passes)


def values_of(table: Table) -> dict[str, tuple[Value, ...]]:
    """The values of placeholders."""
    for name in table.members:
        if not NAME.fullmatch(name) or name in (*SETTINGS, SEED, "workload", "status", TUNED, *MEASURES):
            raise UsageError(f"a placeholder cannot be named {name!r}")
    return {name: listed(name, value, texts=True) for name, value in table.members.items()}


def listed(name: str, value: Any, texts: bool) -> tuple[Value, ...]:
    """The values of a number, of a list, or of a range. Raises UsageError."""
    if isinstance(value, dict):
        return ranged(name, value)
    found = value if isinstance(value, list) else [value]
    kinds: tuple[type, ...] = (int, str) if texts else (int,)
    for one in found:
        if not isinstance(one, kinds) or isinstance(one, bool) or not str(one).isprintable() or not str(one).isascii():
            raise UsageError(f"{name} has {one!r}, and needs whole numbers{' or texts of ASCII characters' if texts else ''}")
    if not found or len(set(found)) < len(found):
        raise UsageError(f"{name} needs at least one value, and none of them twice")
    return tuple(found)


def ranged(name: str, value: dict[str, Any]) -> tuple[Value, ...]:
    """The values of `{ from = 5, to = 40, step = 5 }`, both ends included; the step is 1 if it is not given."""
    if not {"from", "to"} <= set(value) <= RANGE or not all(type(one) is int for one in value.values()):
        raise UsageError(f"{name} needs a range such as {{ from = 5, to = 40, step = 5 }}")
    first, last, step = value["from"], value["to"], value.get("step", 1)
    if not 0 <= first <= last or step < 1 or (last - first) // step >= MOST_VALUES:
        raise UsageError(f"{name} needs a range with `from` at most `to`, a step from 1, and at most {MOST_VALUES} values")
    return tuple(range(first, last + 1, step))


def placed(text: str) -> tuple[str, str]:
    """A commit `INTERVAL:LINE` in its two parts. Raises UsageError."""
    match = PLACED.fullmatch(text)
    if not match or first_word(match[2]) not in PARTS:
        raise UsageError(f"a commit needs INTERVAL:LINE, with a line that begins with one of {', '.join(PARTS)}, and not {text!r}")
    if "{" not in match[1] and not match[1].isdecimal():
        raise UsageError(f"a commit comes before an interval, which is a number from 0: {text!r}")
    if first_word(match[2]) == "range":
        raise UsageError(f"the commits of a search cannot change ranges, by which exact counts are taken: {text!r}")
    return match[1], match[2]


def measures_of(table: Table, command: str) -> tuple[float, int | None, tuple[str, ...]]:
    """What share makes a page hot, which target is measured, and which columns there are."""
    hot = table.members.pop("hot", 0.5)
    if type(hot) not in (int, float) or not 0 < hot <= 1:
        raise UsageError("hot of [measure] must be above 0 and at most 1")
    target = table.take("target", int, -1)
    if target < -1:
        raise UsageError("target of [measure] must be the number of a target")
    own = (*measures_by(command), *([TUNED] if command == TUNE else []))
    columns = table.strings("columns") or own
    known = tuple(MEASURES) + (TUNED,) if command == TUNE else own
    for name in columns:
        if name in MEASURES and name not in known:
            raise UsageError(f'columns of [measure] has {name!r}, which needs command = "{RECLAIM}" or "{TUNE}"')
        if name not in known or columns.count(name) > 1:
            raise UsageError(f"columns of [measure] has {name!r}; it can have each of these once: {', '.join(known)}")
    table.end()
    return float(hot), None if target < 0 else target, columns


def question_of(table: Table, settings: Mapping[str, tuple[Value, ...]], values: Mapping[str, tuple[Value, ...]],
                measures: tuple[str, ...]) -> Question:
    """What is asked of the points: conditions, and aims among those that meet them."""
    aims = table.members.pop("aim", [])
    texts = table.strings("conditions")
    table.members["aim"] = [aims] if isinstance(aims, str) else aims
    axes = {name: list(found) for name, found in {**settings, **values}.items() if name not in (SEED, "interval")}
    return Question(tuple(condition_of(text, measures) for text in texts),
                    tuple(aim_of(text, axes, measures) for text in table.strings("aim")))


def check_schemes(schemes: tuple[str, ...]) -> None:
    for line in schemes:
        if first_word(line) != "scheme":
            raise UsageError(f"a scheme needs a line that begins with `scheme `, and not {line!r}")


def check_tuned(traces: tuple[str, ...], goals: tuple[str, ...], commits: tuple[tuple[str, str], ...]) -> None:
    """Raises UsageError where the quotas of goals cannot be had from the report, so that a second run could have them."""
    kinds = [goal.split(":")[1:2] for goal in goals]
    if not traces or commits or any(kind not in ([HOT], [COLD]) for kind in kinds):
        raise UsageError(f"what goals put out is measured in plans of traces without commits, with goals of the kinds {HOT} and {COLD}")


def check_placeholders(texts: list[str], values: Mapping[str, tuple[Value, ...]]) -> None:
    """Raises UsageError if a placeholder has no values, or values have no placeholder."""
    used: set[str] = set()
    for text in texts:
        try:
            parts = list(Formatter().parse(text))
        except ValueError:
            raise UsageError(f"a brace without its other one in {text!r}") from None
        for _, name, spec, conversion in parts:
            if name is None:
                continue
            if name not in values or spec or conversion:
                raise UsageError(f"{text!r} has the placeholder {{{name}}}, and [values] has no values for it")
            used.add(name)
    for name in values:
        if name not in used:
            raise UsageError(f"[values] has {name}, and no scheme, commit or goal has {{{name}}}")
