"""Runs: the script of a point and a seed, damon's answer, and what is measured of it."""
from __future__ import annotations

import re
from typing import Mapping, NamedTuple

from scripts.judge import OK
from scripts.setup import Script
from tracing.commits import commits_of

from .fixed import fixed_places
from .measures import OF_MEMORY, RECLAIM, ReportError, measured
from .plan import SEED, TUNE, TUNED, Plan, Value
from .points import Point, Points
from .quotas import goal_of, quota_commits
from .running import ran
from .table import DONE, PointError, Row
from .workloads import Key, Workload

LONGEST_STATUS = 200
TUNED_LINES = re.compile(r"(?:tuned [0-9]+ bytes=(?:[0-9]+|none)\n)+\Z")
"""What `damon tune` writes behind the last line of the report."""
NUMBER = re.compile(r"bytes=([0-9]+)")


class Inputs(NamedTuple):
    """What all runs of a search share."""

    plan: Plan
    points: Points
    workloads: Mapping[Key, Workload]
    program: str
    seconds: float
    """The most that a run may take."""


class Outcome(NamedTuple):
    """What came of a run."""

    status: str
    report: str | None
    """None where the run failed, as the status says."""


def row_of(inputs: Inputs, number: int) -> Row:
    """The row of a run."""
    point, seed = inputs.points.run(number)
    workload = inputs.workloads[point.key(inputs.plan.are_traces)]
    outcome = outcome_of(inputs, point, seed, workload)
    status, found = measured_of(inputs.plan, outcome, workload)
    if status == DONE and inputs.plan.is_tuned_memory:
        status, more = moved_by_quotas(inputs, point, seed, workload, outcome.report or "", found[TUNED])
        found |= more
    return [*first_cells(point, seed, workload), *[found.get(name, "") for name in inputs.plan.measures], status]


def outcome_of(inputs: Inputs, point: Point, seed: Value | None, workload: Workload) -> Outcome:
    """Makes a run."""
    try:
        script = script_of(inputs.plan, workload, point, seed)
        goals = [filled(goal, point.settings(workload)) for goal in inputs.plan.goals]
        ended = ran([inputs.program, inputs.plan.command, *goals], script, inputs.seconds)
    except PointError as error:
        return Outcome(one_line(str(error)), None)
    except OSError as error:
        return Outcome(one_line(f"{inputs.program}: {error.strerror}"), None)
    if ended is None:
        return Outcome(f"no answer within {inputs.seconds:g} s", None)
    if ended.status < 0:
        return Outcome(f"ended by signal {-ended.status}", None)
    if ended.status != OK:
        return Outcome(one_line(ended.errors) or f"status {ended.status}", None)
    return Outcome(DONE, ended.report)


def measured_of(plan: Plan, outcome: Outcome, workload: Workload) -> tuple[str, dict[str, str]]:
    """The status of a run whose report is read, and its measures where it is DONE."""
    if outcome.report is None:
        return outcome.status, {}
    report, tuned = outcome.report, None
    if plan.command == TUNE and (tuned := TUNED_LINES.search(report)):
        report = report[: tuned.start()]
    if plan.target is not None:
        report = of_target(report, plan.target)
    names = [name for name in plan.measures if plan.command != TUNE or name not in OF_MEMORY]
    try:
        found = measured(report, workload.truths, plan.hot, names)
    except ReportError as error:
        return one_line(str(error)), {}
    return DONE, {**found, TUNED: str(sum(map(int, NUMBER.findall(tuned[0]))))} if tuned else found


def moved_by_quotas(inputs: Inputs, point: Point, seed: Value | None, workload: Workload, report: str,
                    tuned: str) -> tuple[str, dict[str, str]]:
    """What the quotas of a run with goals put out and what came back: the same run by `damon reclaim`, with these quotas as commits."""
    plan, settings = inputs.plan, point.settings(workload)
    goals = [goal_of(filled(goal, settings)) for goal in plan.goals]
    try:
        commits, end = quota_commits(report, goals, [filled(line, settings) for line in plan.schemes])
    except ReportError as error:
        return one_line(str(error)), {}
    if str(end) != tuned:
        return f"the quotas end at {end} bytes, and damon says {tuned}", {}
    wanted = tuple(name for name in plan.measures if name in OF_MEMORY)
    again = plan._replace(command=RECLAIM, goals=(), commits=tuple(commits), measures=wanted)
    status, found = measured_of(again, outcome_of(inputs._replace(plan=again), point, seed, workload), workload)
    return status, {name: text for name, text in found.items() if name in wanted}


def of_target(report: str, target: int) -> str:
    """A report without what it says of other targets."""
    return re.sub(rf"^(?:row|apply [0-9]+ [a-z_]+) (?!{target} )[^\n]*\n", "", report, flags=re.MULTILINE)


def first_cells(point: Point, seed: Value | None, workload: Workload) -> Row:
    """The cells that say which run it is."""
    return [point.workload, *map(str, point.settings(workload).values()), str(seed_of(seed, workload))]


def seed_of(seed: Value | None, workload: Workload) -> Value:
    return workload.defaults[SEED] if seed is None else seed


def script_of(plan: Plan, workload: Workload, point: Point, seed: Value | None) -> bytes:
    """The script of a run. Whether it is one is for damon to say. Raises PointError."""
    found = point.settings(workload)
    places = fixed_places(workload.places, int(found["max"]), int(found["unit"])) if plan.is_fixed else workload.places
    setup = Script([workload.header, f"seed {seed_of(seed, workload)}", f"unit {found['unit']}", f"cap {found['cap']}",
                    f"attrs {found['min']} {found['max']} {found['aggr']}", *places, *workload.schemes], b"")
    for line in plan.schemes:
        setup.set_scheme(filled(line, found))
    commits = commits_of([(interval_of(filled(place, found)), filled(line, found)) for place, line in plan.commits])
    setup.body = workload.body(commits)
    return setup.text()


def filled(text: str, values: Mapping[str, Value]) -> str:
    """A text with its placeholders filled in."""
    return text.format_map(values)


def interval_of(text: str) -> int:
    """The interval before which a commit comes. Raises PointError."""
    if not text.isdecimal():
        raise PointError(f"a commit comes before an interval, which is a number from 0, and not {text!r}")
    return int(text)


def one_line(text: str) -> str:
    return " ".join(text.split())[:LONGEST_STATUS]
