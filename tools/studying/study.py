"""A whole study: its runs, its results, its pictures, and the tables of its page."""
from __future__ import annotations

import sys
from pathlib import Path
from typing import Iterable, Iterator, NamedTuple, Sequence

from blocks import with_blocks
from common import UsageError
from searching.plan import PASSES, Plan, Value, plan_of
from searching.points import Points
from searching.searches import Known, Machine, searched

from .findings import FINDINGS, Results
from .page import tables_of
from .pictures import PICTURES
from .programs import Facts, Program, fact_rows, program_of, programs_of
from .rows import Found, found_rows, lines_of, shown_settings, write_cells

FACTS = "programs"
"""The result that is not of a plan: what each program is."""


class Study(NamedTuple):
    """What is run, and where it goes."""

    top: Path
    out: Path
    is_page: bool
    """Whether results, pictures and tables are those of the page."""
    plans: tuple[str, ...]
    """The names of plans; all where none is named."""
    only: tuple[str, ...]
    """`NAME=VALUE`: the points with this value alone."""

    @property
    def results(self) -> Path:
        return self.top / "study/results" if self.is_page else self.out / "results"

    @property
    def pictures(self) -> Path:
        return self.top / "docs/pictures" if self.is_page else self.out / "pictures"

    @property
    def page(self) -> Path:
        return self.top / "docs/STUDY.md"


def plan_files(study: Study) -> list[Path]:
    """The plans that are run. Raises UsageError for one that is not there."""
    files = {path.stem: path for path in sorted((study.top / "study/plans").glob("*.toml"))}
    for name in study.plans:
        if name not in files:
            raise UsageError(f"--plan names {name!r}, and there are {', '.join(files)}")
    return [path for name, path in files.items() if not study.plans or name in study.plans]


def runs_of(study: Study, paths: Iterable[Path], machine: Machine) -> Iterator[Path]:
    """Makes all runs, program by program, so that workloads are made once. Gives the files of results. Raises UsageError."""
    traces, files = programs_of(paths), plan_files(study)
    for file in files:
        restricted(plan_of(str(file), traces[0]), study.only)
    programs: list[tuple[Program, Facts]] = []
    rows: dict[str, list[Found]] = {file.stem: [] for file in files}
    for number, trace in enumerate(traces):
        known: Known = {}
        programs.append(program_of(trace, plan_of(str(files[0]), trace), known))
        for place, file in enumerate(files):
            program, search = programs[-1][0], number * len(files) + place + 1
            print(f"note: {program.name}, {file.stem}: search {search} of {len(files) * len(traces)}", file=sys.stderr)
            rows[file.stem] += rows_made(study, file, program, machine, known)
    for name, lines in {FACTS: fact_rows(programs), **{stem: lines_of(found) for stem, found in rows.items()}}.items():
        path = study.results / f"{name}.csv"
        write_cells(path, lines)
        yield path


def rows_made(study: Study, file: Path, program: Program, machine: Machine, known: Known) -> list[Found]:
    """Makes the runs of a plan on a program that are not there."""
    whole = plan_of(str(file), program.path)
    plan, path = restricted(whole, study.only), study.out / "runs" / file.stem / f"{program.name}.csv"
    path.parent.mkdir(parents=True, exist_ok=True)
    wanted = max((int(passes) for _, passes in whole.intervals), default=0)
    if program.intervals < wanted:
        print(f"note: {program.name} has {program.intervals} intervals for {wanted} passes: keep it with a smaller --grain", file=sys.stderr)
    searched(plan, Points(plan, None, 1), path, machine, known)
    return list(found_rows(plan, shown_settings(whole), program, path))


def restricted(plan: Plan, only: Sequence[str]) -> Plan:
    """The plan with these values alone. Raises UsageError."""
    for word in only:
        name, equals, text = word.partition("=")
        key = "interval" if name == PASSES else name
        values = plan.settings.get(key) or plan.values.get(key)
        chosen = tuple(value for value in values or () if str(value) == text)
        if not chosen or not equals:
            raise UsageError(f"--only {word}: {'it has ' + ', '.join(map(str, values)) if values else 'the plan has no such setting'}")
        plan = with_values(plan, key, chosen)
    return plan


def with_values(plan: Plan, name: str, values: tuple[Value, ...]) -> Plan:
    """The plan with other values of a setting or a placeholder."""
    if name in plan.settings:
        return plan._replace(settings={**plan.settings, name: values})
    return plan._replace(values={**plan.values, name: values})


def results_of(study: Study) -> Iterator[Path]:
    """Writes what follows from the rows of all plans. Gives the files. Raises UsageError."""
    results = Results(study.results)
    for name, cells in FINDINGS.items():
        path = study.results / f"{name}.csv"
        write_cells(path, cells(results))
        yield path


def write_pictures(study: Study) -> Iterator[Path]:
    """Draws all pictures from the results. Gives the files. Raises UsageError."""
    results = Results(study.results)
    study.pictures.mkdir(parents=True, exist_ok=True)
    for name, drawn in PICTURES.items():
        path = study.pictures / f"study-{name}.svg"
        path.write_text(drawn(results), encoding="utf-8")
        yield path


def write_page(study: Study) -> None:
    """Writes the tables of the page from the results."""
    page = study.page.read_text(encoding="utf-8")
    study.page.write_text(with_blocks(page, tables_of(Results(study.results))), encoding="utf-8")
