#!/usr/bin/env python3
"""Proves and builds the program, several crates at the same time, and says how far it is. `./damon` calls it.

    ./build.py [--jobs N] [PROGRAM]

PROGRAM is a crate of `crates.txt`, by default `damon`. Its crates are proved in an order in which each comes
after those that it uses: as many at the same time as there are processors (or N) and memory for, and first those
with the longest chain of others behind them. Processors that are idle are given to a crate that ends sooner with
them. What a proof takes was measured: `building/costs.csv` has the seconds and the memory of each crate.

`rt` locks a crate and all those below it while it works, so two runs over one lower crate would wait for each
other. Each crate is therefore proved in a folder of its own, in which the crates below it are hard links, and what
was built is moved to its place afterwards. Beside it a checksum of the sources is kept: what was built of the same
sources is not proved again, whatever the times of the files. Whether it is right is not decided here: at the end
`rt run` builds the program in its place, and proves again whatever does not fit the sources.

At the start it says about how long it takes. On a terminal one line on standard error is then rewritten; elsewhere
there is a line for each crate. The exit status is 1 if a crate is not proved; its log is then on standard error.
If a proof is killed, most likely for memory, the rest is proved one crate after another.
"""
import argparse
import fcntl
import os
import shutil
import subprocess
import sys
import tempfile
import time
from contextlib import ExitStack, suppress
from pathlib import Path
from typing import List, NamedTuple, Optional

from building import costs
from building.crates import CRATES, TOP, Crates, below, chains, crates_for, fresh, note_of, sum_of
from building.freshness import SOURCES, is_of
from building.progress import Progress

# More processes than this do not make the proof of one crate faster.
MOST_JOBS = 4


class Run(NamedTuple):
    """The proof of a crate under way."""

    name: str
    process: "subprocess.Popen[bytes]"
    folder: Path
    log: Path
    jobs: int
    memory: float
    begun: float


class NotProved(Exception):
    """A crate was not proved; the text is its log."""


class Killed(Exception):
    """The proof of a crate was ended from outside, most likely for memory; the text is its name."""


def free_memory() -> float:
    """The free memory in bytes, within the limit of the control group."""
    found = [float("inf")]
    for line in Path("/proc/meminfo").read_text().splitlines():
        if line.startswith("MemAvailable:"):
            found.append(1024 * float(line.split()[1]))
    with suppress(OSError, ValueError):
        group = Path("/sys/fs/cgroup")
        limit, used = (float((group / file).read_text()) for file in ("memory.max", "memory.current"))
        found.append(limit - used)
    return min(found)


class Build:
    """The libraries below a program, proved side by side."""

    def __init__(self, crates: Crates, jobs: int, scratch: Path, progress: Progress) -> None:
        self.crates, self.jobs, self.scratch, self.progress = crates, jobs, scratch, progress
        self.memory = 0.85 * free_memory()
        self.running: List[Run] = []
        # As the sources are now: what changes during the build is built again by the next one.
        self.sums = {name: sum_of(name, crates) for name in crates}

    def libraries(self, built: List[str]) -> None:
        """Builds all crates but the last, which is the program, and those that are built."""
        lengths = chains(self.crates)
        waiting = sorted([name for name in list(self.crates)[:-1] if name not in built], key=lambda name: -lengths[name])
        built = [*built]
        try:
            while waiting or self.running:
                ready = [name for name in waiting if all(it in built for it in self.crates[name].uses)]
                for at, name in enumerate(ready):
                    # The first of the waiting crates begins the longest chain that is left: it decides how long all takes.
                    if self._start(name, len(ready) - at, leads=name == waiting[0]):
                        waiting.remove(name)
                self.progress.under_way([run.name for run in self.running])
                built += self._ended()
        finally:
            for run in self.running:
                run.process.terminate()
            for run in self.running:
                run.process.wait()
                self._keep(run)

    def _start(self, name: str, ready: int, leads: bool) -> bool:
        """Starts the proof of a crate, if there is a processor and memory for it. `ready` is the number that are ready from this one on."""
        idle = self.jobs - sum(run.jobs for run in self.running)
        room = self.memory - sum(run.memory for run in self.running)
        if idle < 1 or (self.running and self.crates[name].memory(1) > room):
            return False
        # Rounded up: the crates with the longest chains come first, and get what is over.
        jobs = min(MOST_JOBS, -(-idle // ready))
        if leads and self.jobs > 2:
            jobs = max(jobs, min(2, idle))
        jobs = self.crates[name].worth(jobs)
        while jobs > 1 and self.crates[name].memory(jobs) > room:
            jobs -= 1
        folder = self._folder_for(name)
        log = self.scratch / f"{name}.log"
        with log.open("wb") as out:
            process = subprocess.Popen(
                ["rt", "lib", "--jobs", str(jobs)], cwd=folder, stdin=subprocess.DEVNULL, stdout=out, stderr=out
            )
        memory = self.crates[name].memory(jobs)
        self.running.append(Run(name, process, folder, log, jobs, memory, time.monotonic()))
        return True

    def _folder_for(self, name: str) -> Path:
        """A folder in which a crate can be proved: a repository with it and the crates below it, as hard links."""
        top = self.scratch / name
        top.mkdir()
        there = [*below(name, self.crates), name]
        (top / "crates.txt").write_text("".join(f"{self.crates[it].line}\n" for it in there))
        for crate in there:
            for part in (*SOURCES, "out/rlib"):
                if (CRATES / crate / part).is_dir():
                    linked(CRATES / crate / part, top / "crates" / crate / part)
        # What earlier proofs of the crate itself have left is used on, and comes back by `_keep`.
        kept = CRATES / name / "out/incremental"
        if kept.is_dir():
            (top / "crates" / name / "out").mkdir(exist_ok=True)
            shutil.move(str(kept), str(top / "crates" / name / "out/incremental"))
        return top / "crates" / name

    def _ended(self) -> List[str]:
        """Waits until a proof has ended, and gives the crates that are built."""
        while not any(run.process.poll() is not None for run in self.running):
            time.sleep(0.2)
            self.progress.under_way([run.name for run in self.running])
        ended = [run for run in self.running if run.process.poll() is not None]
        for run in ended:
            self.running.remove(run)
            self._keep(run)
            if run.process.returncode in (1, 2, 3):
                raise NotProved(run.log.read_text(errors="replace"))
            if run.process.returncode:
                raise Killed(run.name)
            self.progress.ended(run.name, time.monotonic() - run.begun)
        return [run.name for run in ended]

    def _keep(self, run: Run) -> None:
        """Moves what a proof has built to the crate's own folder, and notes of which sources it is."""
        for part in ("out/incremental", "out/rlib"):
            made, place = run.folder / part, CRATES / run.name / part
            if made.is_dir():
                shutil.rmtree(place, ignore_errors=True)
                place.parent.mkdir(exist_ok=True)
                shutil.move(str(made), str(place))
        if run.process.returncode == 0:
            note_of(run.name).write_text(self.sums[run.name])
        shutil.rmtree(self.scratch / run.name, ignore_errors=True)


def lock(crates: Crates, locks: ExitStack) -> None:
    """Keeps other builds, and `rt`, out of these crates until the locks are closed: `rt` takes the same ones."""
    for name in sorted(crates):
        folder = os.open(CRATES / name, os.O_RDONLY)
        locks.callback(os.close, folder)
        with suppress(OSError):  # Some file systems have no locks.
            fcntl.flock(folder, fcntl.LOCK_EX)


def place_for_links() -> Path:
    """A folder on the file system of the checkout, so that its files can be linked: the system's own, or else `out`."""
    place = Path(tempfile.gettempdir())
    if place.stat().st_dev != TOP.stat().st_dev:
        place = TOP / "out"
        place.mkdir(exist_ok=True)
    return place


def linked(source: Path, target: Path) -> None:
    """Makes a folder whose files are hard links to those of another, or copies where there are no links."""

    def link(file: str, to: str) -> None:
        try:
            os.link(file, to)
        except OSError:
            shutil.copy2(file, to)

    shutil.copytree(source, target, copy_function=link)


def is_built(program: str, crates: Crates) -> bool:
    """Whether the program is there, and was built of the sources that are there."""
    built = CRATES / program / "out" / program
    return os.access(built, os.X_OK) and is_of(note_of(program), sum_of(program, crates))


def build(program: str, jobs: Optional[int]) -> int:
    crates = crates_for(program)
    if not crates:
        sys.exit(f"build.py: crates.txt has no crate {program}")
    if is_built(program, crates):
        return 0
    if not shutil.which("rt"):
        sys.exit("build.py: there is no rt, which proves and builds")
    # Without this a failed build would leave the old program to be run.
    with suppress(FileNotFoundError):
        (CRATES / program / "out" / program).unlink()
    jobs = jobs or len(os.sched_getaffinity(0))
    built = fresh(crates)
    seconds = {name: crate.cost.seconds for name, crate in crates.items() if name not in built or name == program}
    order = sorted(seconds, key=lambda name: -chains(crates)[name])
    progress = Progress(program, seconds, costs.expected_seconds(order, lambda name: crates[name].uses, seconds, jobs))
    progress.begin()
    with tempfile.TemporaryDirectory(prefix="damon-build-", dir=place_for_links()) as scratch, ExitStack() as locks:
        lock(crates, locks)
        work = Build(crates, jobs, Path(scratch), progress)
        try:
            work.libraries(built)
        except NotProved as log:
            progress.close()
            print(log, end="", file=sys.stderr)
            return 1
        except Killed as name:
            progress.close()
            print(f"the proof of {name} was killed: the others follow one by one", file=sys.stderr)
    return finish(program, work.sums[program], progress)


def finish(program: str, total: str, progress: Progress) -> int:
    """Builds the program in its place, over the libraries that are built, and notes of which sources it is."""
    begun = time.monotonic()
    progress.under_way([program])
    # A program has a few lines over all other crates. Each process would read those for itself, so with several the
    # proof would end no sooner, and take as much more processor time and memory.
    # `rt run` also runs what it built. `build` is no command of damon, so that run reads nothing and ends with
    # status 2; whether the build worked is told by the program being there.
    ran = subprocess.run(
        ["rt", "run", "--jobs", "1", "--", "build"],
        cwd=CRATES / program,
        stdin=subprocess.DEVNULL,
        stdout=subprocess.PIPE,
        stderr=subprocess.STDOUT,
    )
    is_there = os.access(CRATES / program / "out" / program, os.X_OK)
    if is_there:
        note_of(program).write_text(total)
        progress.ended(program, time.monotonic() - begun)
    progress.close()
    if not is_there:
        sys.stderr.buffer.write(ran.stdout)
    return 0 if is_there else 1


def main() -> None:
    parser = argparse.ArgumentParser(description="Proves and builds the program, several crates at the same time.")
    parser.add_argument("program", nargs="?", default="damon", help="a crate of crates.txt (damon)")
    parser.add_argument("--jobs", type=int, help="the processors to use (all)")
    given = parser.parse_args()
    try:
        sys.exit(build(given.program, given.jobs))
    except KeyboardInterrupt:
        sys.exit("build.py: stopped")


if __name__ == "__main__":
    main()
