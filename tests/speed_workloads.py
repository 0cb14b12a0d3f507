"""The inputs on which programs are measured. They keep the limits of a script; each is made here, and none needs a file.

The first ones keep apart what a program does; the mixed ones, at the end, are those of another program of the same rules.
Journals are made by the program `damond` of this checkout, or the one that DAMOND in the environment names.
"""
import os
import random
import subprocess
from pathlib import Path
from typing import Callable, Iterable, List, NamedTuple, Sequence, Tuple

PAGE = 4096
MILLION = 1_048_576
BUILT = Path(__file__).resolve().parent.parent / "crates/damond/out/damond"


class Workload(NamedTuple):
    """What a program is run on: the words after its name, and its input by size."""

    name: str
    # What it is, as a row of docs/PERFORMANCE.md says it.
    says: str
    # One unit of the size, such as "passes".
    unit: str
    words: Tuple[str, ...]
    # From the greatest to the smallest; the first one is the size that is compared with other programs.
    sizes: Tuple[int, ...]
    text: Callable[[int], bytes]
    # The name of the program that has these words.
    program: str = "damon"


def script(cap: int, attrs: str, pages: int, commands: Iterable[str]) -> bytes:
    """A script that watches all pages of one target."""
    lines = ["damon script 1", "seed 1", "unit 1", f"cap {cap}", f"attrs {attrs}"]
    lines += [f"target 0x0 {pages}", f"range 0 0x0 {pages * PAGE:#x} 0", "begin", *commands, "end", ""]
    return "\n".join(lines).encode()


def sweeps(pages: int) -> bytes:
    """Sixteen sweeps. The weight of a script is at most 16,777,216: sixteen sweeps of a million pages."""
    return script(100, "10 100 5", pages, [f"sweep 0 0x0 {pages * PAGE:#x}"] * 16)


def passes(pages: int) -> Callable[[int], bytes]:
    """Passes over 4,000 rows, of 8,002 steps each. An aggregation is due after the thousandth."""
    return lambda times: script(4000, "4000 4000 1000", pages, ["step 8002"] * times)


def reading(touches: int) -> bytes:
    return script(4, "3 4 10", MILLION, [f"touch 0 {page * PAGE:#x}" for page in range(touches)])


def aggregations(times: int, schemes: Tuple[str, ...] = ()) -> bytes:
    """An aggregation after each pass, over 64 ranges and some 3,700 rows, with two sweeps in each pass."""
    choose = random.Random(3)
    lines = ["damon script 1", "seed 3", "unit 4", "cap 4096", "attrs 2800 4096 1", f"target 0x0 {MILLION}"]
    for number in range(64):
        lines.append(f"range 0 {number * 16384 * PAGE:#x} {(number + 1) * 16384 * PAGE:#x} {number % 16}")
    lines += [*schemes, "begin"]
    for _ in range(times):
        lines.append("arm")
        for _ in range(2):
            first = choose.randrange(MILLION - 8192)
            lines.append(f"sweep 0 {first * PAGE:#x} {(first + 8192) * PAGE:#x}")
        lines.append("finish")
    return "\n".join([*lines, "end", ""]).encode()


def sixteen_schemes() -> Iterable[str]:
    """A scheme in each slot: a third with filters by address, a third by class, each with a quota of its own."""
    actions = ["pageout", "cold", "willneed", "lru_prio", "hugepage", "stat"]
    for slot in range(16):
        keys = [f"age={slot % 3},4294967295", f"quota={(1500 + 3500 * slot) * PAGE},{1 + slot % 4}"]
        keys += [f"weights={1 + slot % 5},{slot % 4},{1 + slot % 3}", "prefer=cold" if slot % 2 else "prefer=hot"]
        for part in range(4 if slot % 3 == 0 else 0):
            first = part * MILLION // 4 + 900 * slot
            keys.append(f"filter=reject:addr:{first * PAGE:#x}-{(first + 40000) * PAGE:#x}")
        if slot % 3 == 1:
            keys += [f"filter=reject:class:{slot}", f"filter=allow:not-class:{(slot + 6) % 16}"]
        yield f"scheme {slot} {actions[slot % len(actions)]} " + " ".join(keys)


def commits(times: int) -> bytes:
    """64 ranges over 4,096 rows with counts from 0 to 9, moved there and back by commits, two at a time."""
    choose = random.Random(5)
    lines = ["damon script 1", "seed 5", "unit 4", "cap 4096", "attrs 4096 4096 1000", f"target 0x0 {MILLION}"]
    lines += [*moved(0), "begin"]
    for _ in range(9):
        first = choose.randrange(MILLION // 2)
        lines += ["arm", f"sweep 0 {first * PAGE:#x} {(first + MILLION // 2) * PAGE:#x}", "finish"]
    for _ in range(times // 2):
        lines += ["commit", *moved(300), "apply", "commit", *moved(0), "apply"]
    return "\n".join([*lines, "end", ""]).encode()


def moved(pages: int) -> List[str]:
    """The lines of 64 ranges of 16,000 pages each, moved by this number of pages."""
    firsts = [number * 16384 + pages for number in range(64)]
    return [f"range 0 {first * PAGE:#x} {(first + 16000) * PAGE:#x} 0" for first in firsts]


def small_rows(steps: int) -> bytes:
    """A pass over three rows with its aggregation takes nine steps."""
    return script(3, "3 3 1", 3, [f"step {steps}"])


def showing(times: int) -> bytes:
    return script(4096, "4096 4096 10", MILLION, ["show"] * times)


def with_schemes(times: int) -> bytes:
    return aggregations(times, tuple(sixteen_schemes()))


def paging(times: int) -> bytes:
    """Pages are put out that are cold in an aggregation, and fetched back by half of the rest."""
    return aggregations(times, ("scheme 0 pageout count=0,0", "scheme 1 willneed count=1,4294967295 quota=8388608,1"))


def tuning(times: int) -> bytes:
    """A scheme whose quota may follow a goal."""
    return aggregations(times, ("scheme 0 pageout count=0,0 quota=8388608,1 prefer=cold",))


def contexts(touches: int) -> bytes:
    """Eight contexts with the same script, a line of each by turns."""
    lines = reading(touches).splitlines()
    return b"\n".join([b"damon admin 1", *(b"%d %s" % (context, line) for line in lines for context in range(8)), b""])


def live(sweeps_each: int) -> bytes:
    """Eight workers that sweep 4,096 pages at a time, two controllers, and the most passes with 4,096 regions."""
    choose = random.Random(7)
    lines = ["damon live 1", "seed 7", "unit 1", "cap 4096", "attrs 1024 4096 20", f"target 0x0 {MILLION}", f"range 0 0x0 {MILLION * PAGE:#x} 0"]
    lines += ["scheme 0 pageout count=0,0 age=2,4294967295 quota=4096000,20 prefer=cold", "passes 1024"]
    for _ in range(8):
        firsts = [choose.randrange(MILLION - 4096) for _ in range(sweeps_each)]
        lines += ["worker", *(f"sweep 0 {first * PAGE:#x} {(first + 4096) * PAGE:#x}" for first in firsts)]
    for _ in range(2):
        lines += ["controller", *(["show"] * 9 + ["commit", "metric 5", "apply"]) * 20]
    return "\n".join([*lines, "end", ""]).encode()


def small_live(touches: int) -> bytes:
    """Eight workers that go round their own pages, of which some are of all."""
    choose = random.Random(7)
    lines = ["damon live 1", "seed 7", "unit 1", "cap 100", "attrs 10 100 20", "target 0x0 1024", f"range 0 0x0 {1024 * PAGE:#x} 0", "passes 2000"]
    for worker in range(8):
        pages = [choose.randrange(8) if i % 16 == 0 else worker * 128 + i % 64 for i in range(touches)]
        lines += ["worker", *(f"touch 0 {page * PAGE:#x}" for page in pages)]
    return "\n".join([*lines, "end", ""]).encode()


def journal_of(script: Callable[[int], bytes]) -> Callable[[int], bytes]:
    """The journal of a run of a live script."""
    def journal(size: int) -> bytes:
        return subprocess.run([os.environ.get("DAMOND") or BUILT, "run"], input=script(size), capture_output=True, check=True).stdout

    return journal


# ---- mixed workloads: each of these does several things at once


def mixed_setup(kind: str, seed: int, unit: int, cap: int, attrs: str, ranges: Sequence[Tuple[int, int, int]] = ((0, MILLION, 0),)) -> List[str]:
    """The lines of a setup over a million pages. A range is its first page, the page behind it and its class."""
    lines = [f"damon {kind} 1", f"seed {seed}", f"unit {unit}", f"cap {cap}", f"attrs {attrs}", f"target 0x0 {MILLION}"]
    return lines + [f"range 0 {first * PAGE:#x} {end * PAGE:#x} {group}" for first, end, group in ranges]


def text_of(lines: Iterable[str]) -> bytes:
    return "\n".join([*lines, "end", ""]).encode()


def mixed_steps(times: int) -> bytes:
    """One step more than the clears of a pass over 4,096 rows, then 16 touches, so that all phases are touched in."""
    choose = random.Random(1)
    lines = mixed_setup("script", 1, 1, 4096, "2048 4096 100") + ["begin"]
    for _ in range(times):
        lines += ["step 4097", *(f"touch 0 {choose.randrange(MILLION) * PAGE:#x}" for _ in range(16))]
    return text_of(lines)


def mixed_sweeps(times: int) -> bytes:
    """Large sweeps between the clears and the loads of small passes."""
    lines = mixed_setup("script", 2, 1, 100, "10 100 5") + ["begin"]
    first = 0
    for _ in range(times):
        lines += ["arm", f"sweep 0 {first * PAGE:#x} {(first + 16_384) * PAGE:#x}", "finish"]
        first = (first + 20_480) % (MILLION - 16_384)
    return text_of(lines)


def mixed_schemes(times: int) -> bytes:
    """An aggregation after each pass over 64 ranges, with sixteen schemes of which eleven have filters."""
    choose = random.Random(3)
    actions = ["pageout", "cold", "willneed", "lru_prio", "lru_deprio", "hugepage", "stat"]
    lines = mixed_setup("script", 3, 4, 4096, "2800 4096 1", [(part * 16_384, (part + 1) * 16_384, part % 16) for part in range(64)])
    for slot in range(16):
        keys = [f"age={slot % 4},4294967295", f"quota={(1000 + 3777 * slot) * PAGE},{1 + slot % 4}", f"weights={1 + slot},{slot % 5},{1 + slot % 3}"]
        keys += ["prefer=cold"] if slot % 2 else []
        firsts = [part * MILLION // 4 + 1000 * slot for part in range(4 if slot % 3 == 0 else 0)]
        keys += [f"filter=reject:addr:{first * PAGE:#x}-{(first + 50_000) * PAGE:#x}" for first in firsts]
        keys += [f"filter=reject:class:{slot}"] if slot % 3 < 2 else []
        keys += [f"filter=allow:not-class:{(slot + 5) % 16}"] if slot % 3 == 1 else []
        lines.append(f"scheme {slot} {actions[slot % 7]} " + " ".join(keys))
    lines.append("begin")
    for _ in range(times):
        firsts = [choose.randrange(MILLION - 8192) for _ in range(2)]
        lines += ["arm", *(f"sweep 0 {first * PAGE:#x} {(first + 8192) * PAGE:#x}" for first in firsts), "finish"]
    return text_of(lines)


def mixed_shows(times: int) -> bytes:
    """A show after every third of a pass, so that it comes in all phases, with a sweep before each fourth."""
    choose = random.Random(4)
    lines = mixed_setup("script", 4, 1, 4096, "4096 4096 20") + ["begin"]
    for number in range(times):
        if number % 4 == 0:
            first = choose.randrange(MILLION - 512)
            lines.append(f"sweep 0 {first * PAGE:#x} {(first + 512) * PAGE:#x}")
        lines += [f"step {2731 + number % 2}", "show"]
    return text_of(lines)


def mixed_touches(touches: int) -> bytes:
    """Touches of pages that follow no order."""
    choose = random.Random(5)
    lines = mixed_setup("script", 5, 1, 100, "10 100 20") + ["begin"]
    return text_of(lines + [f"touch 0 {choose.randrange(MILLION) * PAGE:#x}" for _ in range(touches)])


def mixed_live(sweeps_each: int) -> bytes:
    """Eight workers that sweep, and two controllers that look, hand in metrics and move the end of the range."""
    choose = random.Random(7)
    lines = mixed_setup("live", 7, 1, 4096, "1024 4096 20")
    lines += ["scheme 0 pageout count=0,0 age=2,4294967295 quota=4096000,20 prefer=cold", "passes 1024"]
    for _ in range(8):
        firsts = [choose.randrange(MILLION - 4096) for _ in range(sweeps_each)]
        lines += ["worker", *(f"sweep 0 {first * PAGE:#x} {(first + 4096) * PAGE:#x}" for first in firsts)]
    for controller in range(2):
        lines.append("controller")
        for number in range(200):
            if number % 10 == 9:
                lines += ["commit", f"metric {number}", "apply"]
            elif number % 50 == 25:
                lines += ["commit", f"range 0 0x0 {(MILLION - 64 * (number + controller)) * PAGE:#x} 0", "apply"]
            else:
                lines.append("show")
    return text_of(lines)


REPLAY = ("replay",)
VERIFY = ("verify",)
HEAT = ("heat", "64")
RUN = ("run",)
JSON = ("json",)
RECLAIM = ("reclaim",)
TUNE = ("tune", "0:cold:980:4096:8388608")
ADMIN = ("admin",)
GENERATED = {1: ": 256,000 touches of one page each"}
WORKLOADS = (
    Workload("start", "the start of a process, with a script that does nothing", "", REPLAY, (1,), lambda _: script(3, "3 3 1", 3, [])),
    Workload(
        "sweeps", "sixteen sweeps of 1,048,576 pages each, the most work of a script",
        "pages in each of 16 sweeps", REPLAY, (MILLION, 104_858, 10_486), sweeps,
    ),
    Workload(
        "passes", "1,000 passes over 4,000 regions of 1,048,576 pages: 8 million steps",
        "passes over 4,000 regions of 1,048,576 pages", REPLAY, (1000, 100, 10), passes(MILLION),
    ),
    Workload(
        "small passes", "1,000 passes over 4,000 regions of 4,000 pages",
        "passes over 4,000 regions of 4,000 pages", REPLAY, (1000, 100, 10), passes(4000),
    ),
    Workload(
        "reading", "800,000 touches, 15 MB of text",
        "touches", REPLAY, (800_000, 80_000, 8_000), reading,
    ),
    Workload(
        "aggregating", "366 aggregations of some 3,700 rows in 1,048,576 pages, 57 MB of report",
        "aggregations of some 3,700 regions", REPLAY, (366, 36, 4), aggregations,
    ),
    Workload(
        "schemes", "the same with a scheme in each of the sixteen slots, 76 MB of report",
        "such aggregations with 16 schemes", REPLAY, (366, 36, 4), with_schemes,
    ),
    Workload(
        "commits", "1,000 commits that move 64 ranges under 4,096 rows, 2 MB of text",
        "commits that move 64 ranges under 4,096 regions", REPLAY, (1000, 100, 10), commits,
    ),
    Workload(
        "small rows", "111,111 aggregations of three rows in one `step` line, 19 MB of report",
        "steps over three regions", REPLAY, (1_000_000, 100_000, 10_000), small_rows,
    ),
    Workload(
        "showing", "1,000 shows of 4,096 regions, 200 MB of report",
        "shows of 4,096 regions", REPLAY, (1000, 100, 10), showing,
    ),
    Workload(
        "json", "the 366 aggregations as JSON, 92 MB",
        "aggregations of some 3,700 regions as JSON", JSON, (366, 36, 4), aggregations,
    ),
    Workload(
        "json schemes", "those with sixteen schemes as JSON, 128 MB",
        "such aggregations with 16 schemes", JSON, (366, 36, 4), with_schemes,
    ),
    Workload(
        "reclaim", "`reclaim`: such aggregations, with pages put out and fetched",
        "aggregations of some 3,700 regions, with pages put out and fetched", RECLAIM, (366, 36, 4), paging,
    ),
    Workload(
        "reclaim touches", "`reclaim`: the 800,000 touches",
        "touches", RECLAIM, (800_000, 80_000, 8_000), reading,
    ),
    Workload(
        "tune", "`tune`: such aggregations, with a goal for a quota",
        "aggregations of some 3,700 regions, with a goal", TUNE, (366, 36, 4), tuning,
    ),
    Workload(
        "admin", "`admin`: eight contexts of 1.6 MB each",
        "touches of each of 8 contexts", ADMIN, (80_000, 8_000, 800), contexts,
    ),
    Workload(
        "verify", "`verify`: a journal of 12.8 MB, 8 workers that touch 1,024 pages",
        "touches of each of 8 workers, 2,000 passes", VERIFY, (70_000, 7_000, 700), journal_of(small_live),
    ),
    Workload(
        "verify wide", "`verify`: one of 10.5 MB, 8 workers that sweep 1,048,576 pages, watched by some 2,700 regions",
        "sweeps of each of 8 workers over 1,048,576 pages", VERIFY, (10, 1), journal_of(live),
    ),
    Workload(
        "heat", "`heat 64`: one of 3.8 MB like the first",
        "touches of each of 8 workers, 2,000 passes", HEAT, (20_000, 2_000, 200), journal_of(small_live),
    ),
    Workload(
        "heat large", "`heat 64`: one of 16.2 MB like the first",
        "such touches, nearly as many as a text may have", HEAT, (90_000, 9_000, 900), journal_of(small_live),
    ),
    Workload(
        "heat wide", "`heat 64`: one of 10.4 MB like the second",
        "sweeps of each of 8 workers over 1,048,576 pages", HEAT, (10, 1), journal_of(live),
    ),
    Workload(
        "live", "`damond run`: 8 workers, 1,048,576 touches, 1,024 passes over 4,096 regions, 2 controllers with 200 calls each",
        "sweeps of each of 8 workers over 1,048,576 pages", RUN, (32, 3), live, "damond",
    ),
    Workload(
        "small live", "`damond run`: 8 workers, 160,000 touches of 1,024 pages, 2,000 passes",
        "touches of each of 8 workers, 2,000 passes", RUN, (20_000, 2_000, 200), small_live, "damond",
    ),
    *(Workload(f"gen {n}", f"`gen {n}`{GENERATED.get(n, '')}", "", ("gen", str(n)), (1,), lambda _: b"") for n in (0, 1, 2, 3, 6)),
    Workload("mixed touches", "886,113 touches of pages drawn from 1,048,576, 16.8 MB of text", "touches", REPLAY, (886_113,), mixed_touches),
    Workload("mixed sweeps", "999 sweeps of 16,384 pages, each in a pass over at most 100 regions", "sweeps", REPLAY, (999,), mixed_sweeps),
    Workload(
        "mixed steps", "4,079 times 4,097 steps over up to 4,096 regions of 1,048,576 pages, with 16 touches after each",
        "times", REPLAY, (4079,), mixed_steps,
    ),
    Workload("mixed schemes", "sixteen schemes with more filters over 366 aggregations", "aggregations", REPLAY, (366,), mixed_schemes),
    Workload("mixed schemes json", "the same as JSON", "aggregations", JSON, (366,), mixed_schemes),
    Workload("mixed schemes tune", "the same with a goal", "aggregations", ("tune", "0:hot:100:4096:8192000"), (366,), mixed_schemes),
    Workload("mixed schemes reclaim", "the same under `reclaim`", "aggregations", RECLAIM, (366,), mixed_schemes),
    Workload("mixed shows", "2,000 shows of 4,096 regions in all phases", "shows", REPLAY, (2000,), mixed_shows),
    Workload("mixed shows json", "the same as JSON", "shows", JSON, (2000,), mixed_shows),
    Workload(
        "mixed verify", "`verify`: a journal of 8 workers with ten sweeps each and 400 calls",
        "sweeps of each worker", VERIFY, (10,), journal_of(mixed_live),
    ),
    Workload("mixed heat", "`heat 64`: the same journal", "sweeps of each worker", HEAT, (10,), journal_of(mixed_live)),
    Workload(
        "mixed live", "`damond run`: the same, with a range that moves",
        "sweeps of each worker", RUN, (32,), mixed_live, "damond",
    ),
    Workload("mixed live short", "`damond run`: that with 327,680 touches", "sweeps of each worker", RUN, (10,), mixed_live, "damond"),
)
