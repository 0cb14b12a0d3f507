#!/usr/bin/env python3
"""Tests of tools/compare.py: what a report missed, and what its schemes did."""
from __future__ import annotations

import json
import os
import random
import re
import subprocess
import sys
import tempfile
import unittest
from collections import Counter
from pathlib import Path
from typing import Sequence

from page_counts import Page, PageCounts, accuracy_of, aggregations_of
from tool_runs import PROGRAM, TOOLS, Refusals, need_program, random_trace, report_of, run, script_of

from comparing.counts import accessed_in, applied_of
from comparing.lines import headings
from comparing.paging import Moment, Paging
from reports.events import Aggregation, Report
from reports.memory import Memory
from reports.pages import common, union, without

TOOL = "compare.py"
SingleMove = tuple[int, Page, int, "int | None", bool]
"""A slot, a page that it put out, the ticks at which it went and came back, and whether it was fetched back."""
EXACT = """\
aggregate tick=4 threshold=0 rows=3
row 0 0x10000-0x11000 count=0 last=0 age=1
row 0 0x11000-0x12000 count=4 last=0 age=0
row 1 0x20000-0x21000 count=1 last=0 age=0
aggregate tick=6 threshold=0 rows=3
row 0 0x10000-0x11000 count=1 last=0 age=0
row 0 0x11000-0x12000 count=2 last=4 age=0
row 1 0x20000-0x21000 count=0 last=1 age=0
end ticks=6 rows=3 checks=18 hits=8
"""
FOUND = """\
aggregate tick=4 threshold=0 rows=2
apply 0 pageout 0 0x10000-0x12000 score=25
slot 0 left=2 taken=2 lowest=25
row 0 0x10000-0x12000 count=3 last=0 age=1
row 1 0x20000-0x21000 count=0 last=0 age=0
commit tick=4 ok rows=2 void=no
aggregate tick=6 threshold=0 rows=2
apply 0 pageout 1 0x20000-0x21000 score=25
slot 0 left=none taken=1 lowest=25
row 0 0x10000-0x12000 count=0 last=3 age=0
row 1 0x20000-0x21000 count=0 last=0 age=0
"""


def setUpModule() -> None:
    need_program()


def compared(exact: str, found: str, *words: str) -> list[str]:
    """The lines of the comparison of two texts."""
    with tempfile.TemporaryDirectory() as folder:
        paths = [Path(folder) / name for name in ("exact", "found")]
        for path, text in zip(paths, (exact, found)):
            path.write_text(text)
        ran = run(TOOL, *map(str, paths), *words)
    if ran.returncode != 0:
        raise AssertionError(ran.stderr.decode())
    return ran.stdout.decode().splitlines()


def percent(part: int, whole: int) -> list[str]:
    return [f"{100 * part / whole:.1f}"] if whole else []


def found_numbers(exact: list[PageCounts], found: list[PageCounts], hot: float) -> list[list[str]]:
    """The numbers of the first lines."""
    total = accuracy_of(exact, found, hot)
    lines = [[len(exact), total["pages"]]] + [[total["blind"]]] * (total["blind"] > 0)
    numbers = [[str(number) for number in line] for line in lines]
    for name in ("hot", "cold"):
        both, wrong = total[f"{name} both"], total[f"{name} called"] - total[f"{name} both"]
        numbers.append([str(both), str(total[name]), *percent(both, total[name])])
        numbers.append([str(wrong), str(total[f"{name} called"]), *percent(wrong, total[f"{name} called"])])
    error = [f"{100 * (total['called'] - total['used']) / total['used']:+.1f}"] if total["used"] else []
    averages = [f"{total[name] / len(exact):.1f}" for name in ("called", "used", "off")]
    return [*numbers, [*averages[:2], *error, averages[2]]]


def slot_numbers(exact: list[PageCounts], found: list[PageCounts], after: int) -> tuple[list[list[str]], set[SingleMove]]:
    """The numbers of the lines of slots, and the moves of single pages, followed page by page."""
    out: dict[Page, tuple[int, int]] = {}
    moves: set[SingleMove] = set()
    total: dict[tuple[int, str], Counter[str]] = {}
    different: dict[int, set[Page]] = {}
    for number, (one, other) in enumerate(zip(exact, found)):
        for page, count in one["counts"].items():
            if count and page in out:
                slot, since = out.pop(page)
                total[slot, "pageout"]["back"] += 1
                total[slot, "pageout"]["soon"] += number - since <= after
                moves.add((slot, page, found[since]["tick"], other["tick"], False))
        for slot, _ in out.values():
            total[slot, "pageout"]["stay"] += 1
        for slot, action, pages in other["applied"]:
            sums = total.setdefault((slot, action), Counter())
            sums["applied"] += len(pages)
            soon = exact[number + 1 : number + 1 + after]
            sums["used"] += sum(any(later["counts"][page] for later in soon) for page in pages)
            for page in pages:
                if action == "pageout" and page not in out:
                    out[page] = (slot, number)
                    sums["out"] += 1
                    different.setdefault(slot, set()).add(page)
                elif action == "pageout":
                    sums["again"] += 1
                elif action == "willneed" and page in out:
                    owner, since = out.pop(page)
                    total[owner, "pageout"]["fetched"] += 1
                    moves.add((owner, page, found[since]["tick"], other["tick"], True))
    moves |= {(slot, page, found[since]["tick"], None, False) for page, (slot, since) in out.items()}
    lines: list[list[object]] = []
    for (slot, action), sums in sorted(total.items()):
        if action != "pageout":
            lines.append([slot, sums["used"], sums["applied"], after, *percent(sums["used"], sums["applied"])])
            continue
        end = sum(1 for owner, _ in out.values() if owner == slot)
        lines += [[slot, sums["applied"]], [slot, sums["again"], *percent(sums["again"], sums["applied"])],
                  [slot, sums["out"], len(different.get(slot, ()))],
                  [slot, sums["back"], *percent(sums["back"], sums["out"]), f"{sums['back'] / len(exact):.1f}"],
                  [slot, sums["soon"], after, *percent(sums["soon"], sums["out"])],
                  *([[slot, sums["fetched"], *percent(sums["fetched"], sums["out"])]] if sums["fetched"] else []),
                  [slot, end, f"{sums['stay'] / len(exact):.1f}"]]
    return [[str(number) for number in line] for line in lines], moves


def moves_of(lines: list[str]) -> list[SingleMove]:
    """The moves that were printed, as moves of single pages."""
    result = []
    for line in lines:
        match = re.fullmatch(r"move: slot (\d+), target (\d+), 0x(\w+)-0x(\w+), (\d+) pages?, out at tick (\d+), "
                             r"(?:(fetched )?back at tick (\d+)|still out at the end)", line)
        if not match:
            raise AssertionError(line)
        low, high = int(match[3], 16) // 4096, int(match[4], 16) // 4096
        if high - low != int(match[5]):
            raise AssertionError(line)
        back = int(match[8]) if match[8] else None
        result += [(int(match[1]), (int(match[2]), page), int(match[6]), back, bool(match[7])) for page in range(low, high)]
    return result


def random_runs(seed: int) -> tuple[str, str]:
    """An exact report and another one, with ranges that are not watched, two slots with `pageout` and other slots."""
    source = random.Random(seed)
    spans = {target: (source.randrange(20), source.randrange(25, 60)) for target in range(source.randrange(1, 4))}
    exact, found, tick = [], [], 0
    for _ in range(source.randrange(2, 40)):
        passes = source.randrange(1, 9)
        tick += passes
        rows, regions, applied = [], [], []
        for target, (low, high) in spans.items():
            rows += [(target, page, page + 1, source.choice([0, 0, 0, source.randrange(passes + 1)])) for page in range(low, high)]
            edges = sorted({low, high, *(source.randrange(low, high) for _ in range(6))})
            regions += [(target, start, end, source.choice([0, source.randrange(passes + 1)]))
                        for start, end in zip(edges, edges[1:]) if source.random() < 0.9]
        for slot, action in ((0, "pageout"), (2, source.choice(["stat", "lru_prio"])), (7, "pageout"), (9, "willneed")):
            runs = [(target, source.randrange(start, end), end) for target, start, end, _ in regions if source.random() < 0.3]
            applied += [(slot, action, *taken) for taken in source.sample(runs, len(runs))]
        exact.append(aggregation_text(tick, rows, []))
        found.append(aggregation_text(tick, regions, applied))
    return "".join(exact), "".join(found)


def aggregation_text(tick: int, rows: Sequence[tuple[int, ...]], applied: Sequence[tuple[int, str, int, int, int]]) -> str:
    lines = [f"aggregate tick={tick} threshold=0 rows={len(rows)}"]
    lines += [f"apply {slot} {action} {target} {low << 12:#x}-{high << 12:#x} score=9" for slot, action, target, low, high in applied]
    lines += [f"row {target} {low << 12:#x}-{high << 12:#x} count={count} last=0 age=0" for target, low, high, count in rows]
    return "\n".join(lines) + "\n"


class Arithmetic(unittest.TestCase):
    """What is printed is what page by page counting gives."""

    def check(self, exact: str, found: str, hot: float, after: int) -> None:
        lines = compared(exact, found, "--hot", str(hot), "--after", str(after), "--moves")
        moves = [line for line in lines if line.startswith("move:")]
        numbers = [re.findall(r"[-+]?\b\d+(?:\.\d+)?", line) for line in lines if line not in moves]
        one, other = aggregations_of(exact), aggregations_of(found)
        wanted, wanted_moves = slot_numbers(one, other, after)
        self.assertEqual(numbers, found_numbers(one, other, hot) + wanted)
        self.assertEqual(sorted(moves_of(moves), key=str), sorted(wanted_moves, key=str))

    def test_random_reports(self) -> None:
        for seed in range(40):
            with self.subTest(seed=seed):
                self.check(*random_runs(seed), hot=(0.5, 1, 0.05)[seed % 3], after=1 + seed % 7)

    def test_random_runs_of_the_program(self) -> None:
        schemes = ("scheme 0 pageout count=0,1 age=1,9", "scheme 3 pageout age=2,99 quota=20480,10 prefer=cold", "scheme 5 lru_prio count=3,9")
        for seed in range(6):
            with self.subTest(seed=seed):
                trace, words = random_trace(seed, 4000), ["--interval", "8", "--aggr", str(2 + seed)]
                exact = report_of(script_of(trace, *words, "--exact"))
                sampled = script_of(trace, *words, "--max", "40", *(word for line in schemes for word in ("--scheme", line)))
                self.check(exact, report_of(sampled), hot=0.4, after=3)

    def test_a_small_run(self) -> None:
        self.assertEqual(compared(EXACT, FOUND, "--moves"), [
            "2 aggregations, 6 page-aggregations",
            "hot: 1 of 3 page-aggregations found: 33.3 %",
            "hot: 1 of 2 page-aggregations called hot are not: 50.0 %",
            "cold: 1 of 2 page-aggregations found: 50.0 %",
            "cold: 3 of 4 page-aggregations called cold are not: 75.0 %",
            "working set: 1.0 pages on average, exactly 2.0: -50.0 %; off by 1.0 pages on average",
            "slot 0 pageout: applied to 3 page-aggregations",
            "slot 0 pageout: 0 of these were out already: 0.0 %",
            "slot 0 pageout: 3 pages put out, 3 of them different",
            "slot 0 pageout: 2 refaults of these: 66.7 %; 1.0 an aggregation",
            "slot 0 pageout: 2 refaults within 5 aggregations: 66.7 %",
            "slot 0 pageout: 1 page out at the end; 0.0 on average through an aggregation",
            "move: slot 0, target 0, 0x10000-0x12000, 2 pages, out at tick 4, back at tick 6",
            "move: slot 0, target 1, 0x20000-0x21000, 1 page, out at tick 6, still out at the end"])

    def test_one_target(self) -> None:
        lines = compared(EXACT, FOUND, "--target", "1", "--moves")
        self.assertEqual(lines[0], "2 aggregations, 2 page-aggregations")
        self.assertEqual(lines[-1], "move: slot 0, target 1, 0x20000-0x21000, 1 page, out at tick 6, still out at the end")

    def test_sets_of_pages(self) -> None:
        source = random.Random(3)
        for _ in range(300):
            one, other = ({source.randrange(30) for _ in range(source.randrange(30))} for _ in range(2))
            runs, others = runs_of(one), runs_of(other)
            self.assertEqual(pages_of(common(runs, others)), sorted(one & other))
            self.assertEqual(pages_of(without(runs, others)), sorted(one - other))
            self.assertEqual(union(runs, others), runs_of(one | other))


def runs_of(pages: set[int]) -> list[tuple[int, int]]:
    starts = sorted(page for page in pages if page - 1 not in pages)
    ends = sorted(page + 1 for page in pages if page + 1 not in pages)
    return list(zip(starts, ends))


def pages_of(runs: list[tuple[int, int]]) -> list[int]:
    return [page for start, end in runs for page in range(start, end)]


class Reclaim(unittest.TestCase):
    """What the model says of pages is what `damon reclaim` says after each aggregation."""

    def test_random_runs_of_the_program(self) -> None:
        schemes = ("scheme 0 pageout count=0,1 age=1,9", "scheme 2 willneed count=0,0 age=5,6", "scheme 3 pageout age=2,99 quota=40960,10",
                   "scheme 4 pageout marks=900,850,300", "scheme 7 willneed count=2,9 quota=8192,9", "scheme 9 lru_prio")
        words = [word for line in schemes for word in ("--scheme", line)]
        total: Counter[str] = Counter()
        for seed in range(8):
            with self.subTest(seed=seed):
                trace, settings = random_trace(seed, 4000), ["--interval", "8", "--aggr", str(2 + seed)]
                exact = report_of(script_of(trace, *settings, "--exact"))
                sampled = script_of(trace, *settings, "--max", "40", *words)
                total += self.check(exact, report_of(sampled, "reclaim"))
        for name in ("active", "inactive", "out", "pageouts", "refaults", "prefetches"):
            self.assertGreater(total[name], 100, name)

    def check(self, exact: str, found: str) -> Counter[str]:
        """Gives how often what happened."""
        truth, events = Report(exact.splitlines(keepends=True)), list(Report(found.splitlines(keepends=True)).events())
        aggregations = [event for event in events if isinstance(event, Aggregation)]
        memory = [event for event in events if isinstance(event, Memory)]
        self.assertEqual(len(memory), len(aggregations) + 1)
        paging = Paging(1, False)
        for number, (one, other, said) in enumerate(zip(truth.aggregations(), aggregations, memory)):
            paging.add(Moment(number, other.tick), accessed_in(one.regions), applied_of(other, None))
            ledgers = paging.ledgers.values()
            self.assertEqual((other.tick, *(sum(getattr(ledger, name) for ledger in ledgers)
                                            for name in ("out", "put_out", "refaults", "prefetches"))),
                             (said.tick, said.out, said.pageouts, said.refaults, said.prefetches))
        active = [one.active[4] for one in aggregations]
        return Counter(memory[-1]._asdict()) + Counter(active=sum(active), inactive=len(active) - sum(active))


class Forms(unittest.TestCase):
    def test_json(self) -> None:
        trace = random_trace(5, 3000)
        scripts = [script_of(trace, "--interval", "10", "--aggr", "6", *words) for words in
                   (["--exact"], ["--scheme", "scheme 0 pageout count=0,0", "--metric", "9:5"])]
        texts = [report_of(script) for script in scripts]
        lines = [subprocess.run([PROGRAM, "json"], input=script.encode(), capture_output=True, check=True).stdout.decode()
                 for script in scripts]
        self.assertTrue(all(json.loads(line) for line in lines[1].splitlines()))
        self.assertEqual(compared(lines[0], lines[1], "--moves"), compared(texts[0], texts[1], "--moves"))
        self.assertEqual(compared(lines[0], texts[1]), compared(texts[0], lines[1]))


class Several(unittest.TestCase):
    """More than one report beside an exact one, and the same numbers as JSON."""

    SCHEMES = ("scheme 0 pageout count=0,1 age=1,9", "scheme 5 lru_prio count=3,9")

    def setUp(self) -> None:
        folder = tempfile.TemporaryDirectory()
        self.addCleanup(folder.cleanup)
        self.paths = [Path(folder.name) / name for name in ("exact", "few", "many")]
        trace, words = random_trace(3, 4000), ["--interval", "8", "--aggr", "5"]
        scripts = [script_of(trace, *words, *more) for more in
                   (["--exact"], ["--max", "20", "--scheme", self.SCHEMES[0]],
                    ["--max", "60", *(word for line in self.SCHEMES for word in ("--scheme", line))])]
        for path, script in zip(self.paths, scripts):
            path.write_text(report_of(script))
        self.exact, *self.found = [aggregations_of(path.read_text()) for path in self.paths]

    def output(self, *words: str) -> list[str]:
        ran = run(TOOL, *map(str, self.paths), *words)
        self.assertEqual((ran.returncode, ran.stderr), (0, b""))
        return ran.stdout.decode().splitlines()

    def test_columns(self) -> None:
        head, *lines = [re.split(r"  +", line.strip()) for line in self.output("--hot", "0.4", "--after", "3")]
        self.assertEqual(head, [path.name for path in self.paths[1:]])
        table = {name: cells for name, *cells in lines}
        for column, found in enumerate(self.found):
            pages, hot, called_hot, cold, called_cold, sets = found_numbers(self.exact, found, 0.4)
            wanted = [pages[0], f"{hot[2]} %", f"{called_hot[2]} %", f"{cold[2]} %", f"{called_cold[2]} %", sets[0], sets[1], f"{sets[2]} %"]
            self.assertEqual([cells[column] for cells in list(table.values())[:8]], wanted)
            (applied, again, put_out, refaults, soon, *_, out), *_ = [slot_numbers(self.exact, found, 3)[0]]
            if column == 1:
                out, used = soon_and_use(slot_numbers(self.exact, found, 3)[0])
                self.assertEqual(table["slot 5 lru_prio: accessed in the next 3 aggregations"], ["-", f"{used[-1]} %"])
            for name, number in (("applied to page-aggregations", applied[1]), ("of these out already", f"{again[2]} %"),
                                 ("pages put out", put_out[1]), ("refaults", refaults[1]), ("refaults within 3 aggregations", soon[1]),
                                 ("pages out on average", out[2])):
                self.assertEqual(table[f"slot 0 pageout: {name}"][column], number)

    def test_files_with_one_name_have_their_paths(self) -> None:
        self.assertEqual(headings(["out/a.report", "out/b.report"]), ["a.report", "b.report"])
        self.assertEqual(headings(["one/a.report", "two/a.report"]), ["one/a.report", "two/a.report"])

    def test_json(self) -> None:
        lines = [json.loads(line) for line in self.output("--json", "--hot", "0.4", "--after", "3")]
        self.assertEqual([line["report"] for line in lines], [str(path) for path in self.paths[1:]])
        for line, path, found in zip(lines, self.paths[1:], self.found):
            text = compared(self.paths[0].read_text(), path.read_text(), "--hot", "0.4", "--after", "3")
            numbers = [re.findall(r"[-+]?\b\d+(?:\.\d+)?", row) for row in text]
            hot, cold, sets = line["hot"], line["cold"], line["working_set"]
            self.assertEqual([[str(line["aggregations"]), str(line["page_aggregations"])], [str(hot["found"]), str(hot["exact"])],
                              [str(hot["called"] - hot["found"]), str(hot["called"])], [str(cold["found"]), str(cold["exact"])],
                              [str(cold["called"] - cold["found"]), str(cold["called"])]], [numbers[0], *(row[:2] for row in numbers[1:5])])
            self.assertEqual([f"{sets[name]:.1f}" for name in ("found", "exact", "off")], [numbers[5][0], numbers[5][1], numbers[5][3]])
            slot = line["slots"][0]
            self.assertEqual([str(slot[name]) for name in ("applied", "again", "put_out", "different", "refaults", "refaults_soon")],
                             [numbers[6][1], numbers[7][1], numbers[8][1], numbers[8][2], numbers[9][1], numbers[10][1]])
            self.assertEqual([one["action"] for one in line["slots"]], ["pageout", "lru_prio"][: len(line["slots"])])


def soon_and_use(lines: list[list[str]]) -> tuple[list[str], list[str]]:
    """The last line of slot 0, and that of slot 5."""
    return [line for line in lines if line[0] == "0"][-1], next(line for line in lines if line[0] == "5")


class Costs(unittest.TestCase):
    """One aggregation of each report is kept at a time."""

    def test_memory(self) -> None:
        source = random.Random(1)
        with tempfile.TemporaryDirectory() as folder:
            path = Path(folder) / "exact"
            with path.open("w") as stream:
                for tick in range(1, 81):
                    rows = [(0, page, page + 1, source.randrange(2)) for page in range(4096)]
                    stream.write(aggregation_text(tick, rows, [(0, "pageout", 0, 8 * step, 8 * step + 5) for step in range(512)]))
            self.assertGreater(path.stat().st_size, 16_000_000)
            process = subprocess.Popen([sys.executable, TOOLS / TOOL, path, path], stdout=subprocess.DEVNULL)
            _, status, used = os.wait4(process.pid, 0)
            process.returncode = os.waitstatus_to_exitcode(status)
        self.assertEqual(process.returncode, 0)
        self.assertLess(used.ru_maxrss * 1024, 80_000_000)

    def test_a_closed_pipe_ends_it_in_silence(self) -> None:
        rows = [(0, page, page + 1, 0) for page in range(4000)]
        text = aggregation_text(4, rows, [(0, "pageout", 0, page, page + 1) for page in range(0, 4000, 2)])
        with tempfile.TemporaryDirectory() as folder:
            path = Path(folder) / "exact"
            path.write_text(text)
            words = [sys.executable, str(TOOLS / TOOL), str(path), str(path), "--moves"]
            process = subprocess.Popen(words, stdout=subprocess.PIPE, stderr=subprocess.PIPE)
            assert process.stdout and process.stderr
            process.stdout.close()
            message = process.stderr.read()
            process.stderr.close()
            process.wait()
        self.assertEqual(message, b"")


class Errors(Refusals):
    def check(self, parts: list[str], exact: str, found: str, *words: str) -> None:
        with tempfile.TemporaryDirectory() as folder:
            path = Path(folder) / "the-exact-one"
            path.write_text(exact)
            self.refused(TOOL, parts, found.encode(), str(path), "-", *words)

    def test_the_first_report_is_exact(self) -> None:
        self.check(["the-exact-one", "2 pages", "one page a region", "--exact"], FOUND, EXACT)

    def test_reports_of_other_runs(self) -> None:
        self.check(["different ticks", "--like"], EXACT, FOUND.replace("tick=6", "tick=7"))
        self.check(["different ticks"], EXACT, FOUND[: FOUND.index("commit")])
        self.check(["different ticks"], EXACT[: EXACT.index("aggregate tick=6")], FOUND)
        self.check(["tick 4", "pages", "--gap"], EXACT, FOUND.replace("0x10000", "0xf000"))
        self.check(["no aggregation"], "end ticks=0 rows=1 checks=0 hits=0\n", "end ticks=0 rows=1 checks=0 hits=0\n")

    def test_faulty_reports(self) -> None:
        self.check(["the-exact-one", "line 3", "not a line"], EXACT.replace("row 0 0x11000", "show 0 0x11000", 1), FOUND)
        self.check(["the-exact-one", "line 4", "rows=3"], EXACT.replace("row 0 0x11000-0x12000 count=4 last=0 age=0\n", ""), FOUND)
        self.check(["-: ", "count=3", "in 2 passes"], EXACT, FOUND.replace("tick=4", "tick=2"))
        self.check(["the-exact-one", "0x10000", "follow"], EXACT.replace("row 0 0x11000-0x12000", "row 0 0x10000-0x11000"), FOUND)
        self.check(["the-exact-one", "line 1"], "hello\n", FOUND)
        self.check(["the-exact-one: a byte that is not ASCII"], EXACT.replace("end", "\xe9nd"), FOUND)

    def test_exact_counts_come_first(self) -> None:
        self.check(["first of the reports"], EXACT, "exact counts 1\n")

    def test_options(self) -> None:
        self.check(["--hot"], EXACT, FOUND, "--hot", "0")
        self.check(["--after"], EXACT, FOUND, "--after", "0")
        self.check(["the-exact-one", "target 9"], EXACT, FOUND, "--target", "9")
        self.refused(TOOL, ["standard input"], b"", "-", "-")
        self.check(["--moves"], EXACT, FOUND, "--moves", "--json")

    def test_files_are_named_once(self) -> None:
        ran = run(TOOL, "no-such-file", "-")
        self.assertEqual(ran.stderr, b"compare.py: no-such-file: No such file or directory\n")


if __name__ == "__main__":
    unittest.main()
