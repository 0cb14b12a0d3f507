#!/usr/bin/env python3
"""Measures tools/page.py: how long a page of many rows takes to be made, to open and to zoom.

    tests/measure_page.py TURNS

makes reports of about 1,000, 100,000 and 1,000,000 rows by `damon replay`, a page of each, and opens it TURNS
times, each time in a headless Chromium that was just started. It writes a line of a table for each report: its rows and
aggregations; the sizes of the report and of the page; the processor time to make the page, and the greatest resident set;
the time from the beginning of the navigation until the page is drawn; and of 40 turns of the wheel over its largest
target, half of them closer and half back, the processor time that the thread of the page takes for a turn and its frame,
at the median and at most: for the script, the style, the layout and the painting, with some 3 ms for the asking. What the
other threads do with the painted page is not in it. Of the times in the browser the least of the turns is taken.
"""
from __future__ import annotations

import os
import random
import subprocess
import sys
import tempfile
from dataclasses import dataclass
from pathlib import Path
from typing import Iterator

from browser import Browser, what_is_missing
from speed_workloads import PAGE, aggregations
from tool_runs import PROGRAM, TOOLS, need_program

TARGETS, PAGES = 10, 1000
TURNS_OF_WHEEL = 40
HOLD = """
window.nextFrame = window.requestAnimationFrame.bind(window);
window.listeners = [];
window.requestAnimationFrame = listener => listeners.push(listener);
const heightOf = lane => lane.clientHeight;
window.lane = [...document.querySelectorAll('.target .lane')].sort((one, other) => heightOf(other) - heightOf(one))[0];
"""
"""The page draws nothing by itself from now on, so that nothing is counted between two frames."""
FRAME = """
const done = arguments[0], {{ left, top, width, height }} = lane.getBoundingClientRect();
lane.dispatchEvent(new WheelEvent('wheel', {{ deltaY: {turn}, clientX: left + width / 2, clientY: top + height / 2,
  bubbles: true, cancelable: true, view: window }}));
nextFrame(now => {{
  for (const listener of listeners.splice(0)) listener(now);
  setTimeout(done, 0);
}});
"""
"""A turn of the wheel, and the frame that draws what it changed and what the frames before had no time for."""


def long_script(count: int) -> bytes:
    """This number of aggregations of 100 regions in ten targets, with six sweeps in each pass and a scheme."""
    source = random.Random(5)
    bases = [0x10000000 * number for number in range(1, TARGETS + 1)]
    lines = ["damon script 1", "seed 5", "unit 1", "cap 100", "attrs 100 100 2", *(f"target {base:#x} {PAGES}" for base in bases)]
    lines += [f"range {number} {base:#x} {base + PAGES * PAGE:#x} 0" for number, base in enumerate(bases)]
    lines += ["scheme 0 pageout count=0,0 age=5,4294967295 quota=409600,20 prefer=cold", "begin"]
    for tick in range(2 * count):
        lines.append("arm")
        for _ in range(6):
            number, first = source.randrange(TARGETS - 1), (tick // 100 * 37 + source.randrange(200)) % (PAGES - 60)
            start = bases[number] + first * PAGE
            lines.append(f"sweep {number} {start:#x} {start + 50 * PAGE:#x}")
        lines.append("finish")
    return "\n".join([*lines, "end", ""]).encode()


@dataclass(frozen=True)
class Made:
    """A page, with how it came to be."""

    path: Path
    rows: int
    aggregations: int
    report_bytes: int
    seconds: float
    """Of processor time."""
    resident: int
    """In KiB."""


def made(script: bytes, folder: Path) -> Made:
    """The page of the report of a script."""
    report, page = folder / "report", folder / "page.html"
    with report.open("wb") as out:
        subprocess.run([PROGRAM, "replay"], input=script, stdout=out, check=True)
    with page.open("wb") as out:
        process = subprocess.Popen([sys.executable, TOOLS / "page.py", "--most", "3000000", report], stdout=out)
        _, status, usage = os.wait4(process.pid, 0)
    if status != 0:
        raise RuntimeError("no page was made")
    with report.open() as lines:
        words = [line[:4] for line in lines]
    return Made(page, words.count("row "), words.count("aggr"), report.stat().st_size, usage.ru_utime + usage.ru_stime, usage.ru_maxrss)


def opened(page: Path) -> tuple[float, list[float]]:
    """How many milliseconds a page takes until it is drawn, and each frame of a zoom."""
    browser = Browser()
    try:
        browser.do("open", str(page))
        drawn = browser.do("script", "return performance.getEntriesByName('drawn')[0].startTime")
        browser.do("script", HOLD)
        turns = [-80] * (TURNS_OF_WHEEL // 2) + [80] * (TURNS_OF_WHEEL // 2)
        return float(drawn), [float(browser.do("cost", FRAME.format(turn=turn))) for turn in turns]
    finally:
        browser.close()


def scripts() -> Iterator[bytes]:
    """The smallest one first; the last two have as many rows, in many small aggregations and in few large ones."""
    yield from map(long_script, (10, 1000, 10_000))
    yield aggregations(320)


def line_of(page: Made, turns: int) -> str:
    """The line of a page in the table."""
    found = [opened(page.path) for _ in range(turns)]
    frames = sorted(min(times) for times in zip(*(times for _, times in found)))
    cells = [f"{page.rows:,}", f"{page.aggregations:,}", f"{page.report_bytes / 1e6:.2f} MB", f"{page.path.stat().st_size / 1e6:.2f} MB",
             f"{page.seconds:.1f} s", f"{page.resident / 1024:.0f} MiB", f"{min(drawn for drawn, _ in found) / 1000:.2f} s",
             f"{frames[len(frames) // 2]:.0f} and {frames[-1]:.0f} ms"]
    return f"| {' | '.join(cells)} |"


def main() -> None:
    need_program()
    if missing := what_is_missing():
        sys.exit(missing)
    print("| rows | aggregations | report | page | made in | memory | opened in | a frame of a zoom, median and most |")
    print("|---|---|---|---|---|---|---|---|", flush=True)
    for script in scripts():
        with tempfile.TemporaryDirectory() as folder:
            print(line_of(made(script, Path(folder)), int(sys.argv[1])), flush=True)


if __name__ == "__main__":
    main()
