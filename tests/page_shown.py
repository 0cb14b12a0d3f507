"""A page of tools/page.py that is open in a browser, for tests: its reports, and what it shows.

The browser is headless Chromium, driven by Selenium: `apt-get install chromium-driver python3-selenium`
installs both on Debian. Where they are not installed the tests of pages are skipped.
"""
from __future__ import annotations

import atexit
import json
import tempfile
import unittest
from dataclasses import dataclass
from pathlib import Path

from browser import Browser, what_is_missing
from page_parts import PAGE, Found, Row, aggregations_of, d3_is_missing, made
from tool_runs import need_program, random_trace, report_of, script_of

from drawing.style import LIGHT

GUTTER, RIGHT = 112, 18
"""What the lanes of a page have at the left and at the right of what is drawn."""
SCHEME = "scheme 0 pageout count=0,1 age={age},4294967295 quota=81920,20 prefer=cold"
POINTS = """
const [since, until] = document.body.dataset.time.split(' ').map(Number), drawn = new Map();
return {places}.map(([target, tick, page]) => {{
  const section = document.querySelector(`[data-target="${{target}}"]`), [low, high] = section.dataset.pages.split(' ').map(Number);
  const canvas = section.querySelectorAll('canvas')[{number}], {{ width, height }} = canvas;
  if (!drawn.has(target)) drawn.set(target, canvas.getContext('2d').getImageData(0, 0, width, height).data);
  const column = Math.floor(width * (tick - since) / (until - since)), line = Math.floor(height * (high - page) / (high - low));
  const first = 4 * (line * width + column);
  return '#' + [...drawn.get(target).slice(first, first + 3)].map(part => part.toString(16).padStart(2, '0')).join('');
}})"""
"""Asks for the colours of points of canvases."""


@dataclass(frozen=True)
class Run:
    """A report that a page shows."""

    text: str
    path: Path

    @property
    def found(self) -> list[Found]:
        return aggregations_of(self.text)


class Pages:
    """The browser and the pages that all tests share."""

    browser: Browser
    folder: tempfile.TemporaryDirectory[str]
    runs: list[Run] = []

    @classmethod
    def start(cls) -> None:
        """Starts the browser if it is not yet there. Skips where there is none."""
        need_program()
        missing = what_is_missing() or ("there is no D3: `apt-get install node-d3` installs it on Debian" if d3_is_missing() else "")
        if missing:
            raise unittest.SkipTest(f"{missing}; so no page of tools/page.py was looked at in a browser")
        if cls.runs:
            return
        cls.folder = tempfile.TemporaryDirectory()
        for age in (1, 4):
            script = script_of(random_trace(3, 2400), "--interval", "10", "--aggr", "6", "--scheme", SCHEME.format(age=age))
            path = Path(cls.folder.name) / f"age{age}.report"
            cls.runs.append(Run(report_of(script, "reclaim"), path))
            path.write_text(cls.runs[-1].text)
        cls.browser = Browser()
        atexit.register(cls.browser.close)

    @classmethod
    def page(cls, name: str, *words: str, text: str = "") -> str:
        """The path of a page."""
        path = Path(cls.folder.name) / f"{name}.html"
        if not path.exists():
            path.write_text(made(*words, text=text))
        return str(path)

    @classmethod
    def one(cls) -> str:
        return cls.page("one", str(cls.runs[0].path))

    @classmethod
    def both(cls) -> str:
        return cls.page("both", *(str(run.path) for run in cls.runs))


class Shown(unittest.TestCase):
    """A page that is open, and places in it."""

    def setUp(self) -> None:
        self.browser = Pages.browser
        self.browser.do("prefer", "light")

    def tearDown(self) -> None:
        self.assertEqual(self.browser.do("log"), [])

    def open(self, path: str, fragment: str = "") -> None:
        self.browser.do("open", path, fragment)

    def lane(self, target: int, number: int = 0) -> str:
        """The lane of a target of the first report, of the second one, or of the difference."""
        return f'[data-target="{target}"] .lane:nth-child({number + 1})'

    def size(self, selector: str) -> tuple[float, float]:
        width, height = self.browser.do("script", f"const box = document.querySelector('{selector}').getBoundingClientRect();"
                                        "return [box.width, box.height]")
        return float(width), float(height)

    def time(self) -> tuple[float, float]:
        """The ticks between which time is shown."""
        low, high = map(float, self.browser.do("script", "return document.body.dataset.time").split())
        return low, high

    def pages(self, target: int) -> tuple[float, float]:
        """The pages of a target between which addresses are shown."""
        text = self.browser.do("script", f"return document.querySelector('[data-target=\"{target}\"]').dataset.pages")
        low, high = map(float, text.split())
        return low, high

    def place(self, selector: str, target: int, tick: float, page: float) -> tuple[float, float]:
        """Where a tick and a page are in a lane."""
        width, height, since, until, low, high = self.browser.do("script", f"""
            const {{ width, height }} = document.querySelector('{selector}').getBoundingClientRect();
            const texts = [document.body.dataset.time, document.querySelector('[data-target="{target}"]').dataset.pages];
            return [width, height, ...texts.flatMap(text => text.split(' ').map(Number))]""")
        return (GUTTER + (width - GUTTER - RIGHT) * (tick - since) / (until - since), height * (high - page) / (high - low))

    def points(self, places: list[tuple[int, float, float]], number: int = 0) -> list[str]:
        """The colours of targets at ticks and pages, of the first report, of the second one, or of the difference."""
        return list(self.browser.do("script", POINTS.format(places=json.dumps(places), number=number)))

    def hover(self, target: int, tick: float, page: float, number: int = 0) -> dict[str, list[str]]:
        """What the box beside the pointer says, by the names of its lines."""
        selector = self.lane(target, number)
        self.browser.do("move", selector, *self.place(selector, target, tick, page))
        lines = self.browser.do("script", "return [...document.querySelectorAll('#hover [data-field]')].map("
                                "line => [line.dataset.field, ...[...line.querySelectorAll('td')].map(cell => cell.innerText)])")
        return {name: cells for name, *cells in lines}

    def at_cursor(self, name: str) -> tuple[str, str, list[list[str]]]:
        """Where the cursor is said to be, the heading of the table of a report, and its rows."""
        position, heading = self.browser.do("script", "return [document.querySelector('#position').innerText,"
                                            f"document.querySelector('[data-report=\"{name}\"] h2').innerText]")
        return position, heading, self.table(name)

    def table(self, name: str) -> list[list[str]]:
        """The rows of the table of a report, cell by cell."""
        return list(self.browser.do("script", f"return [...document.querySelectorAll('[data-report=\"{name}\"] tbody tr')].map("
                                    "line => [...line.cells].map(cell => cell.innerText))"))


def middle(row: Row) -> float:
    return (row.start + row.end) / 2 / PAGE


def heat(found: Found, row: Row) -> str:
    """The colour of a row: the first of ten for a count of 0, and the others for the nine parts of the passes."""
    return LIGHT.panel if row.count == 0 else LIGHT.heat[min(8, 9 * row.count // found.passes)]


def scheme_words(found: Found, start: int, end: int, target: int) -> list[str]:
    """What the runs of schemes that have pages of a stretch are said to be, each once."""
    runs = sorted((run for run in found.runs if run.target == target and run.start < end and run.end > start), key=lambda run: run.start)
    return [*dict.fromkeys(f"slot {run.slot} {run.action}, score {run.score}" for run in runs)]
