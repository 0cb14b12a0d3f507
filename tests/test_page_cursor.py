#!/usr/bin/env python3
"""Tests of a page of tools/page.py in a browser: its cursor, its tables, its parts and its keys, beside the words of its reports."""
from __future__ import annotations

import unittest

from page_parts import PAGE, REPORT, Found
from page_shown import GUTTER, RIGHT, Pages, Shown, middle, scheme_words
from tool_runs import TOP, report_of

from drawing.style import DARK, LIGHT
from webpage.document import DIFFERENCE

QUIET = REPORT.replace("rows=2\n", "rows=3\n").replace("row 1 ", "row 2 0x50000-0x60000 count=0 last=0 age=1\nrow 1 ")
"""A report of which one target was never found accessed."""
FEW = {1: 16, 2: 9}
"""How many rows a table has at first, by the number of reports."""
PLAY = """
const done = arguments[0], play = document.querySelector('#play'), position = document.querySelector('#position'), seen = [];
new MutationObserver(() => seen.push(`${play.ariaPressed} ${position.innerText.split('aggregation ')[1]}`)).observe(position, { childList: true });
document.body.dispatchEvent(new KeyboardEvent('keydown', { key: ' ', bubbles: true }));
setInterval(() => play.ariaPressed === 'false' && done(seen), 20);
"""
"""Plays, and gives what was said at each step."""


def setUpModule() -> None:
    Pages.start()


class Cursor(Shown):
    def rows_of(self, found: Found, most: int) -> list[list[str]]:
        """What the table says: the rows of an aggregation, the hottest one first."""
        rows = sorted(found.rows, key=lambda row: (-row.count, -row.pages, row.target, row.start))
        return [[f"target {row.target}", row.addresses, f"{row.pages}", f"{row.count}", f"{row.last}", f"{row.age}",
                 "; ".join(scheme_words(found, row.start, row.end, row.target))] for row in rows[:most]]

    def test_it_steps_from_aggregation_to_aggregation(self) -> None:
        self.open(Pages.one())
        for number, found in enumerate(Pages.runs[0].found):
            place = f"aggregation {number + 1} of {len(Pages.runs[0].found)}"
            position, heading, rows = self.at_cursor("age1.report")
            self.assertTrue(position.endswith(place), position)
            self.assertEqual((heading, rows), (f"{place}, at interval {found.tick}", self.rows_of(found, FEW[1])))
            self.browser.do("keys", "ARROW_RIGHT")
        number, found = max(enumerate(Pages.runs[0].found), key=lambda pair: len(pair[1].rows))
        self.assertGreater(len(found.rows), FEW[1])
        self.browser.do("keys", "HOME", *["ARROW_RIGHT"] * (number - 1))
        self.browser.do("click", "#forth")
        self.browser.do("click", ".more")
        self.assertEqual(self.table("age1.report"), self.rows_of(found, 1000))

    def test_what_schemes_took(self) -> None:
        self.open(Pages.one())
        number, found = max(enumerate(Pages.runs[0].found), key=lambda pair: len(pair[1].runs))
        self.browser.do("keys", *["ARROW_RIGHT"] * number)
        self.browser.do("click", ".taken")
        self.assertEqual(self.table("age1.report"), [cells for cells in self.rows_of(found, 1000) if cells[6]][: FEW[1]])

    def test_the_slider_has_the_same_cursor(self) -> None:
        self.open(Pages.one())
        self.browser.do("script", "document.querySelector('#cursor').focus()")
        self.browser.do("keys", "ARROW_RIGHT", "ARROW_RIGHT", "ARROW_LEFT")
        self.assertEqual(self.table("age1.report"), self.rows_of(Pages.runs[0].found[1], FEW[1]))
        self.assertEqual(self.browser.do("script", "return document.querySelector('#cursor').ariaValueText"), self.browser.text("#position"))

    def test_a_click_puts_it_there(self) -> None:
        self.open(Pages.one())
        found = Pages.runs[0].found[17]
        x, y = self.place(self.lane(2), 2, found.tick - 1, sum(self.pages(2)) / 2)
        self.browser.do("click", self.lane(2), x, y)
        self.assertEqual(self.table("age1.report"), self.rows_of(found, FEW[1]))

    def test_an_address_can_name_it(self) -> None:
        found = Pages.runs[0].found[8]
        self.open(Pages.one(), f"#{found.tick}")
        self.assertEqual(self.table("age1.report"), self.rows_of(found, FEW[1]))

    def test_it_plays_to_the_end(self) -> None:
        self.open(Pages.one())
        self.browser.do("keys", "END", "ARROW_LEFT", "ARROW_LEFT", "ARROW_LEFT")
        seen = self.browser.do("wait", PLAY)
        count = len(Pages.runs[0].found)
        self.assertEqual([*dict.fromkeys(seen)], [f"true {place} of {count}" for place in range(count - 3, count)] + [f"false {count} of {count}"])
        self.assertEqual(self.table("age1.report"), self.rows_of(Pages.runs[0].found[-1], FEW[1]))

    def test_facts_at_the_cursor(self) -> None:
        self.open(Pages.one())
        memory = [line.split() for line in Pages.runs[0].text.splitlines() if line.startswith("reclaim ")]
        before = 0
        for number, (found, words) in enumerate(zip(Pages.runs[0].found[:6], memory)):
            facts = self.browser.texts("#tables .facts li")
            pages = sum(run.end - run.start for run in found.runs) // PAGE
            self.assertIn(f"regions: {len(found.rows)}", facts[0])
            self.assertIn(f"working set: {4 * found.working_set} KiB;", facts[0])
            self.assertIn(f"quota left, slot 0: {4 * found.left[0]} KiB".replace(": 0 KiB", ": 0 bytes"), facts[0])
            # The pages that are resident after an aggregation are so until the next one.
            resident = int(memory[number - 1][2].partition("=")[2]) if number else None
            self.assertTrue(resident is None or f"resident: {4 * resident} KiB" in facts[0], facts)
            refaults = int(words[5].partition("=")[2])
            self.assertTrue(facts[0].endswith(f"refaults: {refaults - before}"), facts)
            before = refaults
            self.assertTrue(facts[1].startswith(f"slot 0 pageout: active, applied to {pages} page"), facts)
            self.browser.do("keys", "ARROW_RIGHT")


class Two(Shown):
    def test_both_have_one_cursor(self) -> None:
        self.open(Pages.both())
        self.browser.do("keys", "ARROW_RIGHT", "ARROW_RIGHT", "ARROW_RIGHT")
        for run in Pages.runs:
            rows = Cursor().rows_of(run.found[3], FEW[2])
            self.assertEqual(self.table(run.path.name), rows)

    def test_the_difference(self) -> None:
        self.open(Pages.both())
        self.browser.do("keys", "END", "ARROW_LEFT", "ARROW_LEFT", "ARROW_LEFT", "d")
        one, other = (run.found[-4] for run in Pages.runs)
        shares: dict[tuple[int, int], list[float]] = {}
        for found in (one, other):
            for row in found.rows:
                for page in range(row.start // PAGE, row.end // PAGE):
                    shares.setdefault((row.target, page), []).append(row.count / found.passes)
        differ = {place: round(100 * (second - first)) for place, (first, second) in shares.items() if first != second}
        said: dict[tuple[int, int], int] = {}
        for area, addresses, pages, first, second, difference in self.table("difference"):
            start, end = (int(address, 16) // PAGE for address in addresses.split("-"))
            self.assertEqual(end - start, int(pages))
            share = int(difference.replace("\u2212", "-").removesuffix("%"))
            said |= {(int(area.removeprefix("target ")), page): share for page in range(start, end)}
        self.assertEqual({place: differ[place] for place in said}, said)
        if len(self.table("difference")) < FEW[1]:
            self.assertEqual(said.keys(), differ.keys())
        self.assertTrue(differ)
        colours = self.points([(target, one.tick - one.passes / 2, page + 0.5) for target, page in differ], 2)
        for (target, page), percent, colour in zip(differ, differ.values(), colours):
            self.assertEqual((DIFFERENCE.index(colour) > 4, DIFFERENCE.index(colour) < 4), (percent > 0, percent < 0), (target, page))
        self.browser.do("click", "#difference")
        self.assertEqual(self.table("age1.report"), Cursor().rows_of(one, FEW[2]))


class Parts(Shown):
    def test_targets_are_folded(self) -> None:
        self.open(Pages.page("quiet", text=QUIET))
        expanded = "return [...document.querySelectorAll('.target [aria-expanded]')].map(one => [one.innerText, one.ariaExpanded])"
        self.assertEqual(self.browser.do("script", expanded), [["target 2", "false"], ["target 1", "true"], ["target 0", "true"]])
        self.assertIn("never found accessed", self.browser.text('[data-target="2"] h2'))
        self.browser.do("click", '[data-target="1"] [aria-expanded]')
        self.browser.do("click", '[data-target="2"] [aria-expanded]')
        self.assertEqual([is_open for _, is_open in self.browser.do("script", expanded)], ["true", "false", "true"])
        for button, wanted in (("#fold", "false"), ("#unfold", "true")):
            self.browser.do("click", button)
            self.assertEqual({is_open for _, is_open in self.browser.do("script", expanded)}, {wanted})

    def test_curves_say_their_values(self) -> None:
        self.open(Pages.one())
        for found in Pages.runs[0].found[3:30:9]:
            for name, wanted in (("regions", f"{len(found.rows)}"), ("working set", f"{4 * found.working_set} KiB")):
                selector = f'[data-curve="{name}"] .lane'
                since, until = self.time()
                x = GUTTER + (self.size(selector)[0] - GUTTER - RIGHT) * (found.tick - 1 - since) / (until - since)
                self.browser.do("move", selector, x, 30)
                self.assertEqual(self.browser.text('#hover [data-field="value"] td'), wanted)

    def test_commits_and_active_slots(self) -> None:
        script = TOP / "examples/watermarks.damon"
        self.open(Pages.page("watermarks", "--script", str(script), text=report_of(script.read_text())))
        titles = self.browser.do("script", "return [...document.querySelectorAll('#strips title')].map(one => one.textContent)")
        self.assertEqual([title for title in titles if title.startswith("slot")], [
            "slot 0: inactive from tick 0 to 1", "slot 0: active from tick 1 to 3", "slot 0: active from tick 4 to 7",
            "slot 1: active from tick 5 to 6", "slot 1: inactive from tick 6 to 7"])
        self.assertIn("tick 1: metric 399: ok rows=3 void=no", titles)
        self.browser.do("keys", "HOME")
        self.assertIn("commit at 1: metric 399, ok rows=3 void=no", self.browser.text("#tables"))

    def test_what_is_left_out_is_said(self) -> None:
        self.open(Pages.page("cut", "--most", "500", str(Pages.runs[0].path)))
        rows = [len(found.rows) for found in Pages.runs[0].found]
        step = next(step for step in range(1, 99) if sum(rows[::-step]) <= 500)
        self.assertIn(f"of {len(rows)} aggregations the page has one of each {step}: {len(rows[::-step])}, with {sum(rows[::-step])} rows",
                      self.browser.text("#notes"))
        self.open(Pages.one())
        self.assertEqual(self.browser.text("#notes"), "")

    def test_dark_and_light(self) -> None:
        self.open(Pages.one())
        found = Pages.runs[0].found[0]
        row = max(found.rows, key=lambda row: row.count)
        for scheme, theme in (("dark", DARK), ("light", LIGHT)):
            self.browser.do("prefer", scheme)
            self.browser.do("wait", "setTimeout(arguments[0], 100)")
            self.assertIn(self.points([(row.target, found.tick / 2, middle(row))])[0], theme.heat)


class Keyboard(Shown):
    def test_regions_can_be_asked_without_a_mouse(self) -> None:
        self.open(Pages.one())
        found, target = Pages.runs[0].found[5], 1
        self.browser.do("keys", *["ARROW_RIGHT"] * 5)
        self.browser.do("script", f"document.querySelector('{self.lane(target)}').focus()")
        self.browser.do("keys", "ARROW_UP")
        rows = [row for row in found.rows if row.target == target]
        hottest = max(range(len(rows)), key=lambda place: (rows[place].count, -place))
        for key in ["", *["ARROW_UP"] * 4, *["ARROW_DOWN"] * (hottest + 6)]:
            if key:
                self.browser.do("keys", key)
                hottest = min(max(hottest + (1 if key == "ARROW_UP" else -1), 0), len(rows) - 1)
            said = self.browser.text("#hover")
            for words in (rows[hottest].addresses, f"{rows[hottest].count} of {found.passes} passes"):
                self.assertIn(words, said)
                self.assertIn(words, self.browser.text("#said"))
        self.browser.do("keys", "ESCAPE")
        self.assertEqual(self.browser.text("#hover"), "")

    def test_everything_has_a_name_and_the_focus_goes_in_order(self) -> None:
        self.open(Pages.both())
        names = self.browser.do("script", "return [...document.querySelectorAll('button, input, [role]')].map("
                                "one => [one.tagName, (one.ariaLabel ?? one.labels?.[0]?.innerText ?? one.innerText).trim()])")
        nameless = [name for name in names if not name[1] and name[0] not in ("P",)]
        self.assertEqual(nameless, [])
        self.assertGreater(len(names), 40)
        order = []
        self.browser.do("script", "document.activeElement.blur(); window.scrollTo(0, 0)")
        for _ in range(13):
            self.browser.do("keys", "TAB")
            order.append(self.browser.do("script", "const one = document.activeElement; return one.id || one.ariaLabel || one.innerText"))
        self.assertEqual(order[:10], ["play", "back", "cursor", "forth", "closer", "farther", "whole", "unfold", "fold", "difference"])
        self.assertEqual(order[10:12], ["target 4", "target 4 taller"])


if __name__ == "__main__":
    unittest.main()
