#!/usr/bin/env python3
"""Tests of a page of tools/page.py in a browser: its drawing and its zoom, beside the words of its reports."""
from __future__ import annotations

import json
import unittest

from measure_page import FRAME, HOLD
from page_parts import PAGE, Found, Row
from page_shown import GUTTER, RIGHT, Pages, Shown, heat, middle, scheme_words

from drawing.style import LIGHT


PICTURES = "[...document.querySelectorAll('.target canvas')].map(one => one.toDataURL())"
ZOOM = """
const done = arguments[0], lane = document.querySelector(%s), { left, top } = lane.getBoundingClientRect();
lane.dispatchEvent(new WheelEvent('wheel', { deltaY: -500, clientX: left + 500, clientY: top + 20, bubbles: true, cancelable: true, view: window }));
requestAnimationFrame(() => done(%s))"""


def setUpModule() -> None:
    Pages.start()


class Heat(Shown):
    def test_colours_are_those_of_the_counts(self) -> None:
        self.open(Pages.one())
        # Lines around pages of a scheme, and rows of few points, would have other colours.
        asked = [(found, row) for found in Pages.runs[0].found for row in found.rows
                 if row.pages >= 3 and not scheme_words(found, row.start, row.end, row.target)]
        colours = self.points([(row.target, found.tick - found.passes / 2, middle(row)) for found, row in asked])
        self.assertEqual(colours, [heat(found, row) for found, row in asked])
        self.assertGreaterEqual(len(set(colours)), 4)

    def test_pages_of_schemes_are_hatched(self) -> None:
        self.open(Pages.one())
        rows = [(found, row) for found in Pages.runs[0].found[3::5] for row in found.rows if row.pages >= 3]
        for found, row in rows:
            # A line of points through the whole column meets the lines of a hatch, or the one around it.
            ticks = [found.tick - found.passes * (place + 0.5) / 30 for place in range(30)]
            points = self.points([(row.target, tick, middle(row)) for tick in ticks])
            is_taken = any(run.target == row.target and run.start <= row.start and row.end <= run.end for run in found.runs)
            if is_taken or not scheme_words(found, row.start, row.end, row.target):
                self.assertEqual(LIGHT.slot[0] in points, is_taken, row)
        self.assertEqual({bool(scheme_words(found, row.start, row.end, row.target)) for found, row in rows}, {True, False})

    def test_hover_says_what_the_row_says(self) -> None:
        self.open(Pages.one())
        asked = [(found, row) for found in Pages.runs[0].found[2:] for row in found.rows]
        taken = [(found, row) for found, row in asked if scheme_words(found, row.start, row.end, row.target)]
        for found, row in (*asked[:: len(asked) // 5], *taken[:: len(taken) // 3]):
            page = int(middle(row)) + 0.5
            self.check(self.hover(row.target, found.tick - found.passes / 2, page), 0, found, row, int(page))

    def check(self, said: dict[str, list[str]], report: int, found: Found, row: Row, page: int) -> None:
        count = len(Pages.runs[report].found)
        self.assertEqual(said["tick"][report], f"{found.tick} ({Pages.runs[report].found.index(found) + 1} of {count})")
        wanted = {"addresses": row.addresses, "count": f"{row.count} of {found.passes} passes", "last": f"{row.last}", "age": f"{row.age}"}
        self.assertEqual({name: said[name][report] for name in wanted}, wanted)
        self.assertTrue(said["size"][report].startswith(f"{row.pages} page"), said)
        scheme = scheme_words(found, page * PAGE, (page + 1) * PAGE, row.target)
        self.assertEqual(said.get("scheme", ["", ""])[report], "; ".join(scheme))

    def test_hover_of_two_reports_says_both(self) -> None:
        self.open(Pages.both())
        first, second = (run.found[20] for run in Pages.runs)
        row = max(first.rows, key=lambda row: (row.count, row.pages))
        said = self.hover(row.target, first.tick - 1, int(middle(row)) + 0.5)
        self.check(said, 0, first, row, int(middle(row)))
        self.check(said, 1, second, second.row_at(row.target, int(middle(row)) * PAGE), int(middle(row)))


class Zoom(Shown):
    TARGET = 1

    def setUp(self) -> None:
        super().setUp()
        self.open(Pages.one())
        self.selector = self.lane(self.TARGET)
        self.whole = (self.time(), self.pages(self.TARGET))

    def at(self, x: float, y: float) -> tuple[float, float]:
        """The tick and the page at a place."""
        (width, height), (since, until), (low, high) = self.size(self.selector), self.time(), self.pages(self.TARGET)
        return since + (until - since) * (x - GUTTER) / (width - GUTTER - RIGHT), high - (high - low) * y / height

    def test_the_wheel_zooms_around_the_pointer(self) -> None:
        before = self.at(400, 20)
        self.browser.do("wheel", self.selector, 400, 20, -300)
        (since, until), (low, high) = self.time(), self.pages(self.TARGET)
        self.assertLess(until - since, 0.9 * (self.whole[0][1] - self.whole[0][0]))
        self.assertLess(high - low, 0.9 * (self.whole[1][1] - self.whole[1][0]))
        for one, other, span in zip(before, self.at(400, 20), (until - since, high - low)):
            self.assertAlmostEqual(one, other, delta=0.02 * span)
        self.browser.do("wheel", self.selector, 400, 20, 3000)
        self.assertEqual((self.time(), self.pages(self.TARGET)), self.whole)

    def test_what_is_zoomed_is_asked_and_coloured_right(self) -> None:
        self.browser.do("wheel", self.selector, 500, 20, -500)
        since, until = self.time()
        low, high = self.pages(self.TARGET)
        asked = [(found, row) for found in Pages.runs[0].found for row in found.rows if row.target == self.TARGET
                 and since < found.tick - found.passes / 2 < until and low + 1 < int(middle(row)) + 0.5 < high - 1]
        self.assertGreater(len(asked), 5)
        for found, row in asked[:: len(asked) // 6]:
            said = self.hover(self.TARGET, found.tick - found.passes / 2, int(middle(row)) + 0.5)
            self.assertEqual((said["addresses"], said["age"]), ([row.addresses], [str(row.age)]))

    def test_lanes_that_a_frame_has_no_time_for_are_moved_and_drawn_later(self) -> None:
        def zoomed() -> tuple[list[str], list[str]]:
            """The pictures of all lanes in the frame after a turn of the wheel, and at the end."""
            soon = self.browser.do("wait", ZOOM % (json.dumps(self.selector), PICTURES))
            return soon, self.browser.do("script", f"return {PICTURES}")

        before = self.browser.do("script", f"return {PICTURES}")
        _, wanted = zoomed()
        self.browser.do("click", "#whole")
        self.assertEqual(self.browser.do("script", f"return {PICTURES}"), before)
        # Each look at the clock takes a second: a frame has time for one lane.
        self.browser.do("script", "let now = performance.now(); performance.now = () => now += 1000")
        soon, found = zoomed()
        self.assertEqual(found, wanted)
        states = ["old" if one == old else "drawn" if one == new else "moved" for one, old, new in zip(soon, before, wanted)]
        self.assertNotIn("old", [state for state, old, new in zip(states, before, wanted) if old != new])
        self.assertGreater(states.count("moved"), 1)

    def test_the_cost_of_a_frame_is_that_of_one_turn_of_the_wheel(self) -> None:
        before = self.browser.do("script", f"return {PICTURES}")
        # A page that is held would let the next test wait.
        self.addCleanup(self.open, Pages.one())
        self.browser.do("script", HOLD)
        for turn in (-80, -80, 80, 80):
            times, pictures = self.time(), self.browser.do("script", f"return {PICTURES}")
            self.assertGreater(self.browser.do("cost", FRAME.format(turn=turn)), 0)
            self.assertEqual(self.time()[1] - self.time()[0] < times[1] - times[0], turn < 0)
            self.assertNotEqual(self.browser.do("script", f"return {PICTURES}"), pictures)
        self.assertNotEqual(pictures, before)

    def test_one_direction_alone(self) -> None:
        for place, key, is_time, is_pages in ((500, "SHIFT", True, False), (500, "ALT", False, True), (40, "", False, True)):
            with self.subTest(place=place, key=key):
                self.browser.do("wheel", self.selector, place, 20, -300, key)
                self.assertEqual((self.time() != self.whole[0], self.pages(self.TARGET) != self.whole[1]), (is_time, is_pages))
                self.browser.do("click", "#whole")
                self.assertEqual((self.time(), self.pages(self.TARGET)), self.whole)
        self.browser.do("wheel", '[data-curve="regions"] .lane', 400, 20, -300)
        self.assertNotEqual(self.time(), self.whole[0])

    def test_dragging_moves_both(self) -> None:
        self.browser.do("wheel", self.selector, 500, 20, -500)
        before, (since, until), (low, high) = self.at(500, 20), self.time(), self.pages(self.TARGET)
        self.browser.do("drag", self.selector, 500, 20, 60, 9)
        for one, other, span in zip(before, self.at(560, 29), (until - since, high - low)):
            self.assertAlmostEqual(one, other, delta=0.02 * span)
        self.assertAlmostEqual(self.time()[1] - self.time()[0], until - since)
        # Two clicks of a slow machine are no double click, so the event is made.
        self.browser.do("wait", f"document.querySelector('{self.selector}').dispatchEvent(new MouseEvent('dblclick')); arguments[0]()")
        self.assertEqual((self.time(), self.pages(self.TARGET)), self.whole)

    def test_keys_zoom_around_the_cursor(self) -> None:
        self.browser.do("keys", "END", "+", "+")
        since, until = self.time()
        self.assertEqual((until, until - since), (self.whole[0][1], self.whole[0][1] / 4))
        self.browser.do("keys", "HOME")
        self.assertEqual(self.time()[0], 0)
        self.browser.do("keys", "-", "-")
        self.assertEqual(self.time(), self.whole[0])


if __name__ == "__main__":
    unittest.main()
