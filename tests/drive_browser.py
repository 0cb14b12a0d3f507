#!/usr/bin/env python3
"""Drives a headless Chromium, for tests that run with another interpreter.

    /usr/bin/python3 tests/drive_browser.py < COMMANDS

needs Debian's chromium-driver and python3-selenium. Each line that it reads is a command as JSON, such
as {"do": "open", "path": "out/page.html"}, and each line that it writes is the answer: {"answer": ..},
or {"fault": ..}. Places are in points of the screen from the upper left corner of an element.
"""
from __future__ import annotations

import json
import signal
import sys
import time
from importlib import import_module
from pathlib import Path
from typing import Any

WIDTH, HEIGHT = 1440, 1000
SECONDS = 60
WORDS = ("--headless=new", "--disable-gpu", "--hide-scrollbars", f"--window-size={WIDTH},{HEIGHT}", "--force-device-scale-factor=1",
         # Chromium refuses to run as root with its sandbox, and tests may run as root.
         "--no-sandbox")
FRAMES = """const done = arguments[0], look = () => document.body.dataset.isDrawn === "no" ? requestAnimationFrame(look) : setTimeout(done, 0);
requestAnimationFrame(() => requestAnimationFrame(look))"""
"""Ends when what was changed until now is drawn."""
ASKING = ("script", "log", "cost")
"""The commands after which nobody waits until all is drawn."""

webdriver: Any = import_module("selenium.webdriver")
chains: Any = import_module("selenium.webdriver.common.action_chains")
wheels: Any = import_module("selenium.webdriver.common.actions.wheel_input")
Keys: Any = import_module("selenium.webdriver.common.keys").Keys


def started() -> Any:
    """A browser of Debian, with its own driver, so that nothing is looked for elsewhere."""
    options = webdriver.ChromeOptions()
    for word in WORDS:
        options.add_argument(word)
    options.binary_location = "/usr/bin/chromium"
    options.set_capability("goog:loggingPrefs", {"browser": "ALL"})
    service = import_module("selenium.webdriver.chrome.service").Service("/usr/bin/chromedriver")
    browser = webdriver.Chrome(service=service, options=options)
    browser.set_script_timeout(SECONDS)
    return browser


class Driver:
    """The commands, by their names."""

    def __init__(self, browser: Any) -> None:
        self.browser = browser

    def open(self, path: str, fragment: str = "") -> None:
        """Opens a page, and waits until it is drawn or says that it cannot be."""
        self.browser.get("about:blank")
        self.browser.get(Path(path).resolve().as_uri() + fragment)
        end = time.monotonic() + SECONDS
        while not self.browser.execute_script("return document.body.dataset.ready || !document.querySelector('#fault').hidden"):
            if time.monotonic() > end:
                raise TimeoutError(f"{path} was not drawn")
            time.sleep(0.02)

    def script(self, text: str) -> Any:
        return self.browser.execute_script(text)

    def wait(self, text: str) -> Any:
        """The answer of a script that calls its first argument with it."""
        return self.browser.execute_async_script(text)

    def cost(self, text: str) -> float:
        """The milliseconds of processor time that the thread of the page takes for a script like those of `wait`, and for what it causes."""
        self.browser.execute_cdp_cmd("Performance.enable", {"timeDomain": "threadTicks"})
        before = self.spent()
        self.wait(text)
        return 1000 * (self.spent() - before)

    def spent(self) -> float:
        """The seconds of processor time that the thread of the page took for tasks since it was asked first."""
        found = self.browser.execute_cdp_cmd("Performance.getMetrics", {})["metrics"]
        return float({metric["name"]: metric["value"] for metric in found}["TaskDuration"])

    def place(self, selector: str, x: float, y: float) -> tuple[Any, int, int]:
        """An element, which is brought into the window, and a place in it as the actions take it: from its middle."""
        element = self.browser.find_element("css selector", selector)
        self.browser.execute_script("arguments[0].scrollIntoView({ block: 'center' })", element)
        size = element.size
        return element, round(x - size["width"] / 2), round(y - size["height"] / 2)

    def wheel(self, selector: str, x: float, y: float, turn: int, key: str = "") -> None:
        """Turns the wheel, with a key if one is named; up is less than 0."""
        origin = wheels.ScrollOrigin.from_element(*self.place(selector, x, y))
        chain = chains.ActionChains(self.browser)
        chain = chain.key_down(getattr(Keys, key)) if key else chain
        chain = chain.scroll_from_origin(origin, 0, turn)
        (chain.key_up(getattr(Keys, key)) if key else chain).perform()

    def move(self, selector: str, x: float, y: float) -> None:
        chains.ActionChains(self.browser).move_to_element_with_offset(*self.place(selector, x, y)).perform()

    def drag(self, selector: str, x: float, y: float, right: int, down: int) -> None:
        chain = chains.ActionChains(self.browser).move_to_element_with_offset(*self.place(selector, x, y))
        chain.click_and_hold().move_by_offset(right, down).release().perform()

    def click(self, selector: str, x: float | None = None, y: float = 0) -> None:
        chain = chains.ActionChains(self.browser)
        if x is None:
            chain = chain.move_to_element(self.browser.find_element("css selector", selector))
        else:
            chain = chain.move_to_element_with_offset(*self.place(selector, x, y))
        chain.click().perform()

    def keys(self, *names: str) -> None:
        """Presses keys one after another: the name of a key, or a letter."""
        chain = chains.ActionChains(self.browser)
        for name in names:
            chain = chain.send_keys(getattr(Keys, name, name))
        chain.perform()

    def prefer(self, scheme: str) -> None:
        self.browser.execute_cdp_cmd("Emulation.setEmulatedMedia", {"features": [{"name": "prefers-color-scheme", "value": scheme}]})

    def shot(self, path: str) -> None:
        self.browser.save_screenshot(path)

    def log(self) -> list[str]:
        """The errors that the page wrote to the console since it was asked last."""
        return [entry["message"] for entry in self.browser.get_log("browser") if entry["level"] == "SEVERE"]


def main() -> None:
    # A driver that is ended takes its browser with it.
    signal.signal(signal.SIGTERM, lambda *_: sys.exit(1))
    browser = started()
    try:
        driver = Driver(browser)
        for line in sys.stdin:
            command = json.loads(line)
            try:
                name = command.pop("do")
                answer = getattr(driver, name)(*command.pop("words", ()), **command)
                if name not in ASKING:
                    browser.execute_async_script(FRAMES)
                print(json.dumps({"answer": answer}), flush=True)
            except Exception as error:  # pylint: disable=broad-except
                print(json.dumps({"fault": f"{type(error).__name__}: {error}"}), flush=True)
    finally:
        browser.quit()


if __name__ == "__main__":
    main()
