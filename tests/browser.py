"""A browser for tests: headless Chromium, driven by an interpreter that has Selenium (`drive_browser.py`)."""
from __future__ import annotations

import json
import subprocess
from functools import lru_cache
from pathlib import Path
from typing import Any

from tool_runs import TOP, interpreter_with

DRIVER = TOP / "tests/drive_browser.py"
CHROMIUM = (Path("/usr/bin/chromium"), Path("/usr/bin/chromedriver"))
PACKAGES = "chromium-driver python3-selenium"
"""Debian's packages that these tests need."""


@lru_cache(maxsize=None)
def what_is_missing() -> str:
    """What there is not, in words; nothing if a browser can be driven."""
    missing = [path.name for path in CHROMIUM if not path.exists()]
    if interpreter_with("selenium") is None:
        missing.append("selenium")
    return f"there is no {' and no '.join(missing)}: `apt-get install {PACKAGES}` installs them on Debian" if missing else ""


class BrowserError(Exception):
    """A command that failed."""


class Browser:
    """One browser. Its commands are those of `drive_browser.Driver`."""

    def __init__(self) -> None:
        self.process = subprocess.Popen([interpreter_with("selenium") or "", DRIVER], stdin=subprocess.PIPE, stdout=subprocess.PIPE, text=True)

    def do(self, name: str, *words: Any, **options: Any) -> Any:
        """Carries out a command, waits until what it changed is drawn, and gives its answer."""
        assert self.process.stdin and self.process.stdout
        print(json.dumps({"do": name, "words": words, **options}), file=self.process.stdin, flush=True)
        line = self.process.stdout.readline()
        if not line:
            raise BrowserError(f"the browser ended, with status {self.process.wait()}")
        found = json.loads(line)
        if "fault" in found:
            raise BrowserError(f"{name}: {found['fault']}")
        return found["answer"]

    def text(self, selector: str) -> str:
        """The text of an element as it is shown; none if it is not."""
        return str(self.do("script", f"const one = document.querySelector({json.dumps(selector)});"
                           "return one?.checkVisibility() ? one.innerText : ''"))

    def texts(self, selector: str) -> list[str]:
        """The texts of all elements that fit."""
        return list(self.do("script", f"return [...document.querySelectorAll({json.dumps(selector)})].map(one => one.innerText)"))

    def close(self) -> None:
        """Ends the browser and its driver."""
        assert self.process.stdin and self.process.stdout
        self.process.stdin.close()
        self.process.wait(timeout=60)
        self.process.stdout.close()
