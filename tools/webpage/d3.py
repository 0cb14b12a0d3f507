"""Finds D3, whose scales, axes and zoom the page uses."""
from __future__ import annotations

from pathlib import Path

BUNDLE = Path("/usr/share/nodejs/d3/dist/d3.min.js")
"""Where Debian's node-d3 has it in one file."""
LICENCE = Path(__file__).parent / "d3-licence.txt"


class D3Error(Exception):
    """There is no D3."""


def bundle(path: str | None) -> str:
    """The text of D3, of Debian's if no file is named. Raises D3Error."""
    try:
        text = Path(path or BUNDLE).read_text("utf-8")
    except OSError as error:
        help_of = "`apt-get install node-d3` installs it on Debian, and --d3 FILE names another d3.min.js"
        raise D3Error(f"there is no D3: {path or BUNDLE}: {error.strerror}; {help_of}") from None
    if "</script" in text:
        raise D3Error(f"{path or BUNDLE}: it has `</script`, so it cannot stand in a page")
    return text
