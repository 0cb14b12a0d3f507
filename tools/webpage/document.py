"""Puts a page together: its text, its style and its scripts, the data, and D3."""
from __future__ import annotations

import json
import re
from html import escape
from pathlib import Path
from typing import Any

from drawing.style import DARK, LIGHT, Theme

from .block import Block
from .d3 import LICENCE

PARTS = Path(__file__).parent
SCRIPTS = ("columns", "view", "raster", "colours", "lane", "panels", "curves", "strips", "values", "tables", "steps", "main")
"""In this order: a script uses those before it as it is loaded."""
HOLE = re.compile(r"\{\{(\w+)\}\}")
DIFFERENCE = ("#0b2e63", "#1f4f8f", "#4673ad", "#7394ba", "#a3a3a3", "#c9b184", "#e0c26c", "#f2d868", "#fff2a8")
"""From accessed less to accessed more, in light and in dark: lighter from step to step, so that the colours need not be told apart."""


def variables(theme: Theme) -> str:
    """The colours of a theme as variables of CSS."""
    named = {name: getattr(theme, name) for name in ("paper", "panel", "ink", "soft", "line", "blind", "area", "edge")}
    named |= {f"heat{step}": colour for step, colour in enumerate(theme.heat, 1)}
    named |= {f"slot{number}": colour for number, colour in enumerate(theme.slot)}
    named |= {f"difference{step}": colour for step, colour in enumerate(DIFFERENCE)}
    return "".join(f"--{name}:{colour};" for name, colour in named.items())


def colours(theme: str) -> str:
    """The colours of a page: `light`, `dark`, or `auto`, which follows what the reader prefers."""
    light = f":root{{color-scheme:light;{variables(LIGHT)}}}"
    dark = f":root{{color-scheme:dark;{variables(DARK)}}}"
    if theme == "auto":
        return f"{light}\n@media (prefers-color-scheme:dark){{{dark}}}"
    return dark if theme == "dark" else light


def page(title: str, meta: dict[str, Any], block: Block, d3: str, theme: str) -> str:
    """The whole page."""
    scripts = [f"// {name}.js\n{(PARTS / f'{name}.js').read_text()}" for name in SCRIPTS]
    parts = {
        "title": escape(title),
        "theme": "" if theme == "auto" else f' data-theme="{theme}"',
        "colours": colours(theme),
        "style": (PARTS / "page.css").read_text(),
        # A `<` could end the element that has the text.
        "meta": json.dumps(meta, separators=(",", ":")).replace("<", "\\u003c"),
        "block": block.text(),
        "licence": LICENCE.read_text(),
        "d3": d3,
        "scripts": "\n".join(scripts),
    }
    return HOLE.sub(lambda hole: parts[hole[1]], (PARTS / "page.html").read_text())
