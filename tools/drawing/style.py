"""The colours of a picture, in light and in dark, as rules of CSS."""
from __future__ import annotations

from dataclasses import dataclass


@dataclass(frozen=True)
class Theme:
    """The colours of one theme, by what they are used for."""

    paper: str
    panel: str
    ink: str
    soft: str
    line: str
    blind: str
    """The hatch of what is not watched."""
    area: str
    edge: str
    heat: tuple[str, ...]
    slot: tuple[str, ...]
    mark: tuple[str, ...]
    """For the values of a setting in their order, or for workloads."""


LIGHT = Theme(
    paper="#ffffff", panel="#f3f1ec", ink="#24292f", soft="#646b73", line="#d0ccc4", blind="#b4b0a8",
    area="#9fc3e8", edge="#1f6fb5",
    heat=("#fdebc8", "#fdd49e", "#fdb97d", "#fb9a59", "#f27c44", "#e05a33", "#c43a27", "#9c1f1f", "#6b0f1a"),
    slot=("#0b7285", "#5f3dc4", "#2b8a3e", "#a61e4d"),
    mark=("#1b0c5a", "#3f1f9e", "#7a1fa6", "#a6278f", "#c73e72", "#dd5f4f", "#e0822b", "#b89600"),
)
DARK = Theme(
    paper="#14171b", panel="#1f242a", ink="#e6e8ea", soft="#9aa3ad", line="#3a424b", blind="#4d5660",
    area="#27496d", edge="#6cb2f5",
    heat=("#3f2128", "#5c2530", "#7e2a34", "#a13434", "#c14a34", "#db6a3a", "#ee8f4c", "#f9b96c", "#ffe6a8"),
    slot=("#3bc9db", "#b197fc", "#69db7c", "#f783ac"),
    mark=("#7ea6ff", "#9a8bff", "#bd7cf0", "#da70cf", "#f06fa0", "#fb8a6c", "#fbb04a", "#f3e35a"),
)
SLOT_COLOURS = 4
"""Slots take their colours in turn."""
MARK_COLOURS = 8


def rules(theme: Theme) -> str:
    """The rules of one theme."""
    lines = [
        f".paper{{fill:{theme.paper}}}",
        f".panel{{fill:{theme.panel}}}",
        f"text{{fill:{theme.ink}}}",
        f".soft{{fill:{theme.soft}}}",
        f".frame{{stroke:{theme.line}}}",
        f".area{{fill:{theme.area}}}",
        f".edge{{stroke:{theme.edge}}}",
        f".blind{{fill:{theme.blind}}}",
        f".dot{{fill:{theme.ink}}}",
        f".commit,.cross,.waiting{{stroke:{theme.ink}}}",
        f".over{{stroke:{theme.paper}}}",
    ]
    lines += [f".h{step}{{fill:{colour}}}" for step, colour in enumerate(theme.heat, 1)]
    for number, colour in enumerate(theme.slot):
        lines += [f".s{number}{{stroke:{colour}}}", f".t{number}{{fill:{colour}}}"]
    for number, colour in enumerate(theme.mark):
        lines += [f".m{number}{{fill:{colour}}}", f".e{number}{{stroke:{colour}}}"]
    return "".join(lines)


def style(theme: str) -> str:
    """The style of a picture: `light`, `dark`, or `auto`, which follows what the reader prefers."""
    common = (
        "text{font-family:system-ui,-apple-system,'Segoe UI','DejaVu Sans',sans-serif;font-size:12px}"
        ".title{font-size:16px;font-weight:600}.small{font-size:10.5px}"
        ".right{text-anchor:end}.middle{text-anchor:middle}"
        ".faint{opacity:0.45}.frame{fill:none;stroke-width:1}.edge{fill:none;stroke-width:1.5;stroke-linejoin:round}"
        ".commit{fill:none;stroke-width:0.8;stroke-dasharray:3 2}.cross{fill:none;stroke-width:1.4}"
        ".waiting{fill:none;stroke-width:1;opacity:0.5}.stairs{fill:none;stroke-width:1.5;stroke-linejoin:round}"
        ".over{paint-order:stroke;stroke-width:3}"
        ".crisp{shape-rendering:crispEdges}.mark{fill:none;stroke-width:1.4}"
    )
    if theme == "light":
        return common + rules(LIGHT)
    if theme == "dark":
        return common + rules(DARK)
    return f"{common}{rules(LIGHT)}@media (prefers-color-scheme:dark){{{rules(DARK)}}}"
