"""Pieces of SVG: texts, chips, arrows, and the colours and fonts of a chart."""

from dataclasses import dataclass
from typing import Tuple
from xml.sax.saxutils import escape

# after Okabe and Ito, who chose them to be told apart by colour-blind readers; every colour has a word beside it too
DRAW_COLOURS = ["#0072b2", "#7a6a00", "#8e4585", "#3c3c42", "#1b8a8f", "#4b3f9e"]
NARROW, WIDE = set("iljtfrI.,:;'|!()[] ·-"), set("mwMW@")
LINE = 12

STYLE = """
body { margin: 0; padding: 20px 24px 60px; background: #ffffff; color: #1d1d1f;
       font: 14px/1.45 "Helvetica Neue", Arial, "Liberation Sans", "DejaVu Sans", sans-serif; }
h1 { font-size: 22px; margin: 0 0 4px; }
h2 { font-size: 17px; margin: 34px 0 6px; }
p { margin: 4px 0; max-width: 1100px; }
.total { font-size: 15px; margin: 8px 0; }
.total b { font-size: 17px; }
.fault { border-left: 5px solid #d55e00; background: #fdf1e7; padding: 6px 12px; margin: 6px 0; }
.opening { color: #3d3d42; white-space: pre-line; }
.head { position: sticky; top: 0; z-index: 1; background: #ffffff; border-bottom: 1px solid #8a8a90;
        width: max-content; }
svg { display: block; }
svg text { font-family: "Helvetica Neue", Arial, "Liberation Sans", "DejaVu Sans", sans-serif; font-size: 12px;
           fill: #1d1d1f; }
svg .small { font-size: 10.5px; }
svg .tiny { font-size: 9.5px; }
svg .strong { font-weight: bold; }
svg .grey { fill: #5f5f66; }
svg .comment { font-style: italic; fill: #5f5f66; font-size: 11.5px; paint-order: stroke; stroke: #ffffff;
               stroke-width: 5px; }
svg .halo { paint-order: stroke; stroke: #ffffff; stroke-width: 4px; }
svg .glow { paint-order: stroke; stroke: #d55e00; stroke-width: 6px; }
svg .lane { font-size: 14px; font-weight: bold; }
svg .white { fill: #ffffff; }
.back { fill: transparent; }
.row:hover .back { fill: #eaf2fb; }
.unrun text { fill: #8a8a90; }
.lifeline { stroke: #1d1d1f; stroke-width: 1.5; }
.link { fill: #f1eeea; stroke: #b9b2a7; stroke-dasharray: 4 3; }
.rule { stroke: #e4e4e8; }
.chip rect { stroke-width: 1.2; }
.good rect { fill: #cfebf1; stroke: #00708a; }
.blocked rect { fill: #fdebc2; stroke: #b97a00; }
.held rect { fill: #ffffff; stroke: #00708a; stroke-dasharray: 4 2; }
.bad rect { fill: #d55e00; stroke: #a34700; }
.bad text { fill: #ffffff; font-weight: bold; }
.closed rect { fill: #fdf1e7; stroke: #d55e00; }
.dull rect { fill: #f3f3f5; stroke: #8a8a90; }
.cell { stroke: #5b6b7a; stroke-width: 1; fill: #ffffff; }
.cell.done { fill: #b3c0cc; }
.cell.before { fill: #e6ebef; }
.cell.stuck { fill: #fdf1e7; stroke: #d55e00; stroke-width: 1.5; }
.cross { stroke: #c03a00; stroke-width: 2.2; stroke-linecap: round; }
.band { stroke: #6d6d74; stroke-width: 0.8; }
.legend { display: flex; flex-wrap: wrap; gap: 7px 20px; margin: 7px 0; font-size: 12.5px; align-items: center; }
summary { margin: 6px 0; cursor: pointer; font-size: 13px; }
details[open] > summary span { display: none; }
.grey { color: #5f5f66; }
.contents { margin: 8px 0; padding-left: 18px; max-width: 1100px; }
.legend span { display: inline-flex; align-items: center; gap: 7px; }
"""

PATTERNS = """<defs>
<pattern id="stripes" width="8" height="8" patternUnits="userSpaceOnUse" patternTransform="rotate(45)">
<rect width="8" height="8" fill="#d55e00"/><rect width="2" height="8" fill="#ffe3cc"/></pattern>
<pattern id="hatch" width="6" height="6" patternUnits="userSpaceOnUse" patternTransform="rotate(45)">
<rect width="6" height="6" fill="#ffffff"/><rect width="2" height="6" fill="#b4b4ba"/></pattern>
</defs>"""


def draw_colour(draw: int) -> str:
    return DRAW_COLOURS[draw % len(DRAW_COLOURS)]


# ---- texts


def width_of(text: str, size: float = LINE) -> float:
    """About how wide the text is; rather too much than too little."""
    return size * sum(0.36 if sign in NARROW else 0.92 if sign in WIDE else 0.64 for sign in text)


def clipped(text: str, room: float, size: float = LINE) -> str:
    """The text, or a prefix of it with a mark that more follows, if it does not fit."""
    if width_of(text, size) <= room:
        return text
    while text and width_of(f"{text}…", size) > room:
        text = text[:-1]
    return f"{text.rstrip()}…"


def label(x: float, y: float, text: str, css: str = "", anchor: str = "start", more: str = "") -> str:
    return f'<text x="{x:g}" y="{y:g}" class="{css}" text-anchor="{anchor}"{more}>{escape(text)}</text>'


def upright(x: float, y: float, text: str, css: str, colour: str) -> str:
    """A text that runs upwards, in the middle of a band."""
    turned = f' transform="rotate(-90 {x:g} {y:g})" style="fill:{colour}"'
    return label(x, y, text, css, "middle", turned)


def tip(text: str) -> str:
    """What is shown where the pointer rests on the group."""
    return f"<title>{escape(text)}</title>"


def group(css: str, parts: list) -> str:
    return f'<g class="{css}">{"".join(parts)}</g>'


# ---- shapes


def line(x1: float, y1: float, x2: float, y2: float, css: str = "", more: str = "") -> str:
    return f'<line x1="{x1:g}" y1="{y1:g}" x2="{x2:g}" y2="{y2:g}" class="{css}"{more}/>'


def box(x: float, y: float, width: float, height: float, css: str = "", more: str = "") -> str:
    return f'<rect x="{x:g}" y="{y:g}" width="{width:g}" height="{height:g}" class="{css}"{more}/>'


def tipped(corner: Tuple[float, float], width: float, height: float, css: str, tips: Tuple[bool, bool]) -> str:
    """A box that ends in a point on the left, on the right, on both sides or on none."""
    x, y = corner
    left, right = (min(5, width / 4) if tip else 0 for tip in tips)
    upper = f"{x + left:g},{y:g} {x + width - right:g},{y:g} {x + width:g},{y + height / 2:g}"
    lower = f"{x + width - right:g},{y + height:g} {x + left:g},{y + height:g} {x:g},{y + height / 2:g}"
    return f'<polygon points="{upper} {lower}" class="{css}"/>'


def cross(x: float, y: float, arm: float = 5) -> str:
    return line(x - arm, y - arm, x + arm, y + arm, "cross") + line(x - arm, y + arm, x + arm, y - arm, "cross")


def diamond(x: float, y: float) -> str:
    """Where the link does what an honest one would not."""
    return f'<polygon points="{x:g},{y - 6:g} {x + 6:g},{y:g} {x:g},{y + 6:g} {x - 6:g},{y:g}" fill="#d40000"/>'


def dot(x: float, y: float, colour: str, is_full: bool) -> str:
    fill = colour if is_full else "#ffffff"
    return f'<circle cx="{x:g}" cy="{y:g}" r="4" fill="{fill}" stroke="{colour}" stroke-width="1.8"/>'


@dataclass
class Chip:
    """A word of a verdict in a coloured frame."""

    text: str
    css: str

    def width(self) -> float:
        """The word of a failed check is bold."""
        return width_of(self.text) * (1.14 if self.css == "bad" else 1) + 12


def total_width(row: list) -> float:
    return sum(chip.width() + 5 for chip in row) - 5


def fitted(row: list, room: float) -> list:
    """The chips, the last one cut if they have no room beside each other."""
    room -= sum(chip.width() + 5 for chip in row[:-1])
    return row[:-1] + [Chip(clipped(row[-1].text, room - 12), row[-1].css)]


def chips(x: float, y: float, room: float, row: list, is_right: bool) -> str:
    """Chips beside each other, from x on to the right, or up to x."""
    row, parts = fitted(row, room), []
    start = x if is_right else x - total_width(row)
    for chip in row:
        frame = box(start, y - 10, chip.width(), 20, more=' rx="4"')
        words = label(start + chip.width() / 2, y + 4, chip.text, "", "middle")
        parts.append(group(f"chip {chip.css}", [frame, words]))
        start += chip.width() + 5
    return "".join(parts)


def head(x: float, y: float, to_right: bool, fill: str, edge: str) -> str:
    """The head of an arrow whose point is at x."""
    back = x - 10 if to_right else x + 10
    points = f"{x:g},{y:g} {back:g},{y - 5:g} {back:g},{y + 5:g}"
    return f'<polygon points="{points}" fill="{fill}" stroke="{edge}" stroke-width="1.4"/>'


def arrow(start: Tuple[float, float], end: float, css: str, colour: str, style: str) -> str:
    """A horizontal arrow; style is whole, dashed, dotted or edged."""
    x, y = start
    to_right = end > x
    shaft = end - 9 if to_right else end + 9
    if style == "edged":
        parts = [line(x, y, shaft, y, more=' stroke="#d40000" stroke-width="5"')]
        parts.append(line(x, y, shaft, y, more=' stroke="#ffffff" stroke-width="2"'))
        parts.append(head(end, y, to_right, "#ffffff", "#d40000"))
    else:
        dashes = {"dashed": ' stroke-dasharray="8 4"', "dotted": ' stroke-dasharray="2 3"'}.get(style, "")
        parts = [line(x, y, shaft, y, more=f' stroke="{colour}" stroke-width="2"{dashes}')]
        parts.append(head(end, y, to_right, colour, colour))
    return group(f"arrow {css}", parts)
