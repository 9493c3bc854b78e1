"""The page: the totals, the legend, and a chart for each link, each segment of a hop, each stream between devices."""

import textwrap
from dataclasses import dataclass, field
from html import escape
from typing import Dict, List

from charts import drawing
from charts.bands import UNKNOWN, Bands, Key, Stream
from charts.drawing import Chip, arrow, box, chips, cross, dot, draw_colour, group, label, line, tip, upright
from charts.reading import DEVICE, HOST, ON_INTERFACES, Line, Row, Run, is_arrival, number, packet_named
from charts.rows import Drawn, Fates, Places, draw_row, draw_text, fates_of

MOST_ROWS, UNRUN_ROWS = 2000, 5
# a chart of more rows than this folds; a phase that no comment ends has at most so many
UNFOLDED_ROWS, PHASE_ROWS = 20, 50
GUTTER, BAND, GAP, ROOM, HALF_LANE = 116, 24, 20, 266, 280
TITLE_HEIGHT, HEAD_HEIGHT, TAIL = 24, 46, 6
LABEL_STEP = 620
STATE_FILLS = {"unlocked": "#ffffff", "locked": "#fdebc2", "running": "#b5e0e8", "run": "#b5e0e8"}
STATE_FILLS.update({"doubt": "url(#hatch)", UNKNOWN: "url(#hatch)"})
STATE_FILLS.update({"broken": "url(#stripes)", "error": "url(#stripes)"})
HALOS = {"hatch": " halo", "stripes": " glow"}


# ---- the bands beside the lifelines


@dataclass
class Look:
    """How a value of a band is drawn."""

    fill: str
    text: str
    short: str = ""
    colour: str = "#1d1d1f"
    is_edged: bool = False


def look_of(value) -> Look:
    if not isinstance(value, Stream):
        colour = "#ffffff" if value in ("broken", "error") else "#1d1d1f"
        return Look(STATE_FILLS.get(value, "#ffffff"), value, colour=colour)
    tail = f", {value.under_way} under way" if value.under_way else ""
    if value.status == "secure" and value.draw is not None:
        text = f"secure, draw {value.draw}{tail}"
        return Look(draw_colour(value.draw), text, str(value.draw), "#ffffff", bool(tail))
    if value.status == "insecure":
        return Look("url(#stripes)", f"insecure{tail}", "", "#ffffff")
    fills = {"idle": "#ffffff", "secure": "#8a8a90"}
    hidden = value.status == UNKNOWN
    text = f"{value.under_way} under way" if hidden else f"{value.status}{tail}"
    return Look("url(#hatch)" if tail or hidden else fills.get(value.status, "url(#hatch)"), text)


def name_of(key: Key) -> List[str]:
    return ["stream", str(key[3])] if key[0] == "stream" else [key[0], str(key[1])]


def band_keys(bands: Bands, on: Line, side: str) -> List[Key]:
    """The bands at this side: the streams that the run speaks of, and of a link those interfaces, if it moves any."""
    streams = sorted((key for key in bands.values if key[:3] == ("stream", on, side)), key=lambda key: key[3])
    kind = "view" if side == HOST else "state"
    faces = [place for place, face in enumerate(bands.run.topology.faces) if Line("link", face.link) == on]
    moved = any(len(bands.changes[of, place]) > 1 for of in ("view", "state") for place in faces)
    named = {number(row.words[1]) for row in bands.run.rows if row.verb() in ON_INTERFACES and len(row.words) > 1}
    return streams + [(kind, place) for place in faces if moved and place in named]


# ---- one line


@dataclass
class Phase:
    """Rows of a chart that fold as one: from which height, part and event on, and the comment before them."""

    y: float
    part: int
    first: int
    comment: str
    rows: int = 0
    last: int = 0

    def title(self) -> str:
        return f"Event {self.first}" if self.first == self.last else f"Events {self.first} to {self.last}"


@dataclass
class Chart:
    """The picture of one line while it is made, from its top downwards."""

    line: Line
    places: Places
    columns: Dict[Key, float]
    width: float
    parts: List[str] = field(default_factory=list)
    y: float = 8
    heights: Dict[int, float] = field(default_factory=dict)
    phases: List[Phase] = field(default_factory=list)
    # rows that belong to no other line
    own_rows: int = 0

    def begin_phase(self, row: Row):
        """A comment begins a phase, and so does the row after one that is long."""
        if not self.phases or row.comment or self.phases[-1].rows == PHASE_ROWS:
            top = self.y if self.phases else 0
            self.phases.append(Phase(top, len(self.parts), row.number, " ".join(row.comment.split())))

    def add_comment(self, comment: str):
        room = int((self.places.device - self.places.host + ROOM) / 6.4)
        lines = textwrap.wrap(" ".join(comment.split()), room)
        if len(lines) > 3:
            lines = lines[:2] + [f"{lines[2]} …"]
        for words in lines:
            self.y += 15
            self.parts.append(label(self.places.host - ROOM / 2, self.y, words, "comment"))
        self.y += 5

    def add(self, row: Row, drawn: Drawn):
        """An event, with its number and line; what was read and written is shown where the pointer rests."""
        back = box(0, 0, self.width, drawn.height, "back")
        numbers = label(46, drawn.middle + 4, str(row.number), "strong", "end")
        numbers += label(56, drawn.middle + 4, f"line {row.line}", "small grey")
        css = "row" if row.verdict else "row unrun"
        inner = "".join([tip(row.raw()), back, numbers] + drawn.parts)
        self.parts.append(f'<g class="{css}" transform="translate(0 {self.y:g})">{inner}</g>')
        self.heights[row.number] = self.y + drawn.middle
        self.y += drawn.height
        self.phases[-1].rows += 1
        self.phases[-1].last = row.number
        self.own_rows += row.line_drawn is not None

    def add_note(self, text: str):
        self.y += 24
        self.parts.append(label(self.places.host + 14, self.y, text, "strong grey"))
        self.y += 10

    def folds(self) -> bool:
        return len(self.phases) > 1 and sum(phase.rows for phase in self.phases) > UNFOLDED_ROWS

    def pictures(self, bands: Bands, window: "Window") -> str:
        """The chart, in a part for each phase if it is long."""
        if not self.folds():
            return self.svg(bands, window, 0, self.bottom(), self.parts)
        ends = [(phase.y, phase.part) for phase in self.phases[1:]] + [(self.bottom(), len(self.parts))]
        parts = []
        for place, (phase, (bottom, end)) in enumerate(zip(self.phases, ends)):
            picture = self.svg(bands, window, phase.y, bottom, self.parts[phase.part:end])
            words = f'<summary>{phase.title()}<span class="grey"> {escape(phase.comment)}</span></summary>'
            id = f'id="{self.line.mark()}-{place + 1}"'
            parts.append(f'<details open="open" {id}>{words}{picture}</details>')
        return "\n".join(parts)

    def bottom(self) -> float:
        return self.y + TAIL

    def svg(self, bands: Bands, window: "Window", top: float, bottom: float, parts: List[str]) -> str:
        """What stands between two heights."""
        name = f"The events of: {self.line.title()}"
        return svg(self.width, top, bottom, self.back(bands, window, top, bottom) + parts, name)

    def back(self, bands: Bands, window: "Window", top: float, bottom: float) -> List[str]:
        back = [box(self.places.edge(HOST), top, 2 * self.places.half, bottom - top, "link")]
        back += [line(x, top, x, bottom, "lifeline") for x in (self.places.host, self.places.device)]
        for key, x in self.columns.items():
            back += self.band(bands.changes[key], x, top, bottom, window)
        return back

    def band(self, changes: List[tuple], x: float, first: float, last: float, window: "Window") -> List[str]:
        """The stretches of a band between two heights: each from the event that began it to the one that ended it."""
        shown = [(self.height_of(event, window.first()), value) for event, value in changes if event <= window.last()]
        parts = []
        for place, (top, value) in enumerate(shown):
            end = shown[place + 1][0] if place + 1 < len(shown) else last
            top, end = max(top, first), min(end, last)
            if end - top >= 1:
                parts += stretch(x, top, end, look_of(value))
        return parts

    def height_of(self, event: int, first: int) -> float:
        """Where an event stands; one that this chart does not show stands before the next one that it does."""
        if event < first:
            return 0
        later = [y for number, y in self.heights.items() if number >= event]
        return later[0] if later else self.y + 8


def stretch(x: float, top: float, end: float, look: Look) -> List[str]:
    """A stretch of one value, with its word as often as is needed to see it."""
    parts = [tip(look.text), box(x, top, BAND, end - top, "band", f' fill="{look.fill}"')]
    if look.is_edged:
        parts.append(box(x + BAND - 7, top, 7, end - top, more=' fill="url(#hatch)"'))
    fits = drawing.width_of(look.text, 11) + 8 <= end - top
    text = look.text if fits else look.short
    middle = x + BAND / 2 + 4 - (3 if look.is_edged else 0)
    if fits:
        count = max(1, int((end - top) // LABEL_STEP))
        css = "small strong" + next((css for name, css in HALOS.items() if name in look.fill), "")
        for place in range(count):
            parts.append(upright(middle, top + (end - top) * (place + 0.5) / count, text, css, look.colour))
    elif text and end - top >= 14:
        colour = f' style="fill:{look.colour}"'
        parts.append(label(x + BAND / 2, (top + end) / 2 + 4, text, "small strong", "middle", colour))
    return [group("stretch", parts)]


def svg(width: float, top: float, bottom: float, parts: List[str], name: str) -> str:
    height = bottom - top
    size = f'width="{width:g}" height="{height:g}" viewBox="0 {top:g} {width:g} {height:g}"'
    start = f'<svg xmlns="http://www.w3.org/2000/svg" role="img" aria-label="{escape(name)}" {size}>'
    return "\n".join([start, *parts, "</svg>"])


def laid_out(on: Line, bands: Bands) -> Chart:
    """An empty chart with its columns: numbers, the host's bands, its texts, the lanes, and the same at the device."""
    columns, x = {}, float(GUTTER + GAP / 2)
    for key in band_keys(bands, on, HOST):
        columns[key], x = x, x + BAND + GAP
    host = x + ROOM
    device = host + 2 * HALF_LANE
    x = device + ROOM + GAP
    for key in band_keys(bands, on, DEVICE):
        columns[key], x = x, x + BAND + GAP
    return Chart(on, Places(host, host + HALF_LANE, device, ROOM - 14), columns, x)


def head_svg(chart: Chart, run: Run) -> str:
    """The names of the columns, which stay in sight while the page moves."""
    return svg(chart.width, 0, HEAD_HEIGHT, head_parts(chart, run), f"The columns of: {chart.line.title()}")


def head_parts(chart: Chart, run: Run) -> List[str]:
    places, (left, right) = chart.places, run.topology.ends(chart.line)
    parts = [label(46, 40, "event", "small grey", "end")]
    parts.append(label(places.host, 40, left, "lane", "middle"))
    parts.append(label(places.link, 22, chart.line.lane(), "lane", "middle"))
    parts.append(label(places.link, 40, "nobody trusts it", "small grey", "middle"))
    parts.append(label(places.device, 40, right, "lane", "middle"))
    for key, x in chart.columns.items():
        name, place = name_of(key)
        parts.append(label(x + BAND / 2, 24, name, "small grey", "middle"))
        parts.append(label(x + BAND / 2, 40, place, "strong", "middle"))
    return parts


# ---- all links


@dataclass
class Window:
    """The events that are drawn."""

    rows: List[Row]
    note: str = ""

    def first(self) -> int:
        return self.rows[0].number if self.rows else 1

    def last(self) -> int:
        return self.rows[-1].number if self.rows else 0


def window_of(run: Run, first: int) -> Window:
    """At most MOST_ROWS of the events from `first` on, and few of those that were not run."""
    rows = [row for row in run.rows if row.number >= first]
    last = max([row.number for row in run.rows if row.verdict or row.fault], default=0)
    rows = [row for row in rows if row.number <= last + UNRUN_ROWS]
    drawn = rows[:MOST_ROWS]
    note = ""
    if not drawn:
        note = f"None of the script's {len(run.rows)} events is drawn."
    elif len(drawn) < len(run.rows):
        note = f"Drawn are the events {drawn[0].number} to {drawn[-1].number} of {len(run.rows)}."
        note += " With --from N the chart begins at event N." if len(rows) > len(drawn) else ""
    return Window(drawn, note)


def draw_all(run: Run, window: Window, bands: Bands) -> List[Chart]:
    """A chart for each line that has events of its own, or for the first one if none has."""
    fates, charts = fates_of(run), [laid_out(on, bands) for on in run.lines()]
    drawn, again, follower = {row.number for row in window.rows}, set(), Bands(run)
    for row in run.rows:
        begun = follower.begun(row)
        follow(follower, row)
        packet = packet_named(row, run) if is_arrival(row, run) else None
        if row.number in drawn:
            is_again = packet is not None and packet.number in again
            for chart in charts:
                add_row(chart, row, run, fates, begun, is_again)
        if packet and row.verb() == "pass":
            again.add(packet.number)
    return [chart for chart in charts if chart.own_rows] or charts[:1]


def follow(bands: Bands, row: Row):
    """Goes on by a verdict; one that has not the form it should have shows nothing."""
    try:
        bands.follow(row)
    except (IndexError, KeyError, ValueError, TypeError):
        pass


def follow_all(bands: Bands, run: Run) -> Bands:
    for row in run.rows:
        follow(bands, row)
    return bands


def add_row(chart: Chart, row: Row, run: Run, fates: Fates, begun: int, is_again: bool):
    """Adds an event to the chart of its line, or to those of all its lines."""
    if not run.stands_on(row, chart.line):
        return
    chart.begin_phase(row)
    if row.comment:
        chart.add_comment(row.comment)
    try:
        drawn = draw_row(row, run, chart.places, fates, begun, is_again)
    except (IndexError, KeyError, ValueError, TypeError, AttributeError):
        drawn = draw_text(row, chart.places, "dull")
    chart.add(row, drawn)


def section(chart: Chart, bands: Bands, run: Run, window: Window) -> str:
    left = len(run.rows) - window.last()
    if left:
        chart.add_note(f"{left} more {'event is' if left == 1 else 'events are'} not drawn")
    head = f'<div class="head">{head_svg(chart, run)}</div>'
    title = f'<h2 id="{chart.line.mark()}">{escape(chart.line.title())}</h2>'
    return f"<section>{title}{head}{chart.pictures(bands, window)}</section>"


def contents(charts: List[Chart]) -> str:
    """The charts of the page and their phases, if there is more than one."""
    if len(charts) < 2 and not any(chart.folds() for chart in charts):
        return ""
    rows = []
    for chart in charts:
        count, mark = sum(phase.rows for phase in chart.phases), chart.line.mark()
        row = f'<a href="#{mark}">{escape(chart.line.title())}</a>: {count} {"event" if count == 1 else "events"}'
        if chart.folds():
            names = [f'<a href="#{mark}-{place}">{phase.first}</a>' for place, phase in enumerate(chart.phases, 1)]
            row += f', from {", ".join(names)} on'
        rows.append(f"<li>{row}</li>")
    return f'<ul class="contents">{"".join(rows)}</ul>'


def picture(run: Run, first: int) -> str:
    """The charts below each other, as one picture that needs no page."""
    window, bands = window_of(run, first), follow_all(Bands(run), run)
    y, parts, width = 0.0, [], 0.0
    charts = draw_all(run, window, bands)
    for chart in charts:
        if len(charts) > 1:
            y += TITLE_HEIGHT
            parts.append(label(14, y, chart.line.title(), "lane"))
        rows = head_parts(chart, run) + [line(0, HEAD_HEIGHT, chart.width, HEAD_HEIGHT, "rule")]
        body = chart.back(bands, window, 0, chart.bottom()) + chart.parts
        parts.append(moved(y, rows + [moved(HEAD_HEIGHT, body)]))
        y += HEAD_HEIGHT + chart.bottom()
        width = max(width, chart.width)
    style = f"<style>{drawing.STYLE}</style>{drawing.PATTERNS}"
    white = box(0, 0, width, y, more=' fill="#ffffff"')
    return svg(width, 0, y, [style, white] + parts, "The events of a run") + "\n"


def moved(y: float, parts: List[str]) -> str:
    return f'<g transform="translate(0 {y:g})">' + "\n".join(parts) + "</g>"


# ---- the top of the page


def total_text(run: Run) -> str:
    if not run.total:
        return ""
    sealed, accepted, failed, blocked = (escape(run.total[place]) for place in (2, 4, 6, 8))
    words = [f"<b>{sealed}</b> packets sealed", f"<b>{accepted}</b> accepted", f"<b>{failed}</b> failed checks"]
    return f'<p class="total">{" · ".join(words + [f"<b>{blocked}</b> blocked"])}</p>'


def key(picture: str, width: float, text: str) -> str:
    """A sign and what it means."""
    small = f'<svg xmlns="http://www.w3.org/2000/svg" width="{width:g}" height="22">{picture}</svg>'
    return f"<span>{small}{escape(text)}</span>"


def legend(run: Run) -> str:
    rows = [arrow_keys(), chip_keys(), band_keys_of(run)]
    words = "PR posted, NPR non-posted, CPL completion; T trusted; more: the unit goes on. Numbers in a bar are its "
    words += "exchanges, whose right tip is the request and whose left tip the reply: filled ones were done in this "
    words += "event, pale ones before it, and those without tips not at all. "
    words += "The pointer on a row shows its lines."
    patterns = f'<svg xmlns="http://www.w3.org/2000/svg" width="0" height="0">{drawing.PATTERNS}</svg>'
    return patterns + "".join(f'<div class="legend">{"".join(row)}</div>' for row in rows + [[words]])


def arrow_keys() -> List[str]:
    blue = draw_colour(0)
    rows = [(arrow((0, 11), 56, "sample", colour, style), 58, text) for colour, style, text in [
        (blue, "whole", "as it was sealed"),
        (blue, "dashed", "altered or cut"),
        (blue, "edged", "invented"),
        ("#5f5f66", "dotted", "unprotected"),
    ]]
    rows.append((drawing.diamond(7, 11), 14, "the link changes, repeats or invents"))
    rows += [(dot(7, 11, blue, True), 14, "arrives as sealed"), (dot(7, 11, blue, False), 14, "only altered or cut")]
    return [key(*row) for row in rows + [(cross(7, 11), 14, "never arrives")]]


def chip_keys() -> List[str]:
    row = [Chip("accepted, applied", "good"), Chip("accepted but blocked", "blocked"), Chip("held", "held")]
    row += [Chip("a check failed", "bad"), Chip("insecure, malformed, refused, lost", "closed")]
    row.append(Chip("no packet, no key, no such stream", "dull"))
    return [key(chips(1, 11, 400, [chip], True), chip.width() + 2, "") for chip in row]


def band_keys_of(run: Run) -> List[str]:
    """The colours of the bands, and those of the draws that occur."""
    draws = sorted({packet.draw for packet in run.packets.values()} | draws_given(run))
    rows = [("#ffffff", "idle, unlocked"), ("url(#stripes)", "insecure, broken, error")]
    rows += [(STATE_FILLS["locked"], "locked"), (STATE_FILLS["running"], "running")]
    rows += [("url(#hatch)", "under way, or not shown by the verdicts")]
    rows += [(draw_colour(draw), f"secure, newest draw {draw}") for draw in draws[:6]]
    keys = [key(box(1, 3, 22, 16, "band", f' fill="{fill}"'), 24, text) for fill, text in rows]
    return keys + ([f"and {len(draws) - 6} more draws"] if len(draws) > 6 else [])


def draws_given(run: Run) -> set:
    given = [row.verdict[-1] for row in run.rows if row.answer().endswith(("established", "refreshed"))]
    return {int(word) for word in given if word.isdigit()}


def page(run: Run, title: str, first: int) -> str:
    window, bands = window_of(run, first), follow_all(Bands(run), run)
    charts = draw_all(run, window, bands)
    parts = [f"<h1>{escape(title)}</h1>"]
    parts += [f'<p class="opening">{escape(text)}</p>' for text in run.opening.split("\n\n") if text.strip()]
    parts += [f'<p class="fault">{escape(fault)}</p>' for fault in run.faults[:6]] + [total_text(run)]
    parts += [f"<p>{window.note}</p>"] if window.note else []
    parts += [contents(charts), legend(run)] + [section(chart, bands, run, window) for chart in charts]
    head = f'<head><meta charset="utf-8"/><title>{escape(title)}</title><style>{drawing.STYLE}</style></head>'
    return f'<!DOCTYPE html>\n<html lang="en">{head}\n<body>\n' + "\n".join(parts) + "\n</body></html>\n"
