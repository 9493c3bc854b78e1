"""One event of a chart: what stands at the host, on the link and at the device."""

from collections import Counter
from dataclasses import dataclass
from itertools import groupby
from typing import List, Optional, Tuple

from charts import drawing
from charts.bands import STATES
from charts.drawing import Chip, arrow, box, chips, clipped, cross, dot, draw_colour, label
from charts.reading import (
    ARRIVALS,
    ASKED,
    DEVICE,
    HOST,
    KEY_OPERATIONS,
    Packet,
    Row,
    Run,
    end_of,
    is_arrival,
    number,
    packet_named,
    receiver_of,
)

ARROW_HEIGHT, BAR_HEIGHT, PLAIN_HEIGHT = 36, 46, 32
PLAIN_COLOUR = "#5f5f66"
SUBS = {"pr": "PR", "npr": "NPR", "cpl": "CPL"}
PAIR_EXCHANGES = {
    "establish": [f"KEY_PROG of a {end}, {at}" for at in ("left", "right") for end in ["receiver"] * 3 + ["sender"] * 3]
    + [f"GO of a {end}, {at}" for end in ("receiver", "sender") for at in ["left"] * 3 + ["right"] * 3],
    "stop": [
        f"STOP of key set {keys}, a {end}, {at}"
        for at in ("left", "right")
        for keys in (0, 1)
        for end in ["receiver"] * 3 + ["sender"] * 3
    ],
}
EXCHANGES = {
    "establish": ["QUERY"] + ["KEY_PROG of a receiver"] * 3 + ["KEY_PROG of a sender"] * 3
    + ["GO of a receiver"] * 3 + ["GO of a sender"] * 3,
    "refresh": ["KEY_PROG of a receiver"] * 3 + ["KEY_PROG of a sender"] * 3
    + ["GO of a receiver"] * 3 + ["GO of a sender"] * 3,
    "stop": [f"STOP of key set {keys}, a {end}" for keys in (0, 1) for end in ["receiver"] * 3 + ["sender"] * 3],
    "lock": ["GET_VERSION", "GET_CAPABILITIES", "LOCK_INTERFACE"],
    "start": ["START_INTERFACE"],
    "halt": ["STOP_INTERFACE"],
    "state": ["GET_DEVICE_INTERFACE_STATE"],
    "bind": ["BIND_P2P"],
    "unbind": ["UNBIND_P2P"],
}
CHANGES = {"flr": "function level reset", "firmware": "firmware update"}
DULL = {"plain": "plain: no packet", "unknown": "unknown stream", "notkeyed": "not keyed"}
DULL["none"] = "none: there is no such thing"
DULL["through"] = "through: left unread"
TLPS = {0x00: "read", 0x20: "read", 0x40: "write", 0x60: "write"}
TLPS.update({0x04: "configuration read", 0x05: "configuration read", 0x44: "configuration write"})
TLPS.update({0x45: "configuration write", 0x0A: "completion", 0x4A: "completion with data"})
TLPS.update({0x30 + routing: "message" for routing in range(6)})
TLPS.update({0x70 + routing: "message with data" for routing in range(6)})


@dataclass
class Places:
    """Where the lanes stand, and how much room for text is outside them."""

    host: float
    link: float
    device: float
    room: float
    half: float = 13

    def lifeline(self, side: str) -> float:
        return self.host if side == HOST else self.device

    def edge(self, side: str) -> float:
        """The edge of the link on this side."""
        return self.link - self.half if side == HOST else self.link + self.half

    def beside(self, side: str, y: float, row: List[Chip]) -> str:
        """Chips outside a lifeline."""
        is_right = side == DEVICE
        return chips(self.lifeline(side) + (12 if is_right else -12), y, self.room, row, is_right)

    def note(self, side: str, y: float, text: str) -> str:
        """A plain text outside a lifeline."""
        is_right = side == DEVICE
        x = self.lifeline(side) + (14 if is_right else -14)
        return label(x, y + 4, clipped(text, self.room), "grey", "start" if is_right else "end")

    def inward(self, side: str, distance: float) -> float:
        """The place at this distance from a lifeline, towards the link."""
        return self.lifeline(side) + (distance if side == HOST else -distance)

    def inside(self, side: str, distance: float, y: float, text: str) -> str:
        """A plain text between the lifelines."""
        room = self.device - self.host - distance - 14
        anchor = "start" if side == HOST else "end"
        return label(self.inward(side, distance), y + 4, clipped(text, room), "grey", anchor)

    def mark(self, side: str, y: float) -> str:
        """A mark on a lifeline: something is done or shown there."""
        return box(self.lifeline(side) - 4, y - 4, 8, 8, more=' fill="#1d1d1f"')

    def over(self, left: float, right: float, y: float, text: str) -> str:
        """A text over an arrow."""
        return label((left + right) / 2, y - 7, clipped(text, abs(right - left) - 8), "", "middle")


@dataclass
class Drawn:
    """The picture of an event: how high it is, and at which height its bands change."""

    parts: List[str]
    height: float
    middle: float


# ---- sends


def tlp_text(word: str) -> str:
    """What the bytes of a send are, in few words."""
    try:
        data = bytes.fromhex(word)
    except ValueError:
        return "no bytes"
    kind = TLPS.get(data[0]) if data else None
    if kind is None:
        return f"{len(data)} bytes"
    if kind in ("read", "write") and len(data) >= 12:
        wide = 16 if data[0] & 0x20 else 12
        count = 4 * (((data[2] & 3) << 8 | data[3]) or 1024)
        return f"{kind} {count} bytes at {data[8:wide].hex().lstrip('0') or '0'}h"
    return kind


def packet_text(packet: Packet) -> str:
    words = [f"#{packet.number} {SUBS[packet.sub]}", f"draw {packet.draw}", f"unit {packet.unit}"]
    words += ["T"] * packet.t + [f"after {packet.posted} PR"] * (packet.sub != "pr") + ["more"] * (1 - packet.m)
    return " · ".join(words)


@dataclass
class Fates:
    """What becomes of each packet: the events that name it."""

    passed: set
    touched: set

    def end(self, packet: Packet, x: float, y: float) -> str:
        if packet.number in self.passed:
            return dot(x, y, draw_colour(packet.draw), True)
        if packet.number in self.touched:
            return dot(x, y, draw_colour(packet.draw), False)
        return cross(x, y)


def fates_of(run: Run) -> Fates:
    arrived = [row for row in run.rows if is_arrival(row, run) and packet_named(row, run)]
    passed = {packet_named(row, run).number for row in arrived if row.verb() == "pass"}
    return Fates(passed, {packet_named(row, run).number for row in arrived})


def sent_text(row: Row) -> str:
    """What goes out: the bytes of a send, the completion of a read that waits, or what waits at a switch."""
    others = {verb: "completion of the oldest read" for verb in ("answer", "respond")}
    others["forward"] = "the oldest TLP that waits"
    return others.get(row.verb()) or tlp_text(row.words[3 if row.verb() == "psend" else 2])


def draw_send(row: Row, run: Run, places: Places, fates: Fates) -> Drawn:
    end = end_of(row, run)
    side = end[1] if end else DEVICE if row.verb() == "respond" else HOST
    if row.packets:
        return draw_sealed(row, side, places, fates)
    y, lifeline = 22, places.lifeline(side)
    if row.answer() == "plain":
        shaft = arrow((lifeline, y), places.edge(side), "send", PLAIN_COLOUR, "dotted")
        over = places.over(lifeline, places.edge(side), y, "plain: unprotected")
        return Drawn([shaft, over, places.note(side, y, sent_text(row))], ARROW_HEIGHT, y)
    stub = places.inward(side, 26)
    parts = [drawing.line(lifeline, y, stub, y, more=' stroke="#5f5f66" stroke-width="2"'), cross(stub, y, 4)]
    parts.append(places.inside(side, 38, y, sent_text(row)))
    return Drawn(parts + [places.beside(side, y, verdict_chips(row))], ARROW_HEIGHT, y)


def draw_sealed(row: Row, side: str, places: Places, fates: Fates) -> Drawn:
    """An arrow to the link for each packet, the sync packets first."""
    parts, lifeline, edge = [], places.lifeline(side), places.edge(side)
    outwards = -1 if side == HOST else 1
    for place, packet in enumerate(row.packets):
        y = 22 + place * 30
        parts.append(arrow((lifeline, y), edge + 5 * outwards, "send", draw_colour(packet.draw), "whole"))
        parts.append(fates.end(packet, edge - 4 * outwards, y))
        parts.append(places.over(lifeline, edge, y, packet_text(packet)))
        is_own = place + 1 == len(row.packets)
        parts.append(places.note(side, y, sent_text(row) if is_own else "sync packet"))
    middle = 22 + 30 * (len(row.packets) - 1)
    return Drawn(parts, middle + ARROW_HEIGHT - 22, middle)


# ---- arrivals


def attack_text(row: Row, packet: Optional[Packet], is_again: bool) -> str:
    """What the link does to the bytes."""
    words = row.words
    if row.verb() == "arrive":
        bare = "" if words[2] == "-" else words[2]
        return f"invented, {len(bare) // 2} bytes: {bare or 'none'}"
    text = {"pass": "passed", "alter": "altered: byte {} xor {}h", "cut": "cut to {} bytes"}[row.verb()]
    return f"#{packet.number} {text.format(*words[2:])}{' again' if is_again else ''}"


def place_text(row: Row) -> str:
    """The sub-stream, draw and unit of an arrival, as its verdict shows them."""
    verdict = row.verdict
    if row.answer() in ("accepted", "held") and len(verdict) >= 8:
        return f" · {SUBS.get(verdict[3], verdict[3])} draw {verdict[5]} unit {verdict[7]}"
    if row.answer() in ("fail", "notkeyed") and len(verdict) >= 4:
        return f" · {SUBS.get(verdict[3], verdict[3])}"
    return ""


def draw_arrival(row: Row, run: Run, places: Places, is_again: bool) -> Drawn:
    side, packet, y = receiver_of(row, run), packet_named(row, run), 22
    colour = draw_colour(packet.draw) if packet else PLAIN_COLOUR
    style = {"pass": "whole", "arrive": "edged"}.get(row.verb(), "dashed")
    shaft = arrow((places.edge(side), y), places.lifeline(side), f"arrival {row.verb()}", colour, style)
    text = attack_text(row, packet, is_again) + place_text(row)
    over = places.over(places.edge(side), places.lifeline(side), y, text)
    mark = [drawing.diamond(places.link, y)] if is_again or row.verb() != "pass" else []
    return Drawn([shaft, over, places.beside(side, y, verdict_chips(row, places.room))] + mark, ARROW_HEIGHT, y)


def effect_chips(effects: List[str], room: float) -> List[Chip]:
    """The effects of a unit, equal ones that follow each other as one. Without room for that, how many of each sort."""
    row = [Chip("accepted", "good")]
    for effect, same in groupby(effects):
        count = len(list(same))
        times = f" ×{count}" if count > 1 else ""
        css = "blocked" if effect.startswith("blocked") else "good"
        row.append(Chip(effect.replace(":", ": ") + times, css))
    if drawing.total_width(row) <= room:
        return row
    counts = Counter(effect.partition(":")[0] for effect in effects)
    text = ", ".join(f"{count} {sort}" for sort, count in counts.items())
    return [row[0], Chip(text, "blocked" if "blocked" in counts else "good")]


def verdict_chips(row: Row, room: float = 0) -> List[Chip]:
    """The verdict as it is shown at the port or at the manager."""
    answer, verdict = row.answer(), row.verdict or []
    if answer == "accepted":
        return effect_chips(verdict[8:], room)
    if answer == "fail":
        return [Chip(f"fail: {verdict[-1]}", "bad")]
    if answer == "insecure":
        return [Chip("insecure: takes nothing", "closed")]
    if answer == "held":
        return [Chip("held", "held")]
    if answer == "malformed":
        return [Chip(f"malformed: {verdict[2]} at byte {verdict[3]}", "closed")]
    if answer == "refused":
        return [Chip(f"refused: {' '.join(verdict[1:])}", "closed")]
    if answer == "lost":
        return [Chip(" ".join(verdict), "closed")]
    return [Chip(DULL.get(answer, " ".join(verdict)), "dull")]


# ---- operations


def exchanges_of(row: Row) -> List[str]:
    """The names of the operation's exchanges; a line without a host's port has both ends keyed by messages."""
    verb = row.verb()
    if verb in KEY_OPERATIONS:
        line, plain = row.line_drawn, verb.lstrip("ph")
        is_paired = line.kind == "peer" or (line.kind, line.segment) == ("hop", 1)
        return (PAIR_EXCHANGES if is_paired else EXCHANGES)[plain]
    return EXCHANGES.get(verb, [])


def exchange_name(row: Row, place: int) -> str:
    verb, names = row.verb(), exchanges_of(row)
    name = names[place - 1] if place <= len(names) else "GET_DEVICE_INTERFACE_REPORT" if verb == "report" else ""
    sub = ""
    if verb in KEY_OPERATIONS and name != "QUERY":
        sub = " " + list(SUBS.values())[(place - (2 if names[0] == "QUERY" else 1)) % 3]
    return f"exchange {place}: {name}{sub}"


def exchange_count(row: Row, run: Run) -> int:
    """How many exchanges the operation has, as far as the verdict shows it."""
    stuck = stuck_at(row)
    if row.verb() != "report":
        return len(exchanges_of(row))
    if row.answer() == "reported":
        return -(-len(row.verdict[-1]) // 2 // run.topology.portion)
    return stuck or 1


def stuck_at(row: Row) -> Optional[int]:
    """The exchange that was lost or refused."""
    if row.answer() == "lost" or (row.verdict or [])[:2] == ["refused", "devicerefused"]:
        return number(row.verdict[2])
    return None


def draw_operation(row: Row, run: Run, places: Places, begun: int) -> Drawn:
    """A bar with a cell for each exchange. Those before `begun` were done by earlier events."""
    left, right, top = places.host + 8, places.device - 8, 19
    count, stuck = exchange_count(row, run), stuck_at(row)
    ended = row.answer() not in ("lost", "refused", "none", "")
    parts = [label(left, 13, operation_text(row), "strong"), places.beside(HOST, 26.5, operation_chips(row))]
    width = (right - left) / count
    for place in range(1, count + 1):
        css = cell_css(place, begun, stuck, ended)
        tips = tips_of(row, css)
        x = left + (place - 1) * width
        cell = [drawing.tip(f"{exchange_name(row, place)}\n{row.raw()}")]
        cell.append(drawing.tipped((x, top), width - 2, 15, f"cell {css}", tips))
        if css == "stuck":
            cell.append(cross(x + (8 if tips == (False, True) else width - 10), top + 7.5, 4))
        if css == "stuck" and width > 34:
            cell.append(label(x + width / 2 - 1, top + 11.5, str(place), "tiny", "middle"))
        elif css != "stuck" and width > 18:
            cell.append(label(x + 6, top + 11.5, str(place), "tiny"))
        parts.append(drawing.group("exchange", cell))
    return Drawn(parts, BAR_HEIGHT, 27)


def tips_of(row: Row, css: str) -> Tuple[bool, bool]:
    """Whether an exchange has the tip of its reply, on the left, and that of its request, on the right."""
    if css == "open":
        return False, False
    if css == "stuck" and row.answer() == "lost":
        return False, row.verdict[1] == "reply"
    return True, True


def cell_css(place: int, begun: int, stuck: Optional[int], ended: bool) -> str:
    if place == stuck:
        return "stuck"
    if place < begun:
        return "before"
    return "done" if ended or stuck and place < stuck else "open"


def operation_text(row: Row) -> str:
    words = row.words
    if row.verb() in ("bind", "unbind"):
        return f"{words[0]} interface {words[1]}, stream {words[2]} between devices"
    if row.verb() not in KEY_OPERATIONS:
        return f"{words[0]} interface {words[1]}"
    if row.line_drawn.kind == "link":
        return f"{words[0]} stream {words[2]}"
    return " ".join(words[:3 if row.line_drawn.kind == "hop" else 2])


def operation_chips(row: Row) -> List[Chip]:
    answer, verdict = row.answer(), row.verdict or []
    if answer.endswith(("established", "refreshed")):
        return [Chip(f"{answer} · draw {verdict[-1]}", "good")]
    if answer.endswith("stopped") or answer in ("bound", "unbound"):
        return [Chip(answer, "good")]
    if answer == "locked":
        return [Chip(f"locked · nonce {verdict[-1][:8]}…", "good")]
    if answer == "reported":
        return [Chip(f"reported · {len(verdict[-1]) // 2} bytes", "good")]
    if answer in ("started", "halted"):
        return [Chip(f"{answer} · {' '.join(verdict[2:])}", "good")]
    if answer == "state":
        return [Chip(f"state · {state_name(verdict)}", "good")]
    if verdict[:2] == ["refused", "devicerefused"] and number(verdict[3]) is not None:
        return [Chip(f"device refused: {number(verdict[3]):04x}h", "closed")]
    return verdict_chips(row)


def state_name(verdict: List[str]) -> str:
    shown = number(verdict[-1])
    return STATES[shown] if shown is not None and shown < len(STATES) else verdict[-1]


# ---- the other events


def draw_plain(places: Places, side: str, chip: Chip, note: str) -> Drawn:
    """An event at one lifeline: a mark there, what was done inside it, and what is shown outside."""
    y = 16
    parts = [places.mark(side, y), places.inside(side, 14, y, note), places.beside(side, y, [chip])]
    return Drawn(parts, PLAIN_HEIGHT, y)


def draw_status(row: Row, places: Places) -> Drawn:
    parts, y = [], 16
    for side, status in zip((HOST, DEVICE), row.verdict[3:5]):
        css = {"secure": "good", "insecure": "bad"}.get(status, "dull")
        parts.append(places.beside(side, y, [Chip(f"stream {row.words[2]}: {status}", css)]))
        parts.append(places.mark(side, y))
    parts.append(places.inside(HOST, 14, y, f"status of stream {row.words[2]}"))
    return Drawn(parts, PLAIN_HEIGHT, y)


def draw_reset(row: Row, places: Places) -> Drawn:
    frame = box(places.host, 6, places.device - places.host, 20, more=' fill="#1d1d1f"')
    words = label(places.link, 20, f"reset of link {row.words[1]}", "strong white", "middle")
    return Drawn([frame, words], PLAIN_HEIGHT, 16)


def draw_dump(row: Row, places: Places) -> Drawn:
    text = clipped(f"packet {row.verdict[1]}: {row.verdict[-1]}", places.device - places.host - 40)
    width = drawing.width_of(text) + 16
    frame = box(places.link - width / 2, 6, width, 20, more=' rx="3" fill="#ffffff" stroke="#b9b2a7"')
    return Drawn([frame, label(places.link, 20, text, "", "middle")], PLAIN_HEIGHT, 16)


def draw_text(row: Row, places: Places, css: str) -> Drawn:
    """An event that has no picture of its own: its line, and its verdict if it has one."""
    parts = [label(places.host + 14, 20, clipped(" ".join(row.words), places.device - places.host - 28), "grey")]
    if css:
        words = row.fault or " ".join(row.verdict or ["no verdict"])
        chip = verdict_chips(row)[0] if row.answer() == "none" else Chip(words, css)
        parts.append(places.beside(HOST, 16, [chip]))
    return Drawn(parts, PLAIN_HEIGHT, 16)


def draw_change(row: Row, places: Places) -> Drawn:
    words, state = row.words, state_name(row.verdict)
    note = CHANGES[words[0]] if words[0] in CHANGES else f"{words[2]} = {words[3]}"
    chip = Chip(f"interface {words[1]}: {state}", "bad" if state == "error" else "good" if state == "run" else "dull")
    return draw_plain(places, DEVICE, chip, f"interface {words[1]}: {note}")


def draw_read(row: Row, places: Places) -> Drawn:
    """A read that no completion answers, at the host or at a device: none waits, or the oldest is dropped; or a
    `forward` of nothing."""
    if row.verb() == "forward":
        side = DEVICE if number(row.words[2]) else HOST
        return draw_plain(places, side, Chip("nothing waits", "dull"), "forward of the oldest TLP")
    side = DEVICE if row.verb() == "respond" else HOST
    if row.answer() == "empty":
        return draw_plain(places, side, Chip("no read waits", "dull"), "answer to the oldest read")
    chip = Chip(f"dropped: {row.verdict[-1]}", "blocked")
    return draw_plain(places, side, chip, f"answer to the oldest read, of interface {row.verdict[1]}")


def draw_shown(row: Row, places: Places) -> Drawn:
    """A `memory` or a `view`, both at the host, or a `mmio` at the device."""
    verdict = row.verdict
    if row.answer() == "mmio":
        note = f"interface {row.words[1]}: BAR {row.words[2]} at {row.words[3]}, {row.words[4]} bytes"
        return draw_plain(places, DEVICE, Chip(verdict[-1], "dull"), note)
    if row.answer() == "memory":
        note = f"trusted memory at {row.words[1]}, {row.words[2]} bytes"
        return draw_plain(places, HOST, Chip(verdict[-1], "dull"), note)
    css = {"running": "good", "broken": "bad", "doubt": "closed"}.get(verdict[-1], "dull")
    chip = Chip(f"view {verdict[1]}: {verdict[-1]}", css)
    return draw_plain(places, HOST, chip, f"the manager's view of interface {verdict[1]}")


# events on what waits
WAITED = ("answer", "respond", "forward")


def draw_row(row: Row, run: Run, places: Places, fates: Fates, begun: int, is_again: bool) -> Drawn:
    """The picture of an event, by its first word and its verdict."""
    verb, answer = row.verb(), row.answer()
    if not row.verdict or answer == "none":
        return draw_text(row, places, "bad" if row.fault else "dull")
    if verb in ARRIVALS and is_arrival(row, run):
        return draw_arrival(row, run, places, is_again)
    if verb in KEY_OPERATIONS + ASKED:
        return draw_operation(row, run, places, begun)
    drawn = {"send": lambda: draw_send(row, run, places, fates), "status": lambda: draw_status(row, places)}
    drawn.update(reset=lambda: draw_reset(row, places), packet=lambda: draw_dump(row, places))
    drawn.update({shown: lambda: draw_shown(row, places) for shown in ("memory", "view", "mmio")})
    drawn.update({ended: lambda: draw_read(row, places) for ended in ("empty", "dropped")})
    drawn.update({changed: lambda: draw_change(row, places) for changed in ("written", "flr", "firmware")})
    is_sending = verb in ("send", "psend") or verb in WAITED and answer in ("sealed", "refused")
    name = "send" if is_sending else answer
    return drawn.get(name, lambda: draw_text(row, places, "dull"))()
