"""Reads a script, its verdict lines and its topology: what a chart is drawn of.

A line of the script that is not understood is kept as its text, and a run that broke off says so. Verdicts that cannot
be those of the script are refused.
"""

import re
import tomllib
from dataclasses import dataclass, field
from typing import Dict, List, Optional, Tuple

# the sides of a chart, left and right: of a link the host and the device
HOST, DEVICE = "h", "d"
ARRIVALS = ("pass", "alter", "cut", "arrive")
KEY_OPERATIONS = ("establish", "refresh", "stop", "pestablish", "pstop", "hestablish", "hstop")
ASKED = ("lock", "report", "start", "halt", "state", "bind", "unbind")
ON_INTERFACES = ASKED + ("view", "write", "flr", "firmware", "mmio")
ON_LINKS = ("establish", "refresh", "stop", "status", "answer", "respond")
PACKET = re.compile(
    r"(\d+) ([hduw])(\d+) (\d+) (pr|npr|cpl) draw (\d+) unit (\d+) m([01]) k([01]) t([01]) p(\d+)( sync)?"
)


# ---- the topology


@dataclass
class Face:
    """A device interface: the link and the stream that it belongs to."""

    link: int
    stream: int


@dataclass(frozen=True)
class Line:
    """Two ends between which packets go, each line with a chart of its own: a link, a segment of the hop on one (0
    towards the host, 1 towards the device), or a stream between two devices."""

    kind: str
    number: int
    segment: int = 0

    def title(self) -> str:
        if self.kind == "hop":
            return f"Hop of link {self.number}, towards the {['host', 'device'][self.segment]}"
        return f"Link {self.number}" if self.kind == "link" else f"Stream {self.number} between devices"

    def lane(self) -> str:
        """What stands above the middle of its chart."""
        return f"{({'link': 'Link', 'hop': 'Hop', 'peer': 'Stream'})[self.kind]} {self.number}"

    def mark(self) -> str:
        """Its name in the links of a page."""
        return f"{self.kind}-{self.number}-{self.segment}"


@dataclass
class Peer:
    """A stream between the devices of two links."""

    id: int
    a: int
    b: int


@dataclass
class Topology:
    links: int = 0
    faces: List[Face] = field(default_factory=list)
    hops: Dict[int, int] = field(default_factory=dict)
    peers: List[Peer] = field(default_factory=list)
    portion: int = 64
    fault: str = ""

    def lines_beside(self) -> List[Line]:
        """Those that are no links."""
        hops = [Line("hop", link, segment) for link in self.hops for segment in (0, 1)]
        return hops + [Line("peer", place) for place in range(len(self.peers))]

    def ends(self, line: Line) -> Tuple[str, str]:
        """What stands left and right on the line's chart."""
        if line.kind == "peer" and line.number < len(self.peers):
            return tuple(f"Device {link}" for link in (self.peers[line.number].a, self.peers[line.number].b))
        ends = [("Host", "Switch"), ("Switch", "Device")][line.segment] if line.kind == "hop" else ("Host", "Device")
        return tuple(f"{end} {line.number}" for end in ends)

    def touches(self, line: Line, link: int) -> bool:
        """Whether a reset of the link clears an end of the line."""
        if line.kind == "peer":
            return link in (self.peers[line.number].a, self.peers[line.number].b)
        return line.number == link

    def end_at(self, port: str, stream: Optional[int]) -> Tuple[Line, str]:
        """The line and the side of a stream at a port; without a stream those of the port itself."""
        letter, link = port[0], int(port[1:])
        if letter in "uw":
            return Line("hop", link, "uw".index(letter)), DEVICE if letter == "u" else HOST
        if stream is not None and self.hops.get(link) == stream:
            return Line("hop", link, "hd".index(letter)), letter
        for place, peer in enumerate(self.peers):
            if letter == "d" and peer.id == stream and link in (peer.a, peer.b):
                return Line("peer", place), HOST if link == peer.a else DEVICE
        return Line("link", link), letter


def read_topology(data: bytes) -> Topology:
    """What a chart needs of a topology. A faulty one gives as much as could be read, and its fault."""
    topology = Topology()
    try:
        tables = tomllib.loads(data.decode())
        topology.portion = int(tables.get("portion", 64)) or 64
        for number, link in enumerate(tables["link"]):
            topology.faces += [Face(number, face["stream"]) for face in link.get("interface", [])]
            if "hop" in link:
                topology.hops[number] = int(link["hop"])
            topology.links = number + 1
        topology.peers = [Peer(int(peer["id"]), int(peer["a"]), int(peer["b"])) for peer in tables.get("p2p", [])]
    except (ValueError, KeyError, TypeError, AttributeError) as fault:
        topology.fault = f"the topology could not be read: {fault}"
    return topology


# ---- the script and its verdicts


@dataclass
class Packet:
    """A packet as its verdict line shows it."""

    number: int
    port: str
    line: Line
    side: str
    stream: int
    sub: str
    draw: int
    unit: int
    m: int
    k: int
    t: int
    posted: int
    sync: bool


@dataclass
class Row:
    """An event: its number, its line in the script, and its verdict if one was written."""

    number: int
    line: int
    words: List[str]
    comment: str = ""
    verdict: Optional[List[str]] = None
    fault: str = ""
    line_drawn: Optional[Line] = None
    packets: List[Packet] = field(default_factory=list)

    def verb(self) -> str:
        return self.words[0]

    def answer(self) -> str:
        """The first word of the verdict, or nothing."""
        return self.verdict[0] if self.verdict else ""

    def raw(self) -> str:
        """The script line and the verdict line, as they are shown after a row."""
        verdict = f"{self.number} {' '.join(self.verdict)}" if self.verdict else self.fault or "(no verdict)"
        return f"line {self.line}: {shortened(' '.join(self.words))}\n{shortened(verdict)}"


@dataclass
class Run:
    """All that is known of a run."""

    rows: List[Row]
    topology: Topology
    packets: Dict[int, Packet]
    total: Optional[List[str]] = None
    faults: List[str] = field(default_factory=list)
    opening: str = ""

    def lines(self) -> List[Line]:
        seen = [row.line_drawn.number + 1 for row in self.rows if row.line_drawn and row.line_drawn.kind == "link"]
        links = [Line("link", number) for number in range(max(seen + [self.topology.links, 1]))]
        return links + self.topology.lines_beside()

    def stands_on(self, row: Row, line: Line) -> bool:
        """Whether an event is drawn on the line's chart; one that belongs to no one line is on every chart."""
        if row.answer() == "reset" and number(row.words[1]) is not None:
            return self.topology.touches(line, number(row.words[1]))
        return row.line_drawn in (None, line)


def shortened(text: str, length: int = 800) -> str:
    return text if len(text) <= length else f"{text[:length]}… ({len(text)} characters)"


def printable(line: bytes) -> str:
    """The line with what is not printable ASCII shown as \\xHH."""
    return "".join(chr(byte) if 0x20 <= byte <= 0x7E else f"\\x{byte:02x}" for byte in line)


def number(word: str) -> Optional[int]:
    """A number of a script, or None if the word is none."""
    if re.fullmatch(r"0[xX][0-9a-fA-F]{1,16}", word):
        return int(word, 16)
    return int(word) if re.fullmatch(r"[0-9]{1,20}", word) else None


def read_rows(script: bytes) -> List[Row]:
    """The lines that are events, each with the comment that stands before it."""
    rows, comment = [], []
    for place, line in enumerate(script.split(b"\n"), 1):
        if line.startswith(b"#"):
            comment.append(printable(line.lstrip(b"# ")))
        elif line.strip(b" "):
            rows.append(Row(len(rows) + 1, place, printable(line).split() or [""], "\n".join(comment)))
            comment = []
        elif comment and not rows:
            comment.append("")
    return rows


def part_opening(rows: List[Row]) -> str:
    """Takes the comment that opens the script from its first event: it stands on top of the page."""
    if not rows:
        return ""
    opening, _, rest = rows[0].comment.partition("\n\n")
    rows[0].comment = rest.strip("\n")
    return opening.strip("\n")


def read_run(topology: bytes, script: bytes, verdicts: bytes) -> Run:
    rows = read_rows(script)
    run = Run(rows, read_topology(topology), {}, opening=part_opening(rows))
    if run.topology.fault:
        run.faults.append(run.topology.fault)
    whole, _, torn = verdicts.rpartition(b"\n")
    for line in printable_lines(whole):
        take_verdict(run, line)
    if run.total and any(row.verdict is None for row in rows):
        raise OtherRun(f"the totals stand after fewer verdicts than the script has events, {len(rows)}")
    if torn:
        run.faults.append(f"The verdicts end within a line: {shortened(printable(torn), 80)}")
    for row in rows:
        row.packets = [packet_of(match, run.topology) for match in PACKET.finditer(sealed_text(row))]
        run.packets.update({packet.number: packet for packet in row.packets})
        row.line_drawn = line_of(row, run)
    for row in rows:
        if row.verdict and not fits(row, run):
            event = shortened(" ".join(row.words), 60)
            raise OtherRun(f"'{shortened(' '.join(row.verdict), 60)}' is no verdict of event {row.number}, '{event}'")
    note_ending(run)
    return run


def printable_lines(data: bytes) -> List[str]:
    return [printable(line) for line in data.split(b"\n") if line.strip()]


class OtherRun(Exception):
    """The verdicts are those of another script, or no verdicts."""


def take_verdict(run: Run, line: str):
    """Puts a verdict line where it belongs; they come in the order of their events."""
    words = line.split()
    place = number(words[0])
    due = next((row for row in run.rows if row.verdict is None), None)
    if words[0] == "total" and len(words) == 9 and not run.total:
        run.total = words
    elif words[0] == "refused" and len(words) == 3:
        take_refusal(run, words)
    elif due and place == due.number and len(words) > 1 and not run.total:
        due.verdict = words[1:]
    elif words[0] == "topology":
        run.faults.append(f"The topology is faulty: {' '.join(words[1:])}.")
    else:
        waited = f"event {due.number} has none yet" if due else f"the script has {len(run.rows)} events"
        raise OtherRun(f"'{shortened(line, 60)}' is no verdict of this script: {waited}")


def take_refusal(run: Run, words: List[str]):
    if words[1] not in [str(row.line) for row in run.rows]:
        raise OtherRun(f"line {words[1]}, which was refused, is no event of this script")
    run.faults.append(f"Line {words[1]} of the script is not spelled: {words[2]}.")
    for row in run.rows:
        if str(row.line) == words[1]:
            row.fault = f"not spelled: {words[2]}"


def note_ending(run: Run):
    """Says that the run did not end, if its line of totals is missing."""
    if run.total:
        return
    answered = sum(row.verdict is not None for row in run.rows)
    run.faults.insert(0, f"The run did not end: {answered} of the script's {len(run.rows)} events have a verdict.")


def sealed_text(row: Row) -> str:
    return " ".join(row.verdict[1:]) if row.answer() == "sealed" else ""


def packet_of(match: re.Match, topology: Topology) -> Packet:
    port, sub, sync = match[2] + match[3], match[5], match[12] is not None
    stream, draw, unit, m, k, t, posted = [int(match[place]) for place in (4, 6, 7, 8, 9, 10, 11)]
    line, side = topology.end_at(port, stream)
    return Packet(int(match[1]), port, line, side, stream, sub, draw, unit, m, k, t, posted, sync)


# ---- whether a verdict is one of an event

ARRIVED = "plain malformed unknown insecure notkeyed fail held accepted through".split()
SENT = "plain malformed sealed refused".split()
# of each operation the first word of its verdict at its end
ENDED = {verb: verb + ("ped" if verb.endswith("stop") else "ed") for verb in KEY_OPERATIONS + ASKED}
ENDED.update(state="state", bind="bound", unbind="unbound")
SHOWN = dict(write="written", dump="packet")
SHOWN.update({verb: verb for verb in ("view", "flr", "firmware", "memory", "mmio", "reset", "status")})
# of each event the first words of its verdicts; each may be none
ANSWERS = {
    **{verb: ARRIVED for verb in ARRIVALS},
    **{verb: SENT for verb in ("send", "psend")},
    **{verb: [ended, "refused", "lost"] for verb, ended in ENDED.items()},
    **{verb: [shown] for verb, shown in SHOWN.items()},
    **{verb: ["empty", "dropped"] + SENT for verb in ("answer", "respond")},
    "forward": ["empty"] + SENT,
}
# verdicts that begin with the numbers of their event
REPEATING = [*ENDED.values(), *SHOWN.values()]
# events with two of these numbers
ON_TWO = ("establish", "refresh", "stop", "hestablish", "hstop", "status", "bind", "unbind")


def fits(row: Row, run: Run) -> bool:
    """Whether the verdict may be one of the event, by its first word and the numbers or the port that it repeats."""
    verb, answer, shown = row.verb(), row.answer(), row.verdict[1:]
    if answer == "none":
        return True
    if answer not in ANSWERS.get(verb, []):
        return False
    if answer in REPEATING and answer not in ("memory", "mmio"):
        count = 2 if verb in ON_TWO else 1
        return [number(word) for word in shown[:count]] == numbers(row)[:count]
    if verb in ("send", "arrive") and answer != "refused":
        return shown[1 if answer == "sealed" else 0:][:1] == row.words[1:2]
    return verb not in ("pass", "alter", "cut") or packet_named(row, run) is not None


# ---- what an event is about


def numbers(row: Row) -> List[Optional[int]]:
    """The words after the first one, as numbers."""
    return [number(word) for word in row.words[1:]]


def port_of(words: List[str]) -> Optional[str]:
    """The first word that is a port."""
    return next((word for word in words if re.fullmatch("[hduw][0-7]", word)), None)


def face_of(row: Row, run: Run) -> Optional[int]:
    """The interface that the event is about, if the topology has it."""
    place = (numbers(row) or [None])[0]
    known = row.verb() in ON_INTERFACES and place is not None and place < len(run.topology.faces)
    return place if known else None


def packet_named(row: Row, run: Run) -> Optional[Packet]:
    """The packet that the event names, if it was sealed."""
    place = (numbers(row) or [None])[0]
    return run.packets.get(place) if row.verb() in ("pass", "alter", "cut", "dump") else None


def end_of(row: Row, run: Run) -> Optional[Tuple[Line, str]]:
    """The line and the side of what the event sends, or of where it arrives."""
    port, verb, words = port_of((row.verdict or [])[1:2]), row.verb(), row.words
    if verb in ARRIVALS and port:
        has_stream = row.answer() in ("insecure", "notkeyed", "fail", "held", "accepted")
        return run.topology.end_at(port, number(row.verdict[2]) if has_stream else None)
    if row.packets:
        return row.packets[0].line, row.packets[0].side
    if verb == "psend" and len(words) > 2 and number(words[1]) is not None:
        return Line("peer", number(words[1])), HOST if words[2] == "a" else DEVICE
    if verb == "forward" and len(words) > 2 and None not in numbers(row)[:2]:
        link, direction = numbers(row)[:2]
        return Line("hop", link, 1 - direction % 2), DEVICE if direction else HOST
    if verb == "respond" and len(words) > 1 and number(words[1]) is not None:
        return Line("link", number(words[1])), DEVICE
    port = port_of(words[1:2])
    return run.topology.end_at(port, None) if port else None


def line_of(row: Row, run: Run) -> Optional[Line]:
    """The line on whose chart the event stands; None if it belongs to no one line."""
    end, face, packet, named = end_of(row, run), face_of(row, run), packet_named(row, run), numbers(row)
    line = None
    if end:
        line = end[0]
    elif face is not None:
        line = Line("link", run.topology.faces[face].link)
    elif packet:
        line = packet.line
    elif row.verb() in KEY_OPERATIONS + ON_LINKS and named and named[0] is not None:
        line = operated(row, named)
    known = run.topology.lines_beside() + [Line("link", link) for link in range(run.topology.links or 8)]
    return line if line in known else None


def operated(row: Row, named: List[Optional[int]]) -> Line:
    """The line of an operation on keys, or of another event on a link."""
    if row.verb() in ("hestablish", "hstop"):
        return Line("hop", named[0], (named + [0])[1] or 0)
    return Line("peer" if row.verb() in ("pestablish", "pstop") else "link", named[0])


def stream_of(row: Row, run: Run) -> Optional[int]:
    """The ID of the stream whose keys the event is about."""
    line, named = row.line_drawn, numbers(row)
    if line is None or row.verb() not in KEY_OPERATIONS:
        return None
    if line.kind == "link":
        return named[1] if len(named) > 1 else None
    return run.topology.hops[line.number] if line.kind == "hop" else run.topology.peers[line.number].id


def receiver_of(row: Row, run: Run) -> Optional[str]:
    """The side at which an arrival arrives."""
    end = end_of(row, run) if row.verb() in ARRIVALS else None
    return end[1] if end else None


def is_arrival(row: Row, run: Run) -> bool:
    """Whether bytes arrived at a port in this event."""
    there = row.verdict is not None and row.answer() != "none"
    return row.verb() in ARRIVALS and there and receiver_of(row, run) is not None
