"""A second model of keyed lines, in Python, written from the rules alone (docs/RULES.md, docs/FORMATS.md): the streams
of links, the segments of a hop through a switch, and streams between two devices.

It keeps counters and slots and walks through every exchange, while the proved definitions filter whole histories; the
two share no code and no form. Interfaces and trusted memory stand beside it, in world.py. AES and GCM come from the
`cryptography` package.
"""

from dataclasses import dataclass, field
from typing import Dict, List, Optional, Tuple

from cryptography.hazmat.primitives.ciphers import Cipher, algorithms, modes
from cryptography.hazmat.primitives.ciphers.aead import AESGCM

from plan import LinkPlan, Plan, StreamPlan

# the two ends of a line, by the direction that they seal: a host and a device are the ends of a link
NEAR, FAR = HOST, DEVICE = 0, 1
PR, NPR, CPL = 0, 1, 2
SUB_NAMES = ["pr", "npr", "cpl"]
LANES = [(direction, sub) for direction in (0, 1) for sub in (PR, NPR, CPL)]
TAG_BYTES = 12
Loss = Optional[Tuple[int, str]]


# ---- TLPs and packets


class Malformed(Exception):
    def __init__(self, fault: str, place: int):
        self.fault, self.place = fault, place


@dataclass
class Kind:
    name: str
    head_bytes: int
    has_payload: bool
    sub: int


def kind_of(byte: int) -> Optional[Kind]:
    form, kind = byte >> 5, byte & 0x1F
    if form < 4 and kind == 0:
        write = form >= 2
        return Kind("memwrite" if write else "memread", 16 if form & 1 else 12, write, PR if write else NPR)
    if form in (0, 2) and kind in (4, 5):
        return Kind("cfgwrite" if form else "cfgread", 12, form == 2, NPR)
    if form in (1, 3) and 16 <= kind <= 21:
        return Kind("message", 16, form == 3, PR)
    if form in (0, 2) and kind == 10:
        return Kind("completion", 12, form == 2, CPL)
    return None


def header_fault(kind: Kind, header: bytes, place: int) -> Optional[str]:
    """Why no header goes on with the byte at this place."""
    byte, configuration = header[place], kind.name.startswith("cfg")
    if place == 1 and byte & 0x03 or place == 2 and byte & 0xC0:
        return "bit"
    if configuration and (place == 2 and byte & 0x03 or place == 3 and byte != 1):
        return "length"
    if kind.name.startswith("mem") and place == kind.head_bytes - 1 and byte & 0x03:
        return "bit"
    if configuration and (place == 10 and byte & 0xF0 or place == 11 and byte & 0x03):
        return "bit"
    if kind.name == "completion" and place == 11 and byte & 0x80:
        return "bit"
    return None


def read_header(data: bytes) -> Tuple[Kind, bytes, int]:
    """The kind, the header, and how many bytes of payload belong to it."""
    if not data:
        raise Malformed("short", 0)
    kind = kind_of(data[0])
    if kind is None:
        raise Malformed("kind", 0)
    for place in range(1, kind.head_bytes):
        if place == len(data):
            raise Malformed("short", place)
        fault = header_fault(kind, data, place) if place < 4 or place > 9 else None
        if fault:
            raise Malformed(fault, place)
    double_words = ((data[2] & 0x03) << 8 | data[3]) or 1024
    return kind, data[: kind.head_bytes], 4 * double_words if kind.has_payload else 0


def ends_at(data: bytes, end: int):
    if len(data) < end:
        raise Malformed("short", len(data))
    if len(data) > end:
        raise Malformed("trailing", end)


def read_tlp(data: bytes) -> Tuple[Kind, bytes, bytes]:
    kind, header, payload = read_header(data)
    ends_at(data, len(header) + payload)
    return kind, header, data[len(header):]


@dataclass
class Packet:
    prefix: bytes
    header: bytes
    body: bytes
    tag: bytes
    sync: bool

    m = property(lambda self: self.prefix[1] >> 7)
    k = property(lambda self: self.prefix[1] >> 6 & 1)
    t = property(lambda self: self.prefix[1] >> 5 & 1)
    sub = property(lambda self: self.prefix[1] & 7)
    stream = property(lambda self: self.prefix[2])
    posted = property(lambda self: self.prefix[3])


def cut(data: bytes) -> Optional[Packet]:
    """The packet; None if byte 0 says that it is no packet of a stream."""
    if not data:
        raise Malformed("short", 0)
    if data[0] != 0x92:
        return None
    if len(data) < 2:
        raise Malformed("short", 1)
    if data[1] & 0x18:
        raise Malformed("reserved", 1)
    sub, ends_unit = data[1] & 7, data[1] >> 7
    if sub > CPL:
        raise Malformed("substream", 1)
    if len(data) < 4:
        raise Malformed("short", len(data))
    if sub == PR and data[3]:
        raise Malformed("reserved", 3)
    if len(data) < 5:
        raise Malformed("short", 4)
    sync = sub != PR and data[4] == 0x34
    if sync:
        header, payload = read_sync(data), 0
    else:
        header, payload = read_inner(data, sub)
    end = 4 + len(header) + payload
    ends_at(data, end + (TAG_BYTES if ends_unit else 0))
    return Packet(data[:4], header, data[4 + len(header): end], data[end:], sync)


def read_sync(data: bytes) -> bytes:
    if data[1] & 0xA0 != 0x80:
        raise Malformed("sync", 4)
    for place in range(5, 16):
        if place == len(data):
            raise Malformed("short", place)
        if data[place]:
            raise Malformed("sync", place)
    return data[4:16]


def read_inner(data: bytes, sub: int) -> Tuple[bytes, int]:
    kind = kind_of(data[4])
    if kind is None:
        raise Malformed("kind", 4)
    if kind.sub != sub:
        raise Malformed("class", 4)
    try:
        _, header, payload = read_header(data[4:])
    except Malformed as fault:
        raise Malformed(fault.fault, fault.place + 4)
    return header, payload


# ---- the cipher


def nonce(sub: int, unit: int) -> bytes:
    return bytes([16 * sub, 0, 0, 0]) + unit.to_bytes(8, "big")


def masked(key: bytes, iv: bytes, place: int, data: bytes) -> bytes:
    """The bytes combined with the key stream from this place of the plaintext on."""
    stream = Cipher(algorithms.AES(key), modes.CTR(iv + (2).to_bytes(4, "big"))).encryptor()
    mask = stream.update(bytes(place + len(data)))[place:]
    return exclusive_or(data, mask)


def exclusive_or(a: bytes, b: bytes) -> bytes:
    return (int.from_bytes(a, "big") ^ int.from_bytes(b, "big")).to_bytes(len(a), "big")


def tag_of(key: bytes, iv: bytes, authenticated: bytes, ciphertext: bytes) -> bytes:
    plaintext = masked(key, iv, 0, ciphertext)
    return AESGCM(key).encrypt(iv, plaintext, authenticated)[-16:][:TAG_BYTES]


# ---- what is kept


@dataclass
class Slot:
    state: str = "empty"
    draw: int = 0
    units: int = 0
    # of a sender the open unit, of a receiver what is held
    packets: List[Packet] = field(default_factory=list)


@dataclass
class Lane:
    """One sub-stream in one direction at a port."""

    slots: List[Slot] = field(default_factory=lambda: [Slot(), Slot()])
    posted: int = 0
    carried: int = 0
    got: int = 0
    total: int = 0

    def live(self) -> Optional[int]:
        first, second = self.slots
        return 0 if first.state == "live" else 1 if second.state == "live" else None

    def live_draw(self) -> Optional[int]:
        """The greatest that is Live."""
        return max((slot.draw for slot in self.slots if slot.state == "live"), default=None)


class End:
    """One of the two ends of a line: its stream at a port, which has its name in scripts, as h0, d0, u0 or w0."""

    def __init__(self, line: "Line", side: int):
        self.line, self.plan, self.port, self.side = line, line.plan, line.ports[side], side
        self.tx = [Lane() for _ in SUB_NAMES]
        self.rx = [Lane() for _ in SUB_NAMES]
        self.failed = False

    link = property(lambda self: link_of(self.port))
    is_at_host = property(lambda self: self.port[0] == "h")
    is_at_device = property(lambda self: self.port[0] == "d")
    is_at_switch = property(lambda self: self.port[0] in "uw")

    def lane(self, direction: int, sub: int) -> Lane:
        return (self.tx if direction == self.side else self.rx)[sub]

    def status(self) -> str:
        live = [lane.live() is not None for lane in self.tx + self.rx]
        if self.failed:
            return "insecure"
        return "secure" if all(live) else "partial" if any(live) else "idle"

    def settle(self):
        for lanes in (self.tx, self.rx):
            if all(lane.live() is None for lane in lanes):
                for lane in lanes:
                    lane.posted = lane.carried = lane.got = lane.total = 0
        if all(lane.live() is None for lane in self.tx + self.rx):
            self.failed = False

    # -- key slots

    def program(self, key_set: int, direction: int, sub: int, draw: int) -> bool:
        slot, other = self.pair(key_set, direction, sub)
        newer = direction != self.side and other.state == "live" and other.draw > slot.draw
        if slot.state == "live" and not newer:
            return False
        self.lane(direction, sub).slots[key_set] = Slot("programmed", draw)
        self.settle()
        return True

    def go(self, key_set: int, direction: int, sub: int):
        slot, other = self.pair(key_set, direction, sub)
        if slot.state == "programmed":
            if direction != self.side:
                slot.state = "live"
            elif other.packets:
                slot.state = "armed"
            else:
                slot.state = "live"
                self.lane(direction, sub).slots[1 - key_set] = Slot()
        self.settle()

    def halt(self, key_set: int, direction: int, sub: int):
        _, other = self.pair(key_set, direction, sub)
        self.lane(direction, sub).slots[key_set] = Slot()
        if other.state == "armed":
            other.state = "live"
        self.settle()

    def pair(self, key_set: int, direction: int, sub: int) -> Tuple[Slot, Slot]:
        slots = self.lane(direction, sub).slots
        return slots[key_set], slots[1 - key_set]


@dataclass
class Operation:
    name: str = "idle"
    key_set: int = 0
    draw: int = 0
    exchange: int = 1


@dataclass
class Exchange:
    """A message to one end of a line; of a STOP it names the key set, else the set is the operation's."""

    what: str
    side: int
    lane: Tuple[int, int] = (0, PR)
    key_set: int = 0


def to_lanes(what: str, side: int, lanes: List[Tuple[int, int]]) -> List[Exchange]:
    return [Exchange(what, side, lane) for lane in lanes]


def stops(side: int) -> List[Exchange]:
    return [Exchange("stop", side, lane, key_set) for key_set in (0, 1) for lane in received_first(side)]


def received_first(side: int) -> List[Tuple[int, int]]:
    """All six lanes, those first that this end receives."""
    return LANES[3:] + LANES[:3] if side == NEAR else LANES


# the near end is a host's port, which is keyed by calls
HOSTED = {
    "establish": [Exchange("query", FAR)] + to_lanes("program", FAR, LANES) + to_lanes("go", FAR, LANES),
    "refresh": to_lanes("program", FAR, LANES) + to_lanes("go", FAR, LANES),
    "stop": stops(FAR),
}
# both ends are keyed by messages
PAIRED = {
    "establish": to_lanes("program", NEAR, received_first(NEAR))
    + to_lanes("program", FAR, received_first(FAR))
    + to_lanes("go", NEAR, LANES[3:])
    + to_lanes("go", FAR, LANES[:3])
    + to_lanes("go", NEAR, LANES[:3])
    + to_lanes("go", FAR, LANES[3:]),
    "stop": stops(NEAR) + stops(FAR),
}
ENDS = {"establish": "established", "refresh": "refreshed", "stop": "stopped"}


class Line:
    """A stream with its two ends. `name` is what a script calls it by after an event's word: `0 5` is stream 5 of link
    0, `0 1` segment 1 of the hop of link 0, `3` the fourth stream between devices; `letter` is before its operations'
    words: none, h or p."""

    def __init__(self, plan: StreamPlan, ports: Tuple[str, str], letter: str, name: str, end_type: type = End):
        self.plan, self.ports, self.letter, self.name, self.end_type = plan, ports, letter, name, end_type
        self.operation = Operation()
        # of the last establish that began, or of the last refresh since then that came to its end
        self.draw = 0
        self.ends = [end_type(self, side) for side in (NEAR, FAR)]

    is_hosted = property(lambda self: self.ports[NEAR][0] == "h")

    @property
    def exchanges(self) -> Dict[str, List[Exchange]]:
        """Of each operation; there is a refresh of streams of links alone."""
        table = HOSTED if self.is_hosted else PAIRED
        return {name: exchanges for name, exchanges in table.items() if name != "refresh" or not self.letter}

    def clear(self, side: int):
        self.ends[side] = self.end_type(self, side)


# ---- all links


def number(word: str) -> int:
    return int(word, 16) if word.startswith("0x") else int(word)


def loss(words: List[str]) -> Loss:
    """What the words `lose N request` or `lose N reply` lose."""
    return (number(words[1]), words[2]) if words else None


def link_of(port: str) -> int:
    return int(port[1:])


class Links:
    """The ports of all links and of the switches on them. What has no interfaces and no trusted memory is these four:
    `sets_t`, `effect`, `stop_begins` and `ends_moved`; world.py has them with both."""

    end_type = End

    def __init__(self, plan: Plan):
        self.plan = plan
        self.streams: Dict[Tuple[int, int], Line] = {}
        self.segments: Dict[Tuple[int, int], Line] = {}
        self.peers: List[Line] = []
        self.waiting: Dict[Tuple[int, int], List[Tuple[bytes, bool]]] = {}
        self.draws = 0
        # each with the ports at which it was sealed and to which it is on its way
        self.packets: List[Tuple[str, str, bytes]] = []
        self.totals = {"sealed": 0, "accepted": 0, "failed": 0, "blocked": 0}
        for link, link_plan in enumerate(plan.links):
            self.add_link(link, link_plan)
        for number, peer in enumerate(plan.p2p):
            stream = StreamPlan(peer.id, mode=peer.mode)
            self.peers.append(Line(stream, (f"d{peer.a}", f"d{peer.b}"), "p", str(number), self.end_type))
        # each end by its port and stream
        self.ends: Dict[Tuple[str, int], Tuple[Line, int]] = {}
        for line in self.lines():
            for side, port in enumerate(line.ports):
                self.ends.setdefault((port, line.plan.id), (line, side))

    def add_link(self, link: int, link_plan: LinkPlan):
        for stream in link_plan.streams:
            ports = (f"h{link}", f"d{link}")
            self.streams[link, stream.id] = Line(stream, ports, "", f"{link} {stream.id}", self.end_type)
        if link_plan.hop is not None:
            stream = StreamPlan(link_plan.hop)
            for segment, ports in enumerate([(f"h{link}", f"u{link}"), (f"w{link}", f"d{link}")]):
                self.segments[link, segment] = Line(stream, ports, "h", f"{link} {segment}", self.end_type)
                self.waiting[link, segment] = []

    def lines(self) -> List[Line]:
        return [*self.streams.values(), *self.segments.values(), *self.peers]

    def end_at(self, port: str, stream: int) -> Optional[End]:
        """What has this stream ID at a port."""
        line, side = self.ends.get((port, stream), (None, 0))
        return line.ends[side] if line else None

    # -- what stands beside the links

    def sets_t(self, end: End, header: bytes, trusted: bool) -> bool:
        """Whether the packet of a TLP has T."""
        return not end.is_at_device and trusted

    def effect(self, end: End, draw: int, packet: Packet, payload: bytes) -> str:
        """What a TLP gives that a host's or a device's port accepted."""
        if end.is_at_host and kind_of(packet.header[0]).name == "memwrite":
            return "blocked:notrunning" if packet.t else "blocked:nottrusted"
        return "delivered"

    def stop_begins(self, line: Line):
        """Before the first exchange of a stop."""

    def ends_moved(self, line: Line):
        """After whatever may take the stream out of Secure at an end."""

    def key(self, draw: int, direction: int, sub: int) -> bytes:
        return self.plan.pool[6 * draw + 3 * direction + sub]

    # -- sends

    def chosen(self, port: str, kind: Kind, header: bytes) -> Optional[int]:
        pair = lambda place: header[place] << 8 | header[place + 1]
        by_id = kind.name.startswith("cfg") or kind.name == "message" and header[0] & 0x1F == 18
        if port[0] == "d":
            identity = pair(4)
        else:
            identity = pair(8) if by_id or kind.name == "completion" else None
        address = int.from_bytes(header[8:], "big") if kind.name.startswith("mem") else None
        link = self.plan.links[link_of(port)]
        selective = [
            s.id
            for s in link.streams
            if identity is not None and s.rid and s.rid[0] <= identity <= s.rid[1]
            or address is not None and any(base <= address <= limit for base, limit in s.ranges)
        ]
        default = [s.id for s in link.streams if s.default]
        traffic_class = header[1] >> 4 & 7
        by_class = [s.id for s in link.streams if traffic_class in s.tcs]
        by_class += [link.hop] if traffic_class in link.hop_tcs else []
        return min(selective) if selective else (default + by_class + [None])[0]

    def send(self, port: str, data: bytes, more: bool, trusted: bool) -> str:
        try:
            kind, header, _ = read_tlp(data)
        except Malformed as fault:
            return f"malformed {port} {fault.fault} {fault.place}"
        stream = self.chosen(port, kind, header)
        if stream is None:
            return f"plain {port}"
        return self.send_on(self.end_at(port, stream), data, more, trusted)

    def send_on(self, end: End, data: bytes, more: bool, trusted: bool, is_response: bool = False) -> str:
        """On the end's own stream, whatever the TLP is. T of a response is as its read had it."""
        try:
            kind, header, payload = read_tlp(data)
        except Malformed as fault:
            return f"malformed {end.port} {fault.fault} {fault.place}"
        refusal, syncs = self.refusal(end, kind.sub)
        if refusal:
            return f"refused {refusal}"
        t = trusted if is_response else self.sets_t(end, header, trusted)
        rows = [self.seal(end, sub, bytes([0x34]) + bytes(11), b"", False, False, True) for sub in syncs]
        rows.append(self.seal(end, kind.sub, header, payload, more, t, False))
        self.totals["sealed"] += len(rows)
        return "sealed " + " ; ".join(rows)

    def refusal(self, end: End, sub: int) -> Tuple[Optional[str], List[int]]:
        """Why nothing is sealed, and the sub-streams that need a sync packet first."""
        open_unit = lambda u: any(slot.packets for slot in end.tx[u].slots)
        if end.failed:
            return "insecure", []
        if end.tx[sub].live() is None:
            return f"nokey {SUB_NAMES[sub]}", []
        if sub != PR and open_unit(PR):
            return "unfinished", []
        begins = sub == PR and not open_unit(PR)
        syncs = [u for u in (NPR, CPL) if begins and end.tx[u].posted + end.plan.mode > 255]
        for u in syncs:
            if end.tx[u].live() is None:
                return f"nokey {SUB_NAMES[u]}", []
        for u in [sub] + syncs:
            lane = end.tx[u]
            if not open_unit(u) and lane.slots[lane.live()].units == self.plan.units_per_key:
                return f"worn {SUB_NAMES[u]} {self.plan.units_per_key}", []
        return None, syncs

    def seal(self, end: End, sub: int, header: bytes, payload: bytes, more: bool, trusted: bool, sync: bool) -> str:
        lane = end.tx[sub]
        key_set = lane.live()
        slot, other = lane.slots[key_set], lane.slots[1 - key_set]
        unit, draw = slot.units + 1, slot.draw
        key, iv = self.key(draw, end.side, sub), nonce(sub, unit)
        last = sync or not more or len(slot.packets) + 1 == end.plan.mode
        posted = 0 if sub == PR else lane.posted
        prefix = bytes([0x92, last << 7 | key_set << 6 | trusted << 5 | sub, end.plan.id, posted])
        body = masked(key, iv, sum(len(p.body) for p in slot.packets), payload)
        packet = Packet(prefix, header, body, b"", sync)
        slot.packets.append(packet)
        if last:
            packet.tag = self.unit_tag(end, lane, slot, key, iv)
            slot.packets, slot.units = [], unit
            lane.total += 1
            if other.state == "armed":
                other.state = "live"
                lane.slots[key_set] = Slot()
        for counting in end.tx[NPR:] if sub == PR else []:
            counting.posted += 1
        lane.posted = 0
        self.packets.append((end.port, end.line.ports[1 - end.side], prefix + header + body + packet.tag))
        return (
            f"{len(self.packets)} {end.port} {end.plan.id} {SUB_NAMES[sub]} draw {draw} unit {unit}"
            f" m{int(last)} k{key_set} t{int(trusted)} p{posted}{' sync' if sync else ''}"
        )

    def unit_tag(self, end: End, lane: Lane, slot: Slot, key: bytes, iv: bytes) -> bytes:
        """Over the packets of the slot; on a closed stream the total is authenticated before unit 1."""
        front = lane.total.to_bytes(8, "big") if end.plan.closed and slot.units == 0 else b""
        authenticated = front + b"".join(p.prefix + p.header for p in slot.packets)
        return tag_of(key, iv, authenticated, b"".join(p.body for p in slot.packets))

    # -- arrivals

    def arrive(self, port: str, data: bytes) -> str:
        if port[0] in "uw" and data[:1] == b"\x92" and len(data) > 2 and data[2] != self.plan.links[link_of(port)].hop:
            return f"through {port}"
        try:
            packet = cut(data)
        except Malformed as fault:
            return f"malformed {port} {fault.fault} {fault.place}"
        if packet is None:
            return f"plain {port}"
        end = self.end_at(port, packet.stream)
        if end is None:
            return f"unknown {port} {packet.stream}"
        if end.failed:
            return f"insecure {port} {packet.stream}"
        verdict = self.take(end, packet, f"{port} {packet.stream} {SUB_NAMES[packet.sub]}")
        self.ends_moved(end.line)
        return verdict

    def take(self, end: End, packet: Packet, where: str) -> str:
        lane = end.rx[packet.sub]
        slot, other = lane.slots[packet.k], lane.slots[1 - packet.k]
        if lane.live() is None:
            return f"notkeyed {where}"
        if slot.state != "live":
            return self.fail(end, where, "key")
        if other.packets or not packet.m and len(slot.packets) + 1 >= end.plan.mode:
            return self.fail(end, where, "unit")
        name = f"{where} draw {slot.draw} unit {slot.units + 1}"
        slot.packets.append(packet)
        if not packet.m:
            return f"held {name}"
        key, iv = self.key(slot.draw, 1 - end.side, packet.sub), nonce(packet.sub, slot.units + 1)
        if self.unit_tag(end, lane, slot, key, iv) != packet.tag:
            return self.fail(end, where, "tag")
        carried = lane.carried + sum(p.posted for p in slot.packets)
        if packet.sub != PR and carried > end.rx[PR].got:
            return self.fail(end, where, "order")
        effects = self.effects(end, slot, key, iv)
        lane.carried = carried
        lane.got += len(slot.packets)
        lane.total += 1
        slot.units, slot.packets = slot.units + 1, []
        if other.state == "live" and other.draw < slot.draw:
            lane.slots[1 - packet.k] = Slot()
        self.totals["accepted"] += len(effects)
        self.totals["blocked"] += sum(effect.startswith("blocked") for effect in effects)
        return f"accepted {name} {' '.join(effects)}"

    def fail(self, end: End, where: str, cause: str) -> str:
        end.failed = True
        for lane in end.rx:
            for slot in lane.slots:
                slot.packets = []
        self.totals["failed"] += 1
        return f"fail {where} {cause}"

    def effects(self, end: End, slot: Slot, key: bytes, iv: bytes) -> List[str]:
        """What the packets of an accepted unit give, one after another."""
        effects, place = [], 0
        for packet in slot.packets:
            payload = masked(key, iv, place, packet.body)
            place += len(payload)
            if packet.sync:
                effects.append("sync")
            elif end.is_at_switch:
                self.waiting[end.link, 1 - end.side].append((packet.header + payload, bool(packet.t)))
                effects.append("waiting")
            else:
                effects.append(self.effect(end, slot.draw, packet, payload))
        return effects

    # -- operations

    def begins(self, name: str, line: Line) -> Optional[str]:
        """Begins an operation, or says why not; one that is unfinished goes on."""
        operation = line.operation
        if operation.name == name:
            return None
        if name == "stop":
            if line.is_hosted:
                for key_set in (0, 1):
                    for lane in LANES:
                        line.ends[NEAR].halt(key_set, *lane)
            line.operation = Operation("stop")
            return None
        if operation.name in line.exchanges:
            return f"busy {line.letter}{operation.name}"
        if name == "establish" and operation.name == "up":
            return "notidle"
        key_set = 1 - operation.key_set if name == "refresh" else 0
        refusal = self.no_refresh(line, key_set) if name == "refresh" else None
        if not refusal and 6 * self.draws == len(self.plan.pool):
            refusal = f"poolempty {self.draws}"
        if refusal:
            return refusal
        line.operation = Operation(name, key_set, self.draws)
        if name == "establish":
            line.draw = self.draws
        for lane in LANES if line.is_hosted else []:
            line.ends[NEAR].program(key_set, *lane, self.draws)
        self.draws += 1
        return None

    def no_refresh(self, line: Line, key_set: int) -> Optional[str]:
        """Why a stream of a link gets no newer keys in this set."""
        host = line.ends[HOST]
        if line.operation.name != "up" or host.status() != "secure":
            return f"notsecure {host.status()}"
        open_units = [sub for sub in (PR, NPR, CPL) if host.tx[sub].live() == key_set]
        return f"unitopen {SUB_NAMES[open_units[0]]}" if open_units else None

    def operate(self, name: str, line: Line, lost: Loss) -> str:
        was_unfinished = line.operation.name == name
        refusal = self.begins(name, line)
        if refusal:
            return f"refused {refusal}"
        if name == "stop" and (not was_unfinished or line.letter == "p"):
            self.stop_begins(line)
        operation, exchanges = line.operation, line.exchanges[name]
        while operation.exchange <= len(exchanges):
            stays = self.exchange(line, exchanges[operation.exchange - 1], lost)
            if stays:
                return stays
            operation.exchange += 1
        line.operation = Operation("idle" if name == "stop" else "up", operation.key_set, operation.draw)
        shown = f"{line.letter}{ENDS[name]} {line.name}"
        if name == "stop":
            return shown
        line.draw = operation.draw
        return f"{shown} draw {operation.draw}"

    def exchange(self, line: Line, exchange: Exchange, lost: Loss) -> Optional[str]:
        operation, end = line.operation, line.ends[exchange.side]
        if lost == (operation.exchange, "request"):
            return f"lost request {operation.exchange}"
        well = True
        if exchange.what == "program":
            well = end.program(operation.key_set, *exchange.lane, operation.draw)
        elif exchange.what == "go":
            end.go(operation.key_set, *exchange.lane)
        elif exchange.what == "stop":
            end.halt(exchange.key_set, *exchange.lane)
        self.ends_moved(line)
        if lost == (operation.exchange, "reply"):
            return f"lost reply {operation.exchange}"
        if not well:
            return f"refused devicerefused {operation.exchange} 3"
        if line.is_hosted and (exchange.what, exchange.lane) == ("go", (0, CPL)):
            for lane in received_first(NEAR):
                line.ends[NEAR].go(operation.key_set, *lane)
        return None

    # -- a switch

    def forward(self, link: int, direction: int) -> str:
        """The oldest TLP that waits at the switch in this direction is sealed on its other side, or stays."""
        if (link, direction) not in self.waiting:
            return "none"
        waiting = self.waiting[link, direction]
        if not waiting:
            return f"empty {link}"
        leaving = self.segments[link, 1 - direction].ends[direction]
        data, t = waiting[0]
        verdict = self.send_on(leaving, data, more=False, trusted=t)
        if verdict.startswith("sealed"):
            waiting.pop(0)
        return verdict

    # -- lines of a script

    def verdict(self, line: str) -> str:
        words = line.split()
        event, rest = words[0], words[1:]
        if event == "reset":
            return self.reset(number(rest[0]))
        if event == "forward":
            return self.forward(*map(number, rest))
        if event in ("send", "arrive"):
            return self.on_port(event, rest[0], bytes.fromhex(rest[1].strip("-")), rest[2:])
        if event == "psend":
            return self.on_peer(number(rest[0]), rest[1], bytes.fromhex(rest[2].strip("-")), rest[3:])
        if event in ("pass", "alter", "cut", "dump"):
            return self.on_packet(event, number(rest[0]), rest[1:])
        return self.on_line(event, rest)

    def on_line(self, event: str, rest: List[str]) -> str:
        letter = event[0] if event[0] in "ph" else ""
        names = 1 if letter == "p" else 2
        line = self.line_of(letter, [number(word) for word in rest[:names]])
        if line is None:
            return "none"
        if event == "status":
            return f"status {line.name} {line.ends[HOST].status()} {line.ends[DEVICE].status()}"
        return self.operate(event[len(letter):], line, loss(rest[names:]))

    def line_of(self, letter: str, numbers: List[int]) -> Optional[Line]:
        if letter == "p":
            return self.peers[numbers[0]] if numbers[0] < len(self.peers) else None
        return (self.segments if letter == "h" else self.streams).get(tuple(numbers))

    def reset(self, link: int) -> str:
        if link >= len(self.plan.links):
            return "none"
        for line in self.lines():
            cut_ends = [side for side in (NEAR, FAR) if link_of(line.ports[side]) == link]
            for side in cut_ends:
                line.clear(side)
            if cut_ends:
                line.operation = Operation("stop" if line.letter == "p" else "idle")
        for direction in (0, 1):
            if (link, direction) in self.waiting:
                self.waiting[link, direction] = []
        return f"reset {link}"

    def has_port(self, port: str) -> bool:
        link = link_of(port)
        return link < len(self.plan.links) and (port[0] in "hd" or self.plan.links[link].hop is not None)

    def on_port(self, event: str, port: str, data: bytes, words: List[str]) -> str:
        if not self.has_port(port):
            return "none"
        if event == "arrive":
            return self.arrive(port, data)
        return self.send(port, data, "more" in words, "trusted" in words)

    def on_peer(self, place: int, end: str, data: bytes, words: List[str]) -> str:
        if place >= len(self.peers):
            return "none"
        return self.send_on(self.peers[place].ends["ab".index(end)], data, "more" in words, False)

    def on_packet(self, event: str, place: int, rest: List[str]) -> str:
        if not 1 <= place <= len(self.packets):
            return "none"
        _, port, data = self.packets[place - 1]
        if event == "dump":
            return f"packet {place} {data.hex()}"
        if event == "alter":
            at = number(rest[0])
            if at >= len(data):
                return "none"
            data = data[:at] + bytes([data[at] ^ int(rest[1], 16)]) + data[at + 1:]
        if event == "cut":
            if number(rest[0]) > len(data):
                return "none"
            data = data[: number(rest[0])]
        return self.arrive(port, data)

    def total(self) -> str:
        return "total " + " ".join(f"{name} {count}" for name, count in self.totals.items())
