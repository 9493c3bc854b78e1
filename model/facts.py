"""What a verdict came from, by the second model: the rule that answers (docs/RULES.md), and the facts of the state
before the event (docs/COMMAND.md, Facts). `told` runs an event and gives its verdict with these lines."""

from typing import List, Optional, Tuple

import messages
from interfaces import LOCKED, RUN
from links import CPL, FAR, HOST, NEAR, NPR, PR, SUB_NAMES
from links import End, Line, Malformed, Operation, cut, kind_of, link_of, number
from links import read_tlp
from world import BINDINGS, CHANGES, OPERATIONS, World

ARRIVALS = ["pass", "alter", "cut", "arrive"]
# the rules that can answer an event or the effect of a packet, in the order of docs/RULES.md
RULES = """
    lines.none packets.shown sending.malformed sending.plain sending.insecure sending.key sending.unfinished
    sending.sync sending.worn sending.sealed arriving.plain arriving.malformed arriving.stream arriving.insecure
    arriving.keyed arriving.key arriving.unit arriving.held arriving.tag arriving.order arriving.accepted
    arriving.effects slots.status operations.begin operations.lost operations.busy operations.establish
    operations.refresh operations.device reset interfaces.write interfaces.flr interfaces.firmware views.lock
    views.report views.start views.halt views.bind views.unbind views.state views.lost views.device views.shown
    memory.trusted memory.running memory.stream memory.floor memory.region memory.page memory.bytes memory.shown
    reads.queued reads.granted reads.placed reads.full answers.link answers.empty answers.running answers.stream
    answers.floor answers.refresh answers.refused answers.sealed mmio.page mmio.trusted mmio.running mmio.stream
    mmio.floor mmio.bytes mmio.shown responses.link responses.empty responses.moved responses.trusted responses.running
    responses.stream responses.floor responses.refresh responses.refused responses.sealed peers.operations
    hops.operations hops.through hops.waiting hops.forward
""".split()
MEMORY_CAUSES = {
    "nottrusted": "trusted", "notrunning": "running", "wrongstream": "stream", "stale": "floor", "outside": "region",
    "crosses": "page",
}
MMIO_CAUSES = {
    "nottrusted": "trusted", "notrunning": "running", "wrongstream": "stream", "stale": "floor", "crosses": "page",
}


# ---- the rule that answers


def sending_rule(words: List[str], sub: Optional[str], other: str) -> str:
    if words[:2] == ["refused", "nokey"]:
        return "sending.key" if sub in (None, words[2]) else "sending.sync"
    if words[0] == "refused":
        return f"sending.{words[1]}"
    return f"sending.{words[0]}" if words[0] in ("malformed", "plain", "sealed") else other


def arriving_rule(words: List[str]) -> str:
    if words[0] in ("none", "through"):
        return {"none": "lines.none", "through": "hops.through"}[words[0]]
    if words[0] == "fail":
        return f"arriving.{words[4]}"
    return f"arriving.{ {'unknown': 'stream', 'notkeyed': 'keyed'}.get(words[0], words[0]) }"


def operation_rule(event: str, words: List[str]) -> str:
    name = event.lstrip("ph")
    if words[0] in ("none", "lost"):
        return {"none": "lines.none", "lost": "operations.lost"}[words[0]]
    if words[:2] == ["refused", "devicerefused"]:
        return "operations.device"
    if event[0] in "ph":
        return {"h": "hops.operations", "p": "peers.operations"}[event[0]]
    if words[:2] == ["refused", "busy"]:
        return "operations.busy"
    return f"operations.{name}" if words[0] == "refused" else "operations.begin"


def interface_rule(event: str, words: List[str]) -> str:
    if words[0] == "lost":
        return "views.lost"
    if words[:2] == ["refused", "devicerefused"]:
        return "views.device"
    if event in CHANGES:
        return f"interfaces.{event}"
    return "views.shown" if event == "view" else f"views.{event}"


def answer_rule(words: List[str]) -> str:
    if words[0] == "dropped":
        return {"notrunning": "answers.running", "wrongstream": "answers.stream"}.get(words[2], "answers.floor")
    if words[:2] == ["refused", "refreshfirst"]:
        return "answers.refresh"
    rules = {"none": "answers.link", "empty": "answers.empty", "sealed": "answers.sealed"}
    return rules.get(words[0], "answers.refused")


def response_rule(words: List[str]) -> str:
    if words[0] == "dropped":
        causes = {"nottrusted": "trusted", "notrunning": "running", "wrongstream": "stream", "stale": "floor"}
        return f"responses.{causes.get(words[2], words[2])}"
    if words[:2] == ["refused", "refreshfirst"]:
        return "responses.refresh"
    rules = {"none": "responses.link", "empty": "responses.empty", "sealed": "responses.sealed"}
    return rules.get(words[0], "responses.refused")


def rule(event: str, verdict: str, sub: Optional[str]) -> str:
    words = verdict.split()
    if event in ("memory", "mmio"):
        return f"{event}.shown" if event == "mmio" or words[0] != "none" else "memory.shown"
    if event == "answer":
        return answer_rule(words)
    if event == "respond":
        return response_rule(words)
    if event in ARRIVALS:
        return arriving_rule(words)
    if event.lstrip("ph") in ("establish", "refresh", "stop"):
        return operation_rule(event, words)
    if words == ["none"]:
        return "lines.none"
    if event in ("send", "psend"):
        return sending_rule(words, sub, "lines.none")
    if event == "forward":
        return sending_rule(words, sub, "hops.forward")
    if event in OPERATIONS + BINDINGS + CHANGES + ["view"]:
        return interface_rule(event, words)
    return {"dump": "packets.shown", "reset": "reset", "status": "slots.status"}[event]


def effect_rule(port: str, sub: str, effect: str) -> str:
    plain = {"applied": "memory.bytes", "queued": "reads.queued", "stored": "mmio.bytes", "waiting": "hops.waiting"}
    if not effect.startswith("blocked:"):
        return plain.get(effect, "arriving.effects")
    cause = effect.split(":")[1]
    if port[0] != "h":
        return "reads.full" if cause == "full" else f"mmio.{MMIO_CAUSES[cause]}"
    if sub == "npr":
        return {"outside": "reads.placed", "crosses": "reads.placed", "full": "reads.full"}.get(cause, "reads.granted")
    return f"memory.{MEMORY_CAUSES[cause]}"


def effect_rules(verdict: str) -> List[str]:
    words = verdict.split()
    if words[0] != "accepted":
        return []
    return [f"rule {effect_rule(words[1], words[3], effect)}" for effect in words[8:]]


# ---- facts


def slot_word(slot) -> str:
    if slot.state == "empty":
        return "none"
    if slot.state == "live":
        return f"on draw {slot.draw} unit {slot.units + 1} packets {len(slot.packets)}"
    return f"{ {'programmed': 'kept', 'armed': 'waits'}[slot.state] } draw {slot.draw}"


def manager_word(operation: Operation) -> str:
    if operation.name == "up":
        return f"manager up set {operation.key_set} draw {operation.draw}"
    if operation.name == "establish":
        return f"manager establishing draw {operation.draw} next {operation.exchange}"
    if operation.name == "refresh":
        return f"manager refreshing set {operation.key_set} draw {operation.draw} next {operation.exchange}"
    return f"manager stopping next {operation.exchange}" if operation.name == "stop" else "manager idle"


class Facts:
    """The facts of a world, which they leave as it is."""

    def __init__(self, world: World):
        self.world = world

    def draws(self) -> str:
        return f"draws {self.world.draws} of {len(self.world.plan.pool) // 6}"

    # -- interfaces

    def face(self, handle) -> List[str]:
        state = f"interface {handle.number} state {handle.interface.state}"
        facts = [state, f"view {handle.view}", f"needs {handle.needs}"]
        return facts + ([f"bound {handle.plan.stream} floor {handle.floor}"] if handle.view == "running" else [])

    def owner(self, link: int, header: bytes):
        owners = self.world.on_link(link, requester=header[4] << 8 | header[5])
        return owners[0] if owners else None

    # -- sends

    def sender(self, end: End, sub: int) -> List[str]:
        lane = end.tx[sub]
        facts = [f"posted {SUB_NAMES[sub]} {lane.posted}"]
        facts += [f"set {key_set} {slot_word(slot)}" for key_set, slot in enumerate(lane.slots)]
        return facts + ([f"total {lane.total}"] if end.plan.closed else [])

    def send_on(self, end: End, data: bytes) -> List[str]:
        try:
            kind, header, _ = read_tlp(data)
        except Malformed:
            return [f"at {end.port}"]
        facts = [f"sends {end.port} {end.plan.id} {SUB_NAMES[kind.sub]}", f"stream {end.status()}"]
        for sub in [PR, NPR, CPL] if kind.sub == PR else [kind.sub, PR]:
            facts += self.sender(end, sub)
        # on a hop's stream no interface sets T
        owner = self.owner(end.link, header) if end.is_at_device and end.line.letter != "h" else None
        return facts + (self.face(owner) if owner else [])

    def send(self, port: str, data: bytes) -> List[str]:
        if not self.world.has_port(port):
            return []
        try:
            kind, header, _ = read_tlp(data)
        except Malformed:
            return [f"at {port}"]
        stream = self.world.chosen(port, kind, header)
        return [f"at {port}"] if stream is None else self.send_on(self.world.end_at(port, stream), data)

    def forward(self, link: int, direction: int) -> List[str]:
        if (link, direction) not in self.world.waiting:
            return []
        waiting = self.world.waiting[link, direction]
        leaving = self.world.segments[link, 1 - direction].ends[direction]
        return [f"waiting {len(waiting)}"] + (self.send_on(leaving, waiting[0][0]) if waiting else [])

    def answer(self, link: int) -> List[str]:
        if link not in self.world.reads:
            return []
        waiting = self.world.reads[link]
        facts = [f"waiting {len(waiting)}"]
        if waiting:
            facts.append(f"read draw {waiting[0].draw}")
            owner = self.world.on_link(link, requester=waiting[0].requester)[0]
            end = owner.line.ends[HOST]
            facts += self.face(owner) + [f"stream {end.status()}"] + self.sender(end, CPL)
        return facts

    def respond(self, link: int) -> List[str]:
        if link not in self.world.device_reads:
            return []
        waiting = self.world.device_reads[link]
        facts = [f"waiting {len(waiting)}"]
        if waiting:
            read, end = waiting[0], waiting[0].end
            facts += [f"read draw {read.draw}", f"asks {read.target.number} bar {read.bar} t{int(read.t)}"]
            facts += [f"bytes {read.address} {read.length}"] + self.claim(link, read.address, read.length)
            facts += [f"sends {end.port} {end.plan.id} cpl", f"stream {end.status()}"] + self.sender(end, CPL)
        return facts

    # -- arrivals

    def arrival(self, port: str, data: bytes) -> List[str]:
        if port[0] in "uw" and data[:1] == b"\x92" and len(data) > 2:
            if data[2] != self.world.plan.links[link_of(port)].hop:
                return [f"at {port}"]
        try:
            packet = cut(data)
        except Malformed:
            packet = None
        if packet is None:
            return [f"at {port}"]
        facts = [f"arrives {port} {packet.stream} {SUB_NAMES[packet.sub]} k{packet.k}"]
        end = self.world.end_at(port, packet.stream)
        return facts + (self.received(end, packet) if end else [])

    def received(self, end: End, packet) -> List[str]:
        lane = end.rx[packet.sub]
        slot = lane.slots[packet.k]
        facts = [f"stream {end.status()}"]
        facts += [f"set {key_set} {slot_word(slot)}" for key_set, slot in enumerate(lane.slots)]
        facts += [f"counts {lane.carried} of {end.rx[PR].got}"] if packet.sub != PR else []
        facts += [f"total {lane.total}"] if end.plan.closed else []
        if end.failed or slot.state != "live":
            return facts
        unit = slot.packets + [packet]
        facts += [f"adds {sum(part.posted for part in unit)}"] if packet.sub != PR else []
        for place, part in enumerate(unit, 1):
            facts += self.request(end, place, part)
        return facts

    def request(self, end: End, place: int, packet) -> List[str]:
        """What a packet of a unit asks of memory."""
        if packet.sync or end.is_at_switch:
            return []
        kind, address = kind_of(packet.header[0]).name, int.from_bytes(packet.header[8:], "big")
        length = 4 * (((packet.header[2] & 3) << 8 | packet.header[3]) or 1024)
        if kind != "memwrite" and not (kind == "memread" and self.may_wait(end, packet, address, length)):
            return []
        facts = [f"packet {place} t{packet.t}", f"bytes {address} {length}"]
        if end.is_at_device:
            facts += self.claim(end.link, address, length)
            return facts + ([f"waiting {len(self.world.device_reads[end.link])}"] if kind == "memread" else [])
        facts += self.region(address, length)
        owner = self.owner(end.link, packet.header)
        facts += self.face(owner) if owner else []
        return facts + ([f"waiting {len(self.world.reads[end.link])}"] if kind == "memread" else [])

    def may_wait(self, end: End, packet, address: int, length: int) -> bool:
        """A read with T at a host's port, or one that an interface answers at a device's."""
        claim = self.world.claim(end.link, address, length) if end.is_at_device else None
        return claim[0].plan.reads if claim else bool(packet.t) and end.is_at_host

    def claim(self, link: int, address: int, length: int) -> List[str]:
        claim = self.world.claim(link, address, length)
        if claim is None:
            return []
        handle, bar = claim
        return self.face(handle) + self.bar(handle.interface, bar) + self.takes(handle.interface)

    # -- ranges of memory

    def region(self, address: int, length: int) -> List[str]:
        place = self.world.memory.region_of(address, length)
        if place is None:
            return []
        base, contents = self.world.memory.regions[place]
        return [f"region {base} {len(contents)}"]

    def bar(self, interface, bar: int) -> List[str]:
        bars = interface.plan.bars
        if bar >= len(bars) or not bars[bar].pages:
            return []
        is_open = int(interface.guarded.is_open(bar))
        return [f"bar {bar} base {interface.registers[f'bar{bar}']} pages {bars[bar].pages} open {is_open}"]

    def takes(self, interface, own: bool = True) -> List[str]:
        """The streams of trusted writes: that of the link while a lock stands, and those between devices."""
        floors = [(interface.stream, interface.floor)] if own and interface.state in (LOCKED, RUN) else []
        return [f"takes {stream} floor {floor}" for stream, floor in floors + list(interface.bindings.items())]

    def shown(self, place: int, bar: int) -> List[str]:
        if place >= len(self.world.handles):
            return []
        interface = self.world.handles[place].interface
        return [f"interface {place} state {interface.state}"] + self.bar(interface, bar)

    # -- operations

    def operation(self, name: str, line: Line) -> List[str]:
        facts = [manager_word(line.operation)]
        if name == "refresh":
            facts.append(f"stream {line.ends[HOST].status()}")
        if name != "stop":
            facts.append(self.draws())
        if name == "refresh" and line.operation.name == "up":
            facts += self.opens(line)
        goes = {"establish": ("idle", "establish"), "refresh": ("up", "refresh")}
        if name != "stop" and line.operation.name not in goes[name]:
            return facts
        first = line.operation.exchange if line.operation.name == name else 1
        exchanges = line.exchanges[name]
        facts.append(f"exchanges {first} to {len(exchanges)}")
        return facts + self.refuses(name, line, first, exchanges)

    def opens(self, line: Line) -> List[str]:
        """The host's senders that are in use in the set that a refresh would program."""
        key_set, lanes = 1 - line.operation.key_set, line.ends[HOST].tx
        return [f"open {SUB_NAMES[sub]}" for sub in (PR, NPR, CPL) if lanes[sub].slots[key_set].state == "live"]

    def refuses(self, name: str, line: Line, first: int, exchanges) -> List[str]:
        """The first KEY_PROG that a slot refuses, as the slots are now."""
        if name == "stop":
            return []
        key_set = line.operation.key_set
        if line.operation.name != name:
            key_set = 1 - key_set if name == "refresh" else 0
        for place, exchange in enumerate(exchanges, 1):
            if place < first or exchange.what != "program":
                continue
            end, (direction, sub) = line.ends[exchange.side], exchange.lane
            slot, other = end.pair(key_set, direction, sub)
            newer = direction != end.side and other.state == "live" and other.draw > slot.draw
            if slot.state == "live" and not newer:
                way = "sends" if direction == end.side else "receives"
                return [f"refuses {place} {end.port} {way} {SUB_NAMES[sub]}"]
        return []

    # -- events on interfaces

    def asked(self, event: str, place: int, words: List[str]) -> List[str]:
        if place >= len(self.world.handles):
            return []
        handle = self.world.handles[place]
        if event in BINDINGS and not self.has_peer(handle.link, number(words[0])):
            return []
        facts = self.face(handle) + ([f"reported {int(handle.is_reported)}"] if handle.view == "locked" else [])
        if event in ("lock", "start"):
            facts.append(f"stream {handle.status(HOST)}")
        if event == "start":
            facts.append(f"draw {handle.line.draw}")
        if event == "halt":
            facts += [f"started {int(handle.start_was_asked)}", self.draws()]
        if event == "bind":
            facts += self.between(handle.link, self.world.peers[number(words[0])])
        if event in BINDINGS:
            facts += self.takes(handle.interface, own=False)
        return facts

    def between(self, link: int, line: Line) -> List[str]:
        """Of a stream between devices, of which one is on this link."""
        end = next(end for end in line.ends if end.link == link)
        facts = [manager_word(line.operation), f"draw {line.draw}"]
        return facts + ([f"live {end.rx[PR].live_draw()}"] if end.status() == "secure" else [])

    def has_peer(self, link: int, peer: int) -> bool:
        return peer < len(self.world.peers) and link in map(link_of, self.world.peers[peer].ports)

    # -- an event

    def of(self, line: str) -> List[str]:
        words = line.split()
        event, rest = words[0], words[1:]
        if event == "send":
            return self.send(rest[0], bytes.fromhex(rest[1].strip("-")))
        if event == "psend":
            place = number(rest[0])
            known = place < len(self.world.peers)
            data = bytes.fromhex(rest[2].strip("-"))
            return self.send_on(self.world.peers[place].ends["ab".index(rest[1])], data) if known else []
        if event == "forward":
            return self.forward(*map(number, rest))
        if event == "answer":
            return self.answer(number(rest[0]))
        if event == "respond":
            return self.respond(number(rest[0]))
        if event in ARRIVALS + ["dump"]:
            return self.of_packet(event, rest)
        if event in OPERATIONS + BINDINGS + CHANGES + ["view"]:
            return self.asked(event, number(rest[0]), rest[1:])
        if event == "memory":
            return self.region(*map(number, rest))
        if event == "mmio":
            return self.shown(*map(number, rest[:2]))
        if event == "reset":
            return self.reset(number(rest[0]))
        return self.on_line(event, rest)

    def of_packet(self, event: str, rest: List[str]) -> List[str]:
        if event == "arrive":
            return self.arrival(rest[0], bytes.fromhex(rest[1].strip("-"))) if self.world.has_port(rest[0]) else []
        place, packets = number(rest[0]), [f"packets {len(self.world.packets)}"]
        if event == "dump" or not 1 <= place <= len(self.world.packets):
            return packets
        _, port, data = self.world.packets[place - 1]
        if event == "alter":
            at = number(rest[1])
            if at >= len(data):
                return packets
            data = data[:at] + bytes([data[at] ^ int(rest[2], 16)]) + data[at + 1:]
        if event == "cut":
            if number(rest[1]) > len(data):
                return packets
            data = data[: number(rest[1])]
        return self.arrival(port, data)

    def reset(self, link: int) -> List[str]:
        """Each stream at each end that is cleared: of the link's two ports, of its hop's four, and of each stream
        between its device and another the one end there."""
        world, facts = self.world, []
        if link >= len(world.plan.links):
            return []
        own = [world.streams[link, stream.id] for stream in world.plan.links[link].streams]
        hop = [world.segments[link, segment] for segment in (0, 1) if (link, segment) in world.segments]
        ends = [line.ends[side] for side in (NEAR, FAR) for line in own] + [end for line in hop for end in line.ends]
        peers = [line for line in world.peers if link in map(link_of, line.ports)]
        ends += [next(end for end in line.ends if end.link == link) for line in peers]
        for end in ends:
            facts += [f"clears {end.port} {end.plan.id} {end.status()}", manager_word(end.line.operation)]
        return facts

    def on_line(self, event: str, rest: List[str]) -> List[str]:
        letter = event[0] if event[0] in "ph" else ""
        line = self.world.line_of(letter, [number(word) for word in rest[: 1 if letter == "p" else 2]])
        if line is None:
            return []
        return [manager_word(line.operation)] if event == "status" else self.operation(event[len(letter):], line)


def told(world: World, line: str) -> Tuple[str, List[str]]:
    """The verdict of an event, and the lines that tell what it came from."""
    facts = Facts(world).of(line)
    first, laid_out = messages.exchanges(world, line)
    verdict = world.verdict(line)
    sub = next((fact.split()[3] for fact in facts[:2] if fact.startswith("sends ")), None)
    return verdict, [f"rule {rule(line.split()[0], verdict, sub)}"] + effect_rules(verdict) + facts + messages.told(
        first, laid_out, verdict
    )
