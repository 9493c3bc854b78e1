"""What is noted of a history, of one event with its verdict after another, for the laws to speak of.

How interfaces, views and keys stand is the model's own, and so is which bytes a verdict seals, or leads to memory.
What was sealed, accepted, queued, stored and forwarded, locks, floors and failures are noted from verdicts and packets.
"""

import bisect
import collections
from dataclasses import dataclass, field
from typing import Dict, Iterator, List, Optional, Set, Tuple

from guarded import OPEN_TO_ALL
from interfaces import LOCKED, MEMORY_SPACE, RUN, UNLOCKED
from key_account import Account, Keyed
from links import CPL, NPR, PR, End, Line, Operation, Packet, kind_of, masked, nonce, number, tag_of
from memory import PAGE, WaitingRead
from world import World

# a line, the direction in which it is sealed there, and which of the three it is
SubStream = Tuple[Line, int, int]
# a TLP at a switch: its sub-stream, its bytes, and T
HopTlp = Tuple[int, bytes, bool]
KINDS = {"": "a link", "h": "a hop", "p": "a stream between devices"}


# ---- one event


@dataclass
class Standing:
    """How an interface stands between two events, and what is noted of it."""

    state: int
    view: str
    stream: Optional[int]
    # the streams between devices that it is bound to, each with its floor, and the floor of its lock's stream
    bindings: Dict[int, int]
    device_floor: int
    registers: Dict[str, int]
    # at the manager: the floor, the least draw for a start, and whether START was asked since LOCK was last asked
    floor: int
    needs: int
    is_started: bool
    # how many locks it accepted, and the registers as they stood at the last one
    locks: int = 0
    locked: Dict[str, int] = field(default_factory=dict)
    # the greatest draw that was On at the device's PR receiver whenever it came into RUN under this lock
    entered: List[Optional[int]] = field(default_factory=list)
    # under which locks it was ever in RUN, in order
    runs: List[int] = field(default_factory=list)

    is_locked = property(lambda self: self.state in (LOCKED, RUN))
    floors = property(lambda self: {**self.bindings, self.stream: self.device_floor})


@dataclass
class Sealed:
    """A packet that a verdict names as sealed: its place among all, the TLP that was sealed, by which event, and how
    the interfaces stood before that."""

    end: End
    sub: int
    draw: int
    unit: int
    t: bool
    sync: bool
    data: bytes
    packet: Packet
    tlp: bytes
    words: List[str]
    before: List[Standing]
    place: int

    lane = property(lambda self: (self.end.line, self.end.side, self.sub))


@dataclass
class Arrived:
    """A packet of an accepted unit with its part of the plaintext and its effect, and what was sealed at its place."""

    packet: Packet
    payload: bytes
    effect: str
    sealed: Optional[Sealed]

    header = property(lambda self: self.packet.header)
    kind = property(lambda self: "sync" if self.packet.sync else kind_of(self.packet.header[0]).name)
    address = property(lambda self: int.from_bytes(self.packet.header[8:], "big"))
    length = property(lambda self: len(self.payload))
    requester = property(lambda self: self.packet.header[4] << 8 | self.packet.header[5])
    is_as_sealed = property(lambda self: self.sealed is not None and self.sealed.packet == self.packet)

    def written(self) -> Iterator[Tuple[int, int]]:
        """Of a write each address that it names, with the byte of its payload as far behind the first one. The first
        byte enable speaks of the first double word, the last one of the last, if there are more; all between are
        named."""
        first, last, end = self.header[7] % 16, self.header[7] // 16, self.address + self.length
        for at in range(self.address, end):
            bits = first if at < self.address + 4 else last if end - 4 <= at else 15
            if bits // 2 ** ((at - self.address) % 4) % 2:
                yield at, self.payload[at - self.address]


@dataclass
class Unit:
    """A unit that an end accepted."""

    end: End
    sub: int
    draw: int
    unit: int
    packets: List[Arrived]

    lane = property(lambda self: (self.end.line, 1 - self.end.side, self.sub))


@dataclass
class Kept:
    """All that the model keeps between two events: of each line its operation and its ends, and the rest."""

    lines: Dict[Line, Tuple[tuple, List[tuple]]]
    rest: tuple
    # by link, at hosts' ports and at devices'
    reads: List[dict]


@dataclass
class Arrival:
    """Bytes that came to a port: the packet that they are, the end that has its stream, and the keys there."""

    port: str
    data: bytes
    packet: Optional[Packet]
    end: Optional[End]
    keys: List[Keyed]

    lane = property(lambda self: (self.end.line, 1 - self.end.side, self.packet.sub))


@dataclass
class Work:
    """An operation on the keys of a line, and how these stood before the event."""

    name: str
    line: Line
    operation: Operation
    draws: int
    status: List[str]

    @property
    def begins(self) -> bool:
        return self.operation.name != self.name

    @property
    def draw(self) -> int:
        return self.draws if self.begins else self.operation.draw

    @property
    def key_set(self) -> int:
        if not self.begins:
            return self.operation.key_set
        return 1 - self.operation.key_set if self.name == "refresh" else 0


@dataclass
class Touch:
    """What touched a place of keys, whether a GO found its draw there, what the sets held after it, and of an operation
    the status of the stream at that end then."""

    what: str
    place: Tuple[Line, int, int, int]
    found: bool
    keys: List[Keyed]
    status: str = ""


@dataclass
class Pair:
    """An event with its verdict, and how the interfaces stood before it and stand after it."""

    words: List[str]
    verdict: List[str]
    before: List[Standing]
    after: List[Standing]
    sealed: List[Sealed]
    arrival: Optional[Arrival]
    unit: Optional[Unit]
    work: Optional[Work]
    touches: List[Touch]
    # the oldest read that waits on the link of an answer, as the model keeps it
    oldest: Optional[WaitingRead]
    # how many writes the model led to trusted memory
    writes: int
    # by port and stream the keys of the three sub-streams that an end sealed before an event that may seal
    keys: Dict[Tuple[str, int], List[List[Keyed]]]
    # what is kept before it and after it
    was: Kept
    now: Kept
    # a tag verified on a unit that its partner had not sealed
    is_forged: bool = False

    is_sealed = property(lambda self: self.verdict[0] == "sealed")
    first = property(lambda self: number(self.words[1]) if self.words[1][0].isdigit() else 0)


# ---- what stands in a history


@dataclass
class Under:
    """What was sealed and got in a sub-stream under one draw."""

    sent: List[Sealed] = field(default_factory=list)
    places: List[int] = field(default_factory=list)
    tlps: List[bytes] = field(default_factory=list)
    # units that were finished, and the packets of one that is not; the total before each unit
    units: List[List[Sealed]] = field(default_factory=list)
    opened: List[Sealed] = field(default_factory=list)
    totals: Dict[int, int] = field(default_factory=dict)
    # how many packets, TLPs and units were got, and whether the packets are the first of those that were sealed
    got: int = 0
    tlps_got: int = 0
    units_got: int = 0
    is_front: bool = True
    held: List[Packet] = field(default_factory=list)

    is_whole = property(lambda self: self.is_front and self.got == len(self.sent))


@dataclass
class Sub:
    """A sub-stream: what is under its draws, and counts of the draws since the stream was last established."""

    unders: Dict[int, Under] = field(default_factory=lambda: collections.defaultdict(Under))
    draws_got: List[int] = field(default_factory=list)
    units_sent: int = 0
    units_got: int = 0
    got: int = 0
    posted: int = 0

    def is_whole(self, first: int, behind: int) -> bool:
        """Whether all was got that was sealed under the draws from the first on, below another."""
        return all(under.is_whole for draw, under in self.unders.items() if first <= draw < behind)


@dataclass
class Honest:
    """A direction of a stream that is honest since an establish: its draw, what was sealed, and how many came."""

    base: int
    sealed: List[Sealed] = field(default_factory=list)
    came: int = 0


@dataclass
class QueuedRead:
    """A read that was queued: of which interface, under which of its locks, and under which draw it came."""

    read: WaitingRead
    owner: int
    locks: int


@dataclass
class QueuedAtDevice:
    """A read that was queued at a device's port: its T, the end that it came to, the interface and BAR that claimed it,
    how that interface stood then, and if no tag was forged there, how it stood before the read was sent."""

    read: WaitingRead
    t: bool
    lane: Tuple[Line, int]
    target: int
    bar: int
    standing: Standing
    sent: Optional[Standing]

    locks = property(lambda self: self.standing.locks)


@dataclass
class Response:
    """What a response to a read showed of a BAR: the bytes that stood there, and how the interface stood."""

    of: QueuedAtDevice
    contents: bytes
    standing: Standing


@dataclass
class Written:
    """A byte of trusted memory that a write left: of which interface, under which of its locks, as it was sealed,
    whether a tag of its sub-stream and draw had been forged, and on which line it came."""

    byte: int
    owner: Optional[int]
    locks: int
    sealed: Optional[Sealed]
    is_forged: bool
    line: Line


@dataclass
class Place:
    """Which draws were On at a place, which of them went away again, and of which a GO came."""

    was_on: set = field(default_factory=set)
    gone: set = field(default_factory=set)
    went: set = field(default_factory=set)


def kept(keys: List[Keyed]) -> List[int]:
    return [draw for state, draw in keys if state != "empty"]


def on(keys: List[Keyed]) -> List[int]:
    return [draw for state, draw in keys if state in ("armed", "live")]


def keys_of(end: End, direction: int, sub: int) -> List[Keyed]:
    return [(slot.state, slot.draw) for slot in end.lane(direction, sub).slots]


def has_key(end: End) -> bool:
    return any(lane.live() is not None for lane in end.tx + end.rx)


class Past:
    """What laws ask of the events so far."""

    def __init__(self, world: World):
        self.world, self.plan = world, world.plan
        # of which sub-streams and draws a tag verified on a unit that the partner had not sealed
        self.forged: Set[Tuple[SubStream, int]] = set()
        # the keys of all places, by verdicts; and of each finished unit what it is to the cipher
        self.account = Account()
        self.cipher: set = set()
        # by bytes of a key the sub-stream and the draw that were sealed under it
        self.owners: Dict[bytes, Tuple[SubStream, int]] = {}
        self.sealed: List[Sealed] = []
        self.subs: Dict[SubStream, Sub] = collections.defaultdict(Sub)
        # the draw of the last establish of a line that began
        self.bases: Dict[Line, int] = collections.defaultdict(int)
        # by line and direction, if all that came there since an establish was the next that was sealed
        self.honest: Dict[Tuple[Line, int], Honest] = {}
        # the ends at which a check failed, and that have had a Live key since then
        self.failed: set = set()
        # by key and IV the last packet, and where its range of key stream ends
        self.ranges: Dict[Tuple[bytes, bytes], Tuple[Sealed, int]] = {}
        self.places: Dict[tuple, Place] = collections.defaultdict(Place)
        # which draws a line keeps
        self.kept: Dict[Line, set] = collections.defaultdict(set)
        self.memory: Dict[int, Written] = {}
        self.reads: Dict[int, List[QueuedRead]] = collections.defaultdict(list)
        self.device_reads: Dict[int, List[QueuedAtDevice]] = collections.defaultdict(list)
        # by the place of a sealed completion the response that it is
        self.responses: Dict[int, Response] = {}
        # the bytes behind the BARs of each interface, as the stored writes left them
        self.stored: Dict[Tuple[int, int], Dict[int, int]] = collections.defaultdict(dict)
        # by line of a hop and side: the TLPs that were accepted there and that were sealed there, since the link's last
        # reset; and which draws the line was given since then
        self.taken: Dict[Tuple[Line, int], List[HopTlp]] = collections.defaultdict(list)
        self.given: Dict[Tuple[Line, int], List[HopTlp]] = collections.defaultdict(list)
        self.hop_draws: Dict[Line, List[int]] = collections.defaultdict(list)
        # by interface and lock what was reported
        self.reported: set = set()
        # by interface and lock whether a report was shown
        self.reports_shown: set = set()
        # the pairs before, up to the last six
        self.recent: List[Pair] = []
        # by interface and draw the lock under which a packet was admitted
        self.admitted: Dict[Tuple[int, int], int] = {}
        # by interface and draw of the packets with T that it sealed: whether in RUN, and under which lock
        self.trusted: Dict[int, Dict[int, set]] = collections.defaultdict(lambda: collections.defaultdict(set))
        # the same of those on streams between devices too
        self.trusted_anywhere: Dict[int, Dict[int, set]] = collections.defaultdict(lambda: collections.defaultdict(set))
        # by interface and stream between devices the last bind that came to it and no unbind since: under which lock,
        # and whether the stream was Secure there
        self.binds: Dict[Tuple[int, int], Tuple[int, bool]] = {}
        # by interface and stream between devices the lock under which a verdict said `bound`, if no unbind came since
        self.said_bound: Dict[Tuple[int, int], int] = {}
        # by interface and stream: under which locks it was bound to it, each with how many packets were sealed by then
        self.bound_locks: Dict[Tuple[int, int], List[Tuple[int, int]]] = collections.defaultdict(list)
        # by interface and draw the lock under which a write with T was stored in its memory
        self.stored_under: Dict[Tuple[int, int], int] = {}
        # by interface: those of its streams that are Secure at its device, the nonce of its last lock, and the streams
        # between devices whose BIND was asked since; by link how many nonces were taken
        self.secure: Dict[int, set] = {}
        self.locked_nonce: Dict[int, Optional[bytes]] = {}
        self.asked: Dict[int, List[Line]] = collections.defaultdict(list)
        self.used: Dict[int, int] = collections.defaultdict(int)

    def sub(self, lane: SubStream) -> Sub:
        return self.subs[lane]

    def base(self, line: Line) -> int:
        return self.bases[line]

    def has_failed(self, end: End) -> bool:
        return (end.line, end.side) in self.failed

    def key(self, lane: SubStream, draw: int) -> bytes:
        return self.world.key(draw, lane[1], lane[2])

    def read(self, address: int, length: int) -> bytes:
        """Trusted memory as the applied writes left it."""
        return bytes(self.memory[at].byte if at in self.memory else 0 for at in range(address, address + length))

    def owner(self, end: End, requester: int) -> Optional[int]:
        """The interface of the end's link with this requester ID."""
        for handle in self.world.handles:
            if handle.link == end.link and handle.plan.rid == requester:
                return handle.number
        return None

    def device_end(self, interface: int, stream: int) -> Optional[End]:
        return self.world.end_at(f"d{self.world.handles[interface].link}", stream)

    def honest_next(self, pair: Pair) -> Optional[Honest]:
        """If the next packet comes in an honest direction."""
        honest = self.honest.get(pair.arrival.lane[:2]) if pair.arrival and pair.arrival.end else None
        is_next = honest and honest.came < len(honest.sealed) and honest.sealed[honest.came].data == pair.arrival.data
        return honest if is_next else None

    # -- a unit whose tag is looked at

    def ends_unit(self, arrival: Optional[Arrival]) -> Optional[Tuple[int, List[Packet]]]:
        """The draw and the packets of the unit that an arrival ends, if all is well up to its tag."""
        if arrival is None or arrival.end is None or self.has_failed(arrival.end) or not arrival.packet.m:
            return None
        named, other = arrival.keys[arrival.packet.k], arrival.keys[1 - arrival.packet.k]
        sub = self.sub(arrival.lane)
        if named[0] != "live" or other[0] == "live" and sub.unders[other[1]].held:
            return None
        return named[1], sub.unders[named[1]].held + [arrival.packet]

    def was_sealed(self, lane: SubStream, draw: int, packets: List[Packet]) -> bool:
        """Whether the next unit under the draw was sealed so, after the same total."""
        sub, under = self.sub(lane), self.sub(lane).unders[draw]
        if under.units_got >= len(under.units):
            return False
        sent = [one.packet for one in under.units[under.units_got]]
        if lane[0].plan.closed and under.units_got == 0 and under.totals.get(1) != sub.units_got:
            return False
        return sent == packets or (seen(sent) == seen(packets) and sent[-1].tag == packets[-1].tag)

    def is_verified(self, lane: SubStream, draw: int, packets: List[Packet]) -> bool:
        sub, under = self.sub(lane), self.sub(lane).unders[draw]
        front = sub.units_got.to_bytes(8, "big") if lane[0].plan.closed and under.units_got == 0 else b""
        authenticated, encrypted = seen(packets)
        iv = nonce(lane[2], under.units_got + 1)
        return tag_of(self.key(lane, draw), iv, front + authenticated, encrypted) == packets[-1].tag

    def forges(self, arrival: Optional[Arrival]) -> bool:
        """Whether a tag verifies on a unit that its partner had not sealed."""
        ending = self.ends_unit(arrival)
        if ending is None or self.was_sealed(arrival.lane, *ending):
            return False
        return self.is_verified(arrival.lane, *ending)

    @property
    def is_forged(self) -> bool:
        return bool(self.forged)

    def is_forged_under(self, lane: SubStream, draw: int) -> bool:
        """Whether a tag of a sub-stream was forged under this draw."""
        return (lane, draw) in self.forged

    def is_forged_from(self, lane: SubStream, first: int) -> bool:
        """Whether a tag of a sub-stream was forged under a draw from this one on."""
        return any(one == lane and draw >= first for one, draw in self.forged)

    def is_forged_on(self, line: Line) -> bool:
        """Whether a tag of the stream on this line was forged, at either end."""
        return any(one[0] is line for one, _ in self.forged)

    def is_forged_since_reset(self, line: Line, direction: int, subs: Tuple[int, ...]) -> bool:
        """Whether a tag of these sub-streams of a segment was forged under a draw that it was given since the last
        reset of its link."""
        return any(self.is_forged_under((line, direction, sub), draw) for sub in subs for draw in self.hop_draws[line])

    # -- a pair, before it is judged

    def meet(self, pair: Pair):
        """What laws that speak of the history after the pair ask of it."""
        self.account.note(self.world.lines(), pair)
        pair.is_forged = self.forges(pair.arrival)
        if pair.is_forged:
            draw, _ = self.ends_unit(pair.arrival)
            self.forged.add((pair.arrival.lane, draw))
        for one in pair.sealed:
            end = one.end
            if one.t and pair.words[0] == "send" and end.is_at_device and not end.line.letter:
                owner = self.owner(end, one.packet.header[4] << 8 | one.packet.header[5])
                if owner is not None and self.world.handles[owner].plan.stream == end.plan.id:
                    was = one.before[owner]
                    self.trusted[owner][one.draw].add((was.state == RUN, was.locks))

            owner = self.sealed_for(pair, one)
            if owner is not None:
                self.trusted_anywhere[owner][one.draw].add((one.before[owner].state == RUN, one.before[owner].locks))
        self.meet_bindings(pair)

    def sealed_for(self, pair: Pair, one: Sealed) -> Optional[int]:
        """The interface that owns the TLP of a packet with T which its device sealed, on any stream."""
        is_sent = pair.words[0] in ("send", "psend", "respond") and one.end.is_at_device
        if not one.t or not is_sent or one.end.line.letter == "h":
            return None
        return self.owner(one.end, one.packet.header[4] << 8 | one.packet.header[5])

    def meet_bindings(self, pair: Pair):
        if pair.words[0] in ("bind", "unbind") and reaches(pair.verdict):
            stream = self.world.peers[int(pair.words[2])].plan.id
            self.binds.pop((pair.first, stream), None)
            if pair.words[0] == "unbind":
                self.said_bound.pop((pair.first, stream), None)
            if pair.verdict[0] == "bound":
                self.said_bound[pair.first, stream] = pair.after[pair.first].locks
            if pair.words[0] == "bind":
                end = self.device_end(pair.first, stream)
                self.binds[pair.first, stream] = (pair.before[pair.first].locks, end.status() == "secure")
        for place, now in enumerate(pair.after):
            for stream in now.bindings:
                locks = self.bound_locks[place, stream]
                if not locks or locks[-1][1] != now.locks:
                    locks.append((len(self.sealed), now.locks))

    # -- a pair, once it is judged

    def note(self, pair: Pair):
        self.note_honest(pair)
        self.note_establish(pair)
        for one in pair.sealed:
            self.note_sealed(one)
        if pair.unit:
            self.note_unit(pair)
        elif pair.verdict[0] == "held":
            under = self.sub(pair.arrival.lane).unders[int(pair.verdict[5])]
            under.held = under.held + [pair.arrival.packet]
        if pair.words[0] == "answer" and pair.verdict[0] in ("sealed", "dropped") and self.reads[pair.first]:
            self.reads[pair.first].pop(0)
        if pair.words[0] == "respond":
            self.note_response(pair)
        if pair.verdict[0] == "reset":
            self.note_reset(pair.first)
        for place in zeroed(self, pair):
            self.stored[place] = {}
        if pair.verdict[0] == "reported":
            self.reported.add((pair.first, pair.after[pair.first].locks, pair.verdict[2]))
            self.reports_shown.add((pair.first, pair.after[pair.first].locks))
        self.note_failures(pair)
        self.recent = (self.recent + [pair])[-6:]

    def note_establish(self, pair: Pair):
        work = pair.work
        if work and work.name == "establish" and work.begins and not is_refused(pair.verdict):
            self.bases[work.line] = work.draws
            for lane in [(work.line, direction, sub) for direction in (0, 1) for sub in (PR, NPR, CPL)]:
                sub = self.sub(lane)
                sub.units_sent = sub.units_got = sub.got = sub.posted = 0
            if work.line.letter == "h":
                self.hop_draws[work.line].append(work.draws)

    def note_honest(self, pair: Pair):
        if pair.arrival and pair.arrival.end:
            honest, way = self.honest_next(pair), pair.arrival.lane[:2]
            if honest:
                honest.came += 1
            else:
                self.honest.pop(way, None)
        if pair.verdict[0] == "reset":
            self.honest = {way: one for way, one in self.honest.items() if not self.is_reset(way[0], pair.first)}
        if pair.work:
            for way in [(pair.work.line, direction) for direction in (0, 1)]:
                self.note_work(pair, way)
        for one in pair.sealed:
            if one.lane[:2] in self.honest:
                self.honest[one.lane[:2]].sealed.append(one)

    def note_work(self, pair: Pair, way: Tuple[Line, int]):
        work, honest = pair.work, None if is_refused(pair.verdict) else self.honest.pop(way, None)
        if work.operation.name == "idle" and pair.verdict[0].endswith("established"):
            self.honest[way] = Honest(work.draws)
        elif honest and work.operation.name == "up" and pair.verdict[0] == "refreshed":
            if all(one.draw == work.operation.draw for one in honest.sealed[honest.came:]):
                self.honest[way] = honest

    def is_reset(self, line: Line, link: int) -> bool:
        return any(end.link == link for end in line.ends)

    def note_sealed(self, one: Sealed):
        sub, under = self.sub(one.lane), self.sub(one.lane).unders[one.draw]
        offset = sum(len(other.packet.body) for other in under.opened)
        key_and_iv = (self.key(one.lane, one.draw), nonce(one.sub, one.unit))
        self.ranges[key_and_iv] = (one, offset + len(one.packet.body))
        self.owners[key_and_iv[0]] = (one.lane, one.draw)
        under.totals[one.unit] = sub.units_sent
        under.sent.append(one)
        under.places.append(one.place)
        under.opened = under.opened + [one]
        self.sealed.append(one)
        if not one.sync:
            under.tlps.append(one.tlp)
            if one.end.line.letter == "h":
                self.given[one.end.line, one.end.side].append((one.sub, one.tlp, one.t))
        if one.packet.m:
            under.units.append(under.opened)
            self.cipher.add(given_to_cipher(self, one, under))
            under.opened = []
            sub.units_sent += one.draw >= self.base(one.end.line)

    def note_unit(self, pair: Pair):
        unit, sub = pair.unit, self.sub(pair.unit.lane)
        under = sub.unders[unit.draw]
        under.is_front = under.is_front and all(one.is_as_sealed for one in unit.packets)
        under.got += len(unit.packets)
        under.tlps_got += sum(not one.packet.sync for one in unit.packets)
        under.units_got, under.held = under.units_got + 1, []
        sub.draws_got.append(unit.draw)
        if unit.draw >= self.base(unit.end.line):
            sub.units_got += 1
            sub.got += len(unit.packets)
            sub.posted += sum(one.packet.posted for one in unit.packets)
        if unit.end.line.letter == "h":
            self.taken[unit.end.line, unit.end.side] += tlps_of(unit)
        self.note_effects(pair)

    def note_effects(self, pair: Pair):
        unit = pair.unit
        is_forged = self.is_forged_under(unit.lane, unit.draw)
        for one in unit.packets:
            owner = self.owner(unit.end, one.requester) if unit.end.is_at_host and one.kind != "sync" else None
            locks = pair.before[owner].locks if owner is not None else 0
            if one.effect == "applied":
                for address, byte in one.written():
                    self.memory[address] = Written(byte, owner, locks, one.sealed, is_forged, unit.end.line)
            if one.effect == "queued" and unit.end.is_at_device:
                self.note_device_read(pair, one)
            elif one.effect == "queued":
                read = WaitingRead(one.header, unit.draw)
                self.reads[unit.end.link].append(QueuedRead(read, owner, locks))
            if one.effect in ("applied", "queued") and unit.end.is_at_host:
                self.admitted.setdefault((owner, unit.draw), locks)
        for place, offset, byte, _ in stored_bytes(self, pair):
            self.stored[place][offset] = byte
        for (interface, _), one in stored_writes(self, pair):
            if one.packet.t:
                self.stored_under.setdefault((interface, unit.draw), pair.before[interface].locks)

    def note_device_read(self, pair: Pair, one: Arrived):
        unit, read = pair.unit, WaitingRead(one.header, pair.unit.draw)
        claim = claim_at(self, pair.before, unit.end.link, read.address, read.length)
        if claim:
            is_known = one.sealed and not self.is_forged_under(unit.lane, unit.draw)
            sent = one.sealed.before[claim[0]] if is_known else None
            lane, standing = (unit.end.line, unit.end.side), pair.before[claim[0]]
            queued = QueuedAtDevice(read, bool(one.packet.t), lane, *claim, standing, sent)
            self.device_reads[unit.end.link].append(queued)

    def note_response(self, pair: Pair):
        first = self.device_reads[pair.first][:1]
        if pair.verdict[0] not in ("sealed", "dropped") or not first:
            return
        self.device_reads[pair.first].pop(0)
        if pair.is_sealed:
            contents = shown_to(self, pair.before, first[0])
            self.responses[pair.sealed[-1].place] = Response(first[0], contents, pair.before[first[0].target])

    def note_reset(self, link: int):
        self.reads[link], self.device_reads[link] = [], []
        for segment in (0, 1):
            line = self.world.segments.get((link, segment))
            if line:
                self.hop_draws[line] = []
                for side in (0, 1):
                    self.taken[line, side], self.given[line, side] = [], []

    def note_failures(self, pair: Pair):
        if pair.verdict[0] == "fail":
            end = self.world.end_at(pair.verdict[1], int(pair.verdict[2]))
            self.failed.add((end.line, end.side))
        if self.failed:
            self.failed = {(line, side) for line, side in self.failed if has_key(line.ends[side])}

    def moment(self, touch: Touch) -> Tuple[bool, bool]:
        """Notes what a place's sets hold after a touch: whether no draw that has gone is kept again, and whether each
        one whose GO came is On."""
        place, kept_now, on_now = self.places[touch.place], kept(touch.keys), on(touch.keys)
        if touch.what == "go":
            place.went.update(on_now)
        place.was_on.update(on_now)
        stays = not any(draw in place.gone for draw in kept_now)
        place.gone.update(draw for draw in place.was_on if draw not in kept_now)
        return stays, all(draw in on_now for draw in kept_now if draw in place.went)


# ---- of packets and units


def seen(packets: List[Packet]) -> Tuple[bytes, bytes]:
    """What a tag is over: prefixes and headers, and the bodies."""
    return b"".join(one.prefix + one.header for one in packets), b"".join(one.body for one in packets)


def given_to_cipher(past: Past, one: Sealed, under: Under) -> Tuple[bytes, bytes, bytes, bytes]:
    """What a unit that was finished is to the cipher: key, IV, authenticated bytes and ciphertext."""
    front = under.totals[one.unit].to_bytes(8, "big") if one.end.plan.closed and one.unit == 1 else b""
    authenticated, encrypted = seen([other.packet for other in under.units[-1]])
    return past.key(one.lane, one.draw), nonce(one.sub, one.unit), front + authenticated, encrypted


def is_refused(verdict: List[str]) -> bool:
    """An operation that did not begin."""
    return verdict[0] == "none" or verdict[0] == "refused" and verdict[1] != "devicerefused"


def unit_of(past: Past, arrival: Arrival, verdict: List[str]) -> Unit:
    """The unit that an accepted verdict ends, with its plaintext cut by its packets."""
    sub, draw, unit = arrival.packet.sub, int(verdict[5]), int(verdict[7])
    under = past.sub(arrival.lane).unders[draw]
    packets = under.held + [arrival.packet]
    encrypted = b"".join(packet.body for packet in packets)
    plain = masked(past.key(arrival.lane, draw), nonce(sub, unit), 0, encrypted)
    came = Unit(arrival.end, sub, draw, unit, [])
    for place, (packet, effect) in enumerate(zip(packets, verdict[8:])):
        at = under.got + place
        sealed = under.sent[at] if at < len(under.sent) else None
        came.packets.append(Arrived(packet, plain[: len(packet.body)], effect, sealed))
        plain = plain[len(packet.body):]
    return came


def tlps_of(unit: Unit) -> List[HopTlp]:
    """The TLPs of a unit; a sync packet has none."""
    return [(unit.sub, one.header + one.payload, bool(one.packet.t)) for one in unit.packets if not one.packet.sync]


def posted_before(past: Past, lane: SubStream, place: int) -> List[Tuple[int, int]]:
    """By draw since the stream was last established, how many posted packets of the direction were sealed before a
    place."""
    posted = past.sub((lane[0], lane[1], PR))
    base = past.base(lane[0])
    return [(draw, bisect.bisect_left(one.places, place)) for draw, one in posted.unders.items() if draw >= base]


# ---- of memory


def given(words: List[str]) -> bytes:
    """The bytes of a send."""
    return bytes.fromhex(words[3 if words[0] == "psend" else 2].strip("-"))


def is_placed(past: Past, address: int, length: int) -> bool:
    """Whether all of these bytes are in one region and in one page."""
    regions = [one for one in past.plan.memory if one.base <= address and address + length <= one.base + one.size]
    return bool(regions) and address // PAGE == (address + length - 1) // PAGE


def is_granted(past: Past, pair: Pair, one: Arrived) -> bool:
    """Whether a packet has T, and its requester is an interface of the link whose view is Running, on its bound stream,
    under a draw from its floor on."""
    owner = past.owner(pair.unit.end, one.requester) if one.packet.t else None
    if owner is None or pair.before[owner].view != "running":
        return False
    is_bound = past.world.handles[owner].plan.stream == pair.unit.end.plan.id
    return is_bound and pair.before[owner].floor <= pair.unit.draw


def is_admitted(past: Past, pair: Pair, one: Arrived) -> bool:
    """A write to trusted memory that is to be applied."""
    is_write = pair.unit.end.is_at_host and one.kind == "memwrite"
    return is_write and is_granted(past, pair, one) and is_placed(past, one.address, one.length)


def asks(past: Past, pair: Pair, one: Arrived) -> bool:
    """Whether a packet that came to a host's port is a trusted read that is to wait if there is room."""
    if not pair.unit.end.is_at_host or one.kind != "memread" or not is_granted(past, pair, one):
        return False
    read = WaitingRead(one.header, pair.unit.draw)
    return is_placed(past, read.address, read.length)


def claim_of(past: Past, pair: Pair, one: Arrived) -> Optional[Tuple[int, int]]:
    """The least interface of a device, and its least BAR, that has all bytes of a write."""
    return claim_at(past, pair.before, pair.unit.end.link, one.address, one.length)


def claim_at(past: Past, standings: List[Standing], link: int, address: int, length: int) -> Optional[Tuple[int, int]]:
    for handle in past.world.handles:
        registers = standings[handle.number].registers
        if handle.link != link or not registers["command"] & MEMORY_SPACE:
            continue
        for bar, plan in enumerate(handle.plan.bars):
            offset = address - registers[f"bar{bar}"]
            if 0 <= offset and offset + length <= PAGE * plan.pages:
                return handle.number, bar
    return None


def shown_to(past: Past, standings: List[Standing], queued: QueuedAtDevice) -> bytes:
    """What stands behind the BAR of a read that waits, as the stored writes left it."""
    contents = past.stored[queued.target, queued.bar]
    offset = queued.read.address - standings[queued.target].registers[f"bar{queued.bar}"]
    return bytes(contents.get(offset + at, 0) for at in range(queued.read.length))


def access_cause(past: Past, pair: Pair, claim: Tuple[int, int], t: bool, stream: int, draw: int) -> Optional[str]:
    """Why a device does not let a request of this stream and draw reach the BAR that claims it."""
    standing = pair.before[claim[0]]
    if not t:
        return None if is_open(past, *claim) or standing.state == UNLOCKED else "nottrusted"
    if standing.state != RUN:
        return "notrunning"
    if stream not in standing.floors:
        return "wrongstream"
    return "stale" if draw < standing.floors[stream] else None


def is_open(past: Past, interface: int, bar: int) -> bool:
    return bool(past.world.handles[interface].plan.bars[bar].attributes & OPEN_TO_ALL)


def takes(past: Past, pair: Pair, one: Arrived) -> bool:
    """Whether a packet that came to a device's port is a write that is to be stored."""
    claim = claim_of(past, pair, one) if one.kind == "memwrite" else None
    if claim is None or one.address // PAGE != (one.address + one.length - 1) // PAGE:
        return False
    standing = pair.before[claim[0]]
    if not one.packet.t:
        return standing.state == UNLOCKED or is_open(past, *claim)
    return is_bound_from(pair, standing)


def is_bound_from(pair: Pair, standing: Standing) -> bool:
    """An interface in RUN is bound to the stream that a unit came on, and its draw is from the floor there on."""
    floor = standing.floors.get(pair.unit.end.plan.id)
    return standing.state == RUN and floor is not None and floor <= pair.unit.draw


def stored_writes(past: Past, pair: Pair) -> Iterator[Tuple[Tuple[int, int], Arrived]]:
    """Each write of a unit with the effect `stored`, and the interface and the BAR that claim it."""
    for one in pair.unit.packets if pair.unit and pair.unit.end.is_at_device else []:
        claim = claim_of(past, pair, one) if one.effect == "stored" and one.kind == "memwrite" else None
        if claim:
            yield claim, one


def stored_bytes(past: Past, pair: Pair) -> Iterator[Tuple[Tuple[int, int], int, int, Arrived]]:
    """Each byte of them, with its offset in the range of the BAR."""
    for (interface, bar), one in stored_writes(past, pair):
        base = pair.before[interface].registers[f"bar{bar}"]
        for address, byte in one.written():
            yield (interface, bar), address - base, byte, one


def reaches(verdict: List[str]) -> bool:
    """The first request of an operation on an interface reached the device."""
    if verdict[0] == "lost":
        return verdict[1:] != ["request", "1"] and verdict[2] != "0"
    return verdict[0] not in ("none", "refused") or verdict[:2] == ["refused", "devicerefused"]


def zeroed(past: Past, pair: Pair) -> List[Tuple[int, int]]:
    """The BARs that a pair sets to 0: a reset of the link, a level reset, and if they are not open a halt."""
    event, handles = pair.words[0], past.world.handles
    if pair.verdict[0] == "reset":
        return [(one.number, bar) for one in handles if one.link == pair.first for bar in range(len(one.plan.bars))]
    if event not in ("halt", "flr") or pair.verdict[0] == "none" or not reaches(pair.verdict):
        return []
    bars = range(len(handles[pair.first].plan.bars))
    return [(pair.first, bar) for bar in bars if event == "flr" or not is_open(past, pair.first, bar)]
