"""Random topologies, and random hostile scripts for them that go by what happened so far in the model.

A script is mostly honest, so that it goes deep: streams get their keys, interfaces are led to RUN, what is sealed
arrives in order. Between that come losses, attacks, changes of registers, stops and resets, at rates that differ by
script.
"""

import random
from typing import Callable, List, Optional, Tuple

from interfaces import BINDS_PEERS, MEMORY_SPACE, UNLOCKED, Handle, Interface, first_registers
from links import DEVICE, HOST, PR, End, Line, Packet, Slot, kind_of, link_of, masked, nonce, read_tlp
from memory import MOST_WAITING
from plan import BarPlan, InterfacePlan, LinkPlan, PeerPlan, Plan, RegionPlan, StreamPlan
from words import WIDTHS
from world import OPERATIONS, World

CLOSE = 0x10000000
FAR = 0x2_0000_0000
# of and for a requester that no stream has
COMPLETION = bytes.fromhex("0a0000003000000430000700")
MEGABYTE = 1 << 20


# ---- topologies


def random_stream(r: random.Random, id: int, is_first: bool, free_classes: list) -> StreamPlan:
    stream = StreamPlan(id, mode=r.choice([1, 1, 2, 4, 8]), closed=r.random() < 0.4)
    if not is_first and r.random() < 0.3:
        stream.kind = "link"
        stream.tcs = [free_classes.pop() for _ in range(r.choice([0, 1, 2]))]
        return stream
    if is_first or r.random() < 0.6:
        base = r.choice([0, 0x100, 0x200])
        stream.rid = (base, base + r.choice([0, 0xFF, 0x1FF]))
    if r.random() < 0.3:
        base = r.randrange(0x90, 0x110) << 20
        stream.ranges = [(base, base + (r.choice([1, 16, 128]) << 20) - 1)]
    stream.default = is_first and r.random() < 0.6
    return stream


def random_link(r: random.Random) -> LinkPlan:
    free_classes = r.sample(range(8), 8)
    ids = r.sample(range(256), r.choice([1, 1, 2, 4]))
    nonces = [r.randbytes(32) for _ in range(r.choice([0, 1, 3, 100, 100, 100, 100]))]
    link = LinkPlan([random_stream(r, id, id == ids[0], free_classes) for id in ids], nonces=nonces)
    if r.random() < 0.3:
        with_switch(r, link, free_classes)
    return link


def with_switch(r: random.Random, link: LinkPlan, free_classes: list):
    """A hop; mostly no default stream takes what it should carry."""
    link.hop = r.choice([id for id in range(256) if id not in [stream.id for stream in link.streams]])
    link.hop_tcs = free_classes[:r.choice([0, 1, 2, 6, 6])]
    if r.random() < 0.8:
        for stream in link.streams:
            stream.default = False


def random_peers(r: random.Random, links: List[LinkPlan]) -> List[PeerPlan]:
    peers: List[PeerPlan] = []
    for _ in range(r.choice([0, 1, 1, 2, 4]) if len(links) < 8 else 8):
        a, b = r.sample(range(len(links)), 2)
        taken = [stream.id for link in (links[a], links[b]) for stream in link.streams]
        taken += [links[a].hop, links[b].hop] + [peer.id for peer in peers]
        free = [id for id in range(256) if id not in taken]
        peers.append(PeerPlan(r.choice(free), a, b, r.choice([1, 1, 2, 4, 8])))
    return peers


def random_bars(r: random.Random) -> List[BarPlan]:
    bars, base = [], r.choice([0, 0x4000_0000, 0x4000_0123, 2**63 - 2**21])
    for _ in range(r.choice([0, 1, 1, 2, 3, 6])):
        pages = r.choice([0, 1, 16, 16, 1048576 if base < 2**62 else 2])
        bars.append(BarPlan(base, pages, r.randrange(16)))
        base = min(base + r.choice([4096 * pages] * 30 + [0, 4096]), 2**63 - 1)
    return bars


def random_interface(r: random.Random, link: LinkPlan) -> InterfacePlan:
    stream = r.choice([stream for stream in link.streams if stream.kind == "selective"])
    taken = [interface.rid for interface in link.interfaces]
    lowest, highest = stream.rid if stream.rid and r.random() < 0.9 else (0, 0x400)
    free = [rid for rid in range(lowest, highest + 1) if rid not in taken] or [max(taken, default=0) + 0x1000]
    flags = r.choice([0, 0, 0, 1, 2, 4, 7, 16, r.randrange(8) | r.choice([0, 16])]) | r.choice([0, BINDS_PEERS])
    interface = InterfacePlan(r.choice(free), stream.id, flags, info=r.randbytes(r.choice([0, 3, 64, 1024])))
    interface.offset = 4096 * r.choice([0, 0, 1, 2**40, r.randrange(2**51)])
    interface.command, interface.cacheline = r.choice([0, 6, 7, 0xFFFF]), r.choice([0, 16, 255])
    interface.msix, interface.lnr, interface.tph = (r.choice([0, r.randrange(2**bits)]) for bits in (16, 16, 32))
    interface.pasid, interface.ats = (r.choice([0] * 9 + [r.randrange(2**16)]) for _ in range(2))
    interface.bars = random_bars(r)
    return interface


def with_bound_pair(r: random.Random, links: List[LinkPlan], peer: PeerPlan):
    """At each end of a stream between devices an interface that may be bound to it, with memory behind a BAR."""
    for link in (links[peer.a], links[peer.b]):
        link.nonces = link.nonces or [r.randbytes(32) for _ in range(30)]
        interface = random_interface(r, link)
        interface.flags |= BINDS_PEERS
        interface.command |= MEMORY_SPACE
        interface.bars = interface.bars or [BarPlan(0x4000_0000, 16, r.randrange(16))]
        link.interfaces.append(interface)


def takes_bars(r: random.Random, link: LinkPlan, interface: InterfacePlan):
    """Lets a stream of the link take what is sent to a BAR of the interface, mostly the one it is bound to."""
    stream = next(stream for stream in link.streams if stream.id == interface.stream)
    if r.random() < 0.2:
        stream = r.choice([stream for stream in link.streams if stream.kind == "selective"])
    bar = r.choice(interface.bars)
    base = bar.base // MEGABYTE * MEGABYTE
    limit = min(base + r.choice([1, 1, 4]) * MEGABYTE, 2**63) - 1
    if len(stream.ranges) < 8:
        stream.ranges.append((base, limit))


def by_address_alone(link: LinkPlan, interface: InterfacePlan):
    """Its stream takes requests of memory, and no completion for it."""
    stream = next(stream for stream in link.streams if stream.id == interface.stream)
    stream.rid, stream.default = None, False
    stream.ranges = stream.ranges[:7] + [(CLOSE, CLOSE + MEGABYTE - 1)]


def random_memory(r: random.Random) -> List[RegionPlan]:
    pages = r.choice([1, 2, 16])
    regions = [RegionPlan(CLOSE, 4096 * pages)] if r.random() < 0.95 else []
    if r.random() < 0.4:
        regions.append(RegionPlan(CLOSE + 4096 * (pages + r.choice([0, 0, 1])), 4096))
    if r.random() < 0.4:
        regions.append(RegionPlan(r.choice([0, FAR, 2**63 - 8192]), 8192))
    r.shuffle(regions)
    return regions


def random_plan(r: random.Random, with_reads: bool = False) -> Plan:
    """`with_reads` lets devices answer reads of most interfaces."""
    plan = random_links(r)
    for interface in [one for link in plan.links for one in link.interfaces] if with_reads else []:
        interface.reads = r.random() < 0.8
        interface.command |= MEMORY_SPACE
    return plan


def random_links(r: random.Random) -> Plan:
    links = [random_link(r) for _ in range(r.choice([1, 1, 2, 2, 3] * 4 + [8]))]
    for _ in range(r.choice([0, 1, 1, 2, 3, 4])):
        link = r.choice(links)
        interface = random_interface(r, link)
        link.interfaces.append(interface)
        if interface.bars and r.random() < 0.7:
            takes_bars(r, link, interface)
        if r.random() < 0.05:
            by_address_alone(link, interface)
    pool = [r.randbytes(32) for _ in range(6 * r.choice([2, 16] + [100] * 4 + [300] * 6))]
    portion = r.choice([16, 17, 64, 64, 1024, 65535])
    units_per_key = r.choice([1, 3, 50] + [4294967296] * 12)
    peers = random_peers(r, links) if len(links) > 1 and r.random() < 0.8 else []
    if peers and r.random() < 0.5:
        with_bound_pair(r, links, r.choice(peers))
    return Plan(pool, links, portion, units_per_key, random_memory(r), peers)


# ---- TLPs


def random_tlp(r: random.Random, requester: int) -> bytes:
    words = r.choice([1, 1, 1, 2, 5, 32])
    byte_1 = bytes([r.choice([0, 0, 0, r.randrange(8)]) << 4])
    target = r.choice([0x100, 0x150, 0x200, 0x5000]).to_bytes(2, "big")
    address = r.choice([CLOSE, 0x9000000, r.randrange(0x8000000, 0x12000000)]) & ~3
    front = byte_1 + bytes([0, words]) + requester.to_bytes(2, "big")
    payload = r.randbytes(4 * words)
    configuration = byte_1 + b"\x00\x01" + front[3:] + b"\x02\x0f" + target + b"\x00\x10"
    return r.choice(
        [
            b"\x40" + front + b"\x01\x0f" + address.to_bytes(4, "big") + payload,
            b"\x60" + front + b"\x01\x0f" + address.to_bytes(8, "big") + payload,
            b"\x00" + front + b"\x01\x0f" + address.to_bytes(4, "big"),
            b"\x20" + front + b"\x01\x0f" + address.to_bytes(8, "big"),
            b"\x0a" + front + b"\x00\x04" + target + b"\x07\x00",
            b"\x4a" + front + b"\x00\x04" + target + b"\x07\x00" + payload,
            bytes([4 + r.randrange(2)]) + configuration,
            bytes([0x44 + r.randrange(2)]) + configuration + payload[:4],
            bytes([0x30 + r.randrange(6)]) + front + b"\x00\x19" + target + bytes(6),
            bytes([0x70 + r.randrange(6)]) + front + b"\x00\x19" + target + bytes(6) + payload,
        ]
    )


def random_address(r: random.Random, regions: List[RegionPlan]) -> int:
    """In a region, at its ends, at the ends of a page, or anywhere."""
    if not regions or r.random() < 0.05:
        return r.choice([0, r.randrange(2**32), r.randrange(2**64), 2**64 - 4])
    region = r.choice(regions)
    page = 4096 * r.randrange(region.size // 4096)
    place = r.choice([0, region.size, page, page, r.randrange(region.size), r.randrange(64)])
    return max(region.base + place + r.choice([0, 0, 0, 0, -4, -8, -64, 4]), 0) % 2**64


SIZES = [1, 1, 1, 2, 2, 3, 16, 32]


def memory_write(r: random.Random, requester: int, regions: List[RegionPlan], sizes: List[int] = SIZES) -> bytes:
    head, words = memory_request(r, requester, random_address(r, regions), sizes, 0x40)
    return head + r.randbytes(4 * words)


def memory_read(r: random.Random, requester: int, regions: List[RegionPlan]) -> bytes:
    return memory_request(r, requester, random_address(r, regions), SIZES, 0)[0]


def memory_request(r: random.Random, requester: int, address: int, sizes: List[int], form: int) -> Tuple[bytes, int]:
    """The header of a request of this form, and how many double words it names."""
    words = r.choice(sizes)
    if r.random() < 0.01:
        words = 1024
    enables = r.choice([0x0F, 0xFF, 0xFF, 0xFF, r.randrange(256)])
    is_wide = address >= 2**32 or r.random() < 0.2
    byte_1 = r.choice([0, 0, 0, 0, r.randrange(256)]) & 0xFC
    byte_2 = r.choice([0, 0, 0, 0, r.randrange(256)]) & 0x3C
    head = bytes([form | (0x20 if is_wide else 0), byte_1, byte_2 | words >> 8 & 3, words & 255])
    head += requester.to_bytes(2, "big") + bytes([r.randrange(256), enables])
    return head + (address & ~3).to_bytes(8 if is_wide else 4, "big"), words


def offset_in(r: random.Random, pages: int) -> int:
    """In a few pages of a range, mostly where other offsets are too; or at the ends of pages, or past the range."""
    page = 4096 * r.choice([0, 0, 0, pages - 1, r.randrange(pages)])
    return page + r.choice([0, 0, 4, 8, 60, 64, 4092, 4092, 4088, 4096, r.randrange(4096)])


def bar_write(r: random.Random, requester: int, interface: Interface) -> Optional[bytes]:
    """Into a BAR as it stands now, or as the topology has it."""
    bars = [number for number, bar in enumerate(interface.plan.bars) if bar.pages]
    if not bars:
        return None
    number = r.choice(bars)
    base = interface.registers[f"bar{number}"] if r.random() < 0.9 else interface.plan.bars[number].base
    address = base + r.choice([0] * 12 + [-4, 3]) + offset_in(r, interface.plan.bars[number].pages)
    head, words = memory_request(r, requester, address % 2**64, SIZES, 0x40)
    return head + r.randbytes(4 * words)


def bar_read(r: random.Random, requester: int, interface: Interface) -> Optional[bytes]:
    """Of a BAR, mostly where something was written."""
    data = bar_write(r, requester, interface)
    written = [(bar, offset) for bar, bytes_there in enumerate(interface.guarded.contents) for offset in bytes_there]
    if data is None or not written or r.random() < 0.3:
        return data and bytes([data[0] & 0x20]) + data[1: 16 if data[0] & 0x20 else 12]
    bar, offset = r.choice(written)
    return memory_request(r, requester, (interface.registers[f"bar{bar}"] + offset) % 2**64, [1, 1, 2, 3], 0)[0]


def broken(r: random.Random, data: bytes) -> bytes:
    data = bytearray(data)
    for _ in range(r.choice([1, 1, 2])):
        place = r.randrange(len(data) + 1)
        what = r.random()
        if what < 0.5 and data:
            data[min(place, len(data) - 1) % 16 % len(data)] ^= 1 << r.randrange(8)
        elif what < 0.7:
            del data[place:]
        else:
            data.append(r.randrange(256))
    return bytes(data)


def forged(r: random.Random, world: World, end: End, tlp: bytes, t: bool) -> Optional[bytes]:
    """The TLP as a packet that this receiver takes, sealed by someone who knows the keys."""
    sub = kind_of(tlp[0]).sub
    lane = end.rx[sub]
    live = [key_set for key_set in (0, 1) if lane.slots[key_set].state == "live"]
    if not live:
        return None
    key_set = r.choice(live)
    slot = lane.slots[key_set]
    head_bytes = kind_of(tlp[0]).head_bytes
    m = r.random() < (0.97 if len(slot.packets) + 1 == end.plan.mode else 0.8)
    posted = 0 if sub == PR else max(0, min(255, end.rx[PR].got - lane.carried - sum(p.posted for p in slot.packets)))
    prefix = bytes([0x92, m << 7 | key_set << 6 | t << 5 | sub, end.plan.id, posted])
    key, iv = world.key(slot.draw, 1 - end.side, sub), nonce(sub, slot.units + 1)
    body = masked(key, iv, sum(len(packet.body) for packet in slot.packets), tlp[head_bytes:])
    packet = Packet(prefix, tlp[:head_bytes], body, b"", False)
    if m:
        unit = Slot(slot.state, slot.draw, slot.units, slot.packets + [packet])
        packet.tag = world.unit_tag(end, lane, unit, key, iv)
    return packet.prefix + packet.header + packet.body + packet.tag


# ---- scripts

Text = Callable[[], str]
EXCHANGE_COUNTS = dict(lock=3, report=8, start=1, halt=1, state=1, bind=1, unbind=1)


# so many lines that wait are not interrupted by others
LONG = 40


class Script:
    def __init__(self, r: random.Random, plan: Plan, world: World):
        self.r, self.plan, self.world = r, plan, world
        self.keyed = world.lines()
        self.posting = r.choice([self.keyed[0], r.choice(self.keyed)])
        self.is_posting = r.random() < 0.08
        self.hostility = r.choice([0.0, 0.02, 0.2]) if not self.is_posting else 0.001
        # how often what is sent is no TLP
        self.breaking = self.hostility * 0.3
        self.forgery = r.choice([0.0, 0.05, 0.2]) if not self.is_posting else 0.0
        self.losses = r.choice([0.0, 0.05, 0.3])
        self.changes = r.choice([0.0, 0.02, 0.15]) if not self.is_posting else 0.001
        self.reading = r.choice([0.0, 0.2, 0.5]) if not self.is_posting else 0.0
        self.answering = r.choice([0.0, 0.02, 0.3, 0.6])
        self.is_flooding = r.random() < 0.1
        self.beside = r.choice([0.05, 0.3, 0.6]) if not self.is_posting else 0.0
        self.binding = r.choice([0.02, 0.2, 0.4])
        # interfaces whose device answers reads
        self.readable = [handle for handle in world.handles if handle.plan.reads]
        self.responding = r.choice([0.05, 0.3, 0.5]) if self.readable and not self.is_posting else 0.0
        self.queue: List[Text] = []
        self.waiting: List[Tuple[int, int]] = []
        self.sealed = 0
        self.marked = 0

    def lines(self, count: int):
        for line in self.keyed:
            if self.r.random() < 0.9:
                yield self.operation("establish", line)
        for _ in range(1500 if self.is_posting else count):
            if self.is_dead() and self.r.random() < 0.1:
                return
            self.notice_sealed()
            if self.readable and len(self.queue) < LONG and self.r.random() < self.responding:
                yield self.device_reading()
            elif self.queue and self.r.random() < 0.95:
                yield self.queue.pop(0)()
            else:
                yield self.line()

    def is_dead(self) -> bool:
        """Whether no stream has keys, and none is left."""
        has_keys = any(line.operation.name != "idle" for line in self.keyed)
        return not has_keys and 6 * self.world.draws == len(self.plan.pool)

    def line(self) -> str:
        r, what = self.r, self.r.random()
        if self.world.handles and r.random() < 0.4:
            return self.interface_line(r.choice(self.world.handles))
        line = r.choice(self.keyed)
        repair = self.repair(line)
        if repair and r.random() < 0.5:
            return repair
        if self.is_posting:
            what *= 0.83
        if what < 0.40:
            return self.send()
        if what < 0.82:
            return self.attack() if r.random() < self.hostility else self.next_packet()
        if what < 0.90:
            name = r.choice(["refresh"] * 6 + ["establish"] * 2 + ["stop"])
            return self.operation(name, line) if r.random() < 0.95 else self.strange_operation()
        if what < 0.93:
            return f"status {line.name}" if not line.letter else self.forward(line.ends[0].link)
        return self.rare_line(line.ends[0].link)

    def operation(self, name: str, line: Line) -> str:
        """Of a line that cannot be refreshed another one in place of a refresh."""
        if name not in line.exchanges:
            name = self.r.choice(["establish", "stop"])
        if self.is_posting and line is self.posting and name == "stop" and line.operation.name == "up":
            return self.post()
        return f"{line.letter}{name} {line.name}{self.lose(name, line)}"

    def strange_operation(self) -> str:
        """Of numbers that mostly name nothing."""
        r, peers = self.r, self.plan.p2p
        link, number = r.randrange(9), r.choice([r.randrange(300), r.randrange(3)] + [peer.id for peer in peers])
        name = r.choice(["establish", "refresh", "stop", "status", "hestablish", "hstop", "forward"])
        alone = r.choice(["pestablish", "pstop", "reset", "answer"])
        return r.choice([f"{name} {link} {number}", f"{alone} {number}"])

    def rare_line(self, link: int) -> str:
        r = self.r
        number = r.randrange(len(self.world.handles) + 2) if r.random() < 0.95 else r.choice([2**32, 2**64 - 1])
        return r.choice(
            [
                f"reset {link}" if r.random() < 0.3 else f"view {number}",
                f"dump {r.randrange(self.sealed + 2)}",
                f"{r.choice(['send', 'arrive'])} {r.choice('hd')}{r.randrange(8)} -",
                f"arrive {r.choice('uw')}{r.randrange(8)} {r.choice(['-', '92', '928000', '9280'])}",
                f"psend {r.choice([r.randrange(9), 2**64 - 1])} {r.choice('ab')} {r.choice(['-', '45'])}",
                f"{r.choice(['bind', 'unbind'])} {number} {r.randrange(9)}",
                self.forward(r.randrange(len(self.plan.links))),
                self.show_memory(),
                self.show_guarded(number),
                f"answer {link}",
                self.write_register(number),
                self.numbered(r.choice(OPERATIONS), number),
                f"flr {number}" if r.random() < self.changes * 3 else f"firmware {number}",
            ]
        )

    def numbered(self, name: str, number: int) -> str:
        return f"{name} {number}{self.lose(name)}"

    def lose(self, name: str, line: Optional[Line] = None) -> str:
        """What is lost of an operation, mostly of its last exchange, seldom of none that there is."""
        if self.r.random() >= self.losses:
            return ""
        exchanges = len(line.exchanges[name]) if line else EXCHANGE_COUNTS[name]
        number = self.r.choice([0, 1, exchanges + 1] + [exchanges] * 6 + list(range(1, exchanges)) * 2)
        return f" lose {number} {self.r.choice(['request', 'reply'])}"

    # -- streams and packets

    def repair(self, line: Line) -> Optional[str]:
        """What gives a stream without keys, or that is insecure, its keys again."""
        name = line.operation.name
        if name == "idle" and 6 * self.world.draws == len(self.plan.pool):
            return None
        if name == "up":
            if any(end.failed for end in line.ends):
                return self.operation("stop", line)
            if not any(self.is_worn(end) for end in line.ends):
                return None
            return self.operation("stop" if line.letter else "refresh", line)
        name = "establish" if name == "idle" else name
        if self.r.random() < 0.1:
            name = self.r.choice(["establish", "refresh", "stop"])
        return self.operation(name, line)

    def is_worn(self, end: End) -> bool:
        return any(slot.units == self.plan.units_per_key for lane in end.tx for slot in lane.slots)

    def requester(self, link: int) -> int:
        interfaces = self.plan.links[link % len(self.plan.links)].interfaces
        if interfaces and self.r.random() < 0.7:
            return self.r.choice(interfaces).rid
        return self.r.choice([0x100, 0x100, 0x180, 0x200, 0, 0x3000])

    def send(self) -> str:
        r, link = self.r, self.r.randrange(len(self.plan.links))
        if self.is_posting:
            return self.post()
        if r.random() < self.beside:
            return self.send_beside(link)
        side = r.choice("hdd")
        requester = self.requester(link)
        if side == "h" and r.random() < 0.5:
            return self.host_write(link)
        data = memory_write(r, requester, self.plan.memory) if r.random() < 0.5 else random_tlp(r, requester)
        if r.random() < self.breaking:
            data = broken(r, data)
        more = r.choice(["", "", " more"])
        trusted = " trusted" if side == "h" and r.random() < 0.3 else ""
        return f"send {side}{link} {data.hex() or '-'}{more}{trusted}"

    def host_write(self, link: int) -> str:
        """A write of the host into a BAR of an interface of the link."""
        r = self.r
        data = self.into_bar(link, r.choice([0, self.requester(link)])) or random_tlp(r, self.requester(link))
        return f"send h{link} {data.hex()}{r.choice(['', '', ' more'])}{r.choice(['', ' trusted'])}"

    def post(self) -> str:
        """One of many writes on one line."""
        link = self.posting.ends[1].link
        requester, _ = self.plan.links[link].streams[0].rid or (0, 0)
        data = bytearray(memory_write(self.r, requester, self.plan.memory, [1]))
        if self.posting.letter == "p":
            return f"psend {self.posting.name} a {data.hex()}"
        if self.posting.letter == "h" and self.plan.links[link].hop_tcs:
            data = bytearray.fromhex("400000013000000f7000000011223344")
            data[1] = self.plan.links[link].hop_tcs[0] << 4
        return f"send d{link} {data.hex()}"

    def send_beside(self, link: int) -> str:
        """On a stream between devices, or for the hop of the link; else something is forwarded."""
        r = self.r
        if self.world.peers and r.random() < 0.5:
            return self.peer_send(r.choice(self.world.peers))
        return self.forward(link) if self.world.waiting and r.random() < 0.4 else self.hop_send(link)

    # -- reads of devices

    def device_reading(self) -> str:
        """A read of a BAR, the next packet, or a response; seldom something that changes how a read is answered."""
        r, handle = self.r, self.r.choice(self.readable)
        what, waiting = r.random(), self.world.device_reads[handle.link]
        if handle.view != "running" and not self.queue and r.random() < 0.1:
            lines = [line for line in self.world.peers if handle.link in map(link_of, line.ports)]
            self.queue = self.bind_both(r.choice(lines)) if lines and r.random() < 0.5 else self.comes_into_run(handle)
            return f"respond {handle.link}"
        if waiting and what < 0.3:
            return f"respond {handle.link}"
        if what < 0.6:
            return self.device_read(handle)
        if what < 0.85:
            return self.next_packet()
        if waiting and what < 0.95:
            return self.before_response(waiting[0])
        if what < 0.96 and not self.queue:
            self.queue = r.choice([self.read_flood, self.under_older_key, self.read_and_unbind])(handle)
        return f"respond {r.choice([handle.link] * 4 + [r.randrange(9)])}"

    def good_device_read(self, handle: Handle, requester: int) -> bytes:
        """Of the first BAR, in one page."""
        base = handle.interface.registers.get("bar0", 0)
        return memory_request(self.r, requester, (base + 8 * self.r.randrange(8)) % 2**64, [1, 2], 0)[0]

    def read_flood(self, handle: Handle) -> List[Text]:
        """More reads than may wait, of an interface that may answer them."""
        takes_reads = [one for one in self.readable if self.may_answer(one)]
        if not takes_reads or self.plan.units_per_key <= 2 * MOST_WAITING:
            return []
        handle = self.r.choice(takes_reads)
        trusted = " trusted" if handle.view == "running" else ""
        read = self.marking(lambda: f"send h{handle.link} {self.good_device_read(handle, 0).hex()}{trusted}")
        return [read, self.pass_marked] * (66 + LONG // 2) + [lambda: f"respond {handle.link}"] * 5

    def may_answer(self, handle: Handle) -> bool:
        """Whether a read of the host's comes to its first BAR on the stream of its lock, and is not blocked."""
        kind, header, _ = read_tlp(self.good_device_read(handle, 0))
        is_secure = all(end.status() == "secure" for end in handle.line.ends)
        is_claimed = handle.interface.claims(int.from_bytes(header[8:], "big"), 4) == 0
        is_taken = self.world.chosen(f"h{handle.link}", kind, header) == handle.plan.stream
        return is_secure and is_claimed and is_taken and handle.view in ("unlocked", "running")

    def under_older_key(self, handle: Handle) -> List[Text]:
        """The device has a unit of completions open over a refresh, so that it still seals under the older key."""
        names = [self.of_handle(handle, name) for name in ("halt", "lock", "report", "refresh", "start")]
        rid = handle.plan.rid.to_bytes(2, "big").hex()
        opens = lambda: f"send d{handle.link} 0a000000{rid}00040000{COMPLETION[10:].hex()} more"
        read = self.marking(lambda: f"send h{handle.link} {self.good_device_read(handle, 0).hex()} trusted")
        return names[:1] + [opens] + names[1:] + [read, self.pass_marked] + [lambda: f"respond {handle.link}"] * 2

    def read_and_unbind(self, handle: Handle) -> List[Text]:
        """An interface reads memory of another one over a stream that both are bound to; sometimes the other is unbound
        before it answers."""
        r, lines = self.r, [line for line in self.world.peers if handle.link in map(link_of, line.ports)]
        line = r.choice(lines) if lines else None
        pair = [self.bindable(end.link) for end in line.ends] if line else [None]
        if None in pair:
            return []
        runs = [event for one in pair for event in self.comes_into_run(one)]
        runs += [lambda: f"pstop {line.name}", lambda: f"pestablish {line.name}"]
        runs += [lambda: f"bind {pair[0].number} {line.name}", lambda: f"bind {pair[1].number} {line.name}"]
        side = 0 if line.ends[1].link == handle.link else 1
        target = pair[1 - side]
        read = lambda: f"psend {line.name} {'ab'[side]} {self.good_device_read(target, pair[side].plan.rid).hex()}"
        unbind = [lambda: f"unbind {target.number} {line.name}"] * (r.random() < 0.5)
        answer = self.marking(lambda: f"respond {target.link}")
        return runs + [self.marking(read), self.pass_marked] + unbind + [answer, self.pass_marked]

    def device_read(self, handle: Handle) -> str:
        """By the host on a stream or over a hop, or by another device."""
        r, more = self.r, self.r.choice(["", "", " more"])
        lines = [line for line in self.world.peers if handle.link in map(link_of, line.ports)]
        bound = [line for line in lines if line.plan.id in handle.interface.bindings]
        if lines and r.random() < 0.4:
            line = r.choice(bound or lines)
            side = 0 if line.ends[1].link == handle.link else 1
            data = bar_read(r, self.requester(line.ends[side].link), handle.interface) or COMPLETION
            return f"psend {line.name} {'ab'[side]} {data.hex()}{more}"
        data = bytearray(bar_read(r, r.choice([0, self.requester(handle.link)]), handle.interface) or COMPLETION)
        classes = self.plan.links[handle.link].hop_tcs
        if classes and r.random() < 0.3:
            data[1] = data[1] & 0x8F | r.choice(classes) << 4
        return f"send h{handle.link} {data.hex()}{more}{r.choice(['', ' trusted'])}"

    def before_response(self, read) -> str:
        """What changes how a read is answered that waits."""
        r, handle = self.r, read.target
        into_run = [self.of_handle(handle, name) for name in ("lock", "report", "start")]
        responds = [lambda: f"respond {handle.link}"] * 2
        if handle.view == "unlocked" and r.random() < 0.6:
            self.queue = into_run[r.randrange(1, 3):] + responds
            return into_run[0]()
        if handle.view == "running" and r.random() < 0.5:
            again = self.run_again(handle)
            self.queue = again[1:] + responds
            return again[0]()
        if handle.view == "running" and r.random() < 0.4:
            opens = f"send d{handle.link} {COMPLETION.hex()} more"
            more = [lambda: self.device_read(handle), self.next_packet] * 2
            self.queue = [self.of_handle(handle, "refresh")] + more + responds
            return opens
        if r.random() < 0.2 and read.line.letter == "p":
            return f"unbind {handle.number} {read.line.name}"
        return r.choice([f"write {handle.number} command {handle.interface.registers['command'] ^ MEMORY_SPACE}",
                         f"write {handle.number} bar{read.bar} {r.randrange(2**32) * 4096 % 2**62}",
                         f"flr {handle.number}", self.of_handle(handle, "halt")()])

    def peer_send(self, line: Line, handle: Optional[Handle] = None) -> str:
        """Mostly a write into a BAR of the other device."""
        r, side = self.r, self.r.randrange(2)
        if handle:
            side = 0 if line.ends[0].link == handle.link else 1
        requester = handle.plan.rid if handle else self.requester(line.ends[side].link)
        data = self.into_bar(line.ends[1 - side].link, requester, line.plan.id) if r.random() < 0.7 else None
        data = data or random_tlp(r, requester)
        if r.random() < self.breaking:
            data = broken(r, data)
        return f"psend {line.name} {'ab'[side]} {data.hex() or '-'}{r.choice(['', '', ' more'])}"

    def into_bar(self, link: int, requester: int, stream: Optional[int] = None) -> Optional[bytes]:
        """A write into a BAR of an interface of the link, of one that is bound to the stream if there is one."""
        handles = self.world.on_link(link)
        handles = [handle for handle in handles if stream in handle.interface.bindings] or handles
        return bar_write(self.r, requester, self.r.choice(handles).interface) if handles else None

    def hop_send(self, link: int) -> str:
        """A TLP of a traffic class of the hop, if it lists one."""
        r, side, classes = self.r, self.r.choice("hd"), self.plan.links[link].hop_tcs
        requester = r.choice([0x3000, 0x3000, self.requester(link)])
        data = self.into_bar(link, requester) if side == "h" and r.random() < 0.5 else None
        data = bytearray(data or r.choice([random_tlp(r, requester)] * 4 + [COMPLETION]))
        if classes:
            data[1] = data[1] & 0x8F | r.choice(classes) << 4
        return f"send {side}{link} {data.hex()}{r.choice(['', ' trusted']) if side == 'h' else ''}"

    def forward(self, link: int) -> str:
        """Mostly where something waits."""
        full = [place for place, tlps in self.world.waiting.items() if tlps] or list(self.world.waiting)
        place = self.r.choice(full) if full and self.r.random() < 0.9 else (link, self.r.choice([0, 0, 1, 1, 2]))
        return f"forward {place[0]} {place[1]}"

    def notice_sealed(self):
        """Packets that were sealed wait to arrive, in their order."""
        while self.sealed < len(self.world.packets):
            self.sealed += 1
            port, _, data = self.world.packets[self.sealed - 1]
            key_set, sub = data[1] >> 6 & 1, data[1] & 7
            draw = self.world.end_at(port, data[2]).tx[sub].slots[key_set].draw
            self.waiting.append((self.sealed, draw))

    def next_packet(self) -> str:
        """The next packet, mostly one that its receiver can take; or what waits at a switch goes on."""
        r = self.r
        if any(self.world.waiting.values()) and r.random() < 0.15:
            return self.forward(0)
        if r.random() < min(self.hostility, 0.01) and len(self.waiting) > 1:
            self.waiting.pop(0)
        while self.waiting:
            number, draw = self.waiting.pop(0)
            if self.can_take(number, draw) or r.random() < (0.03 if not self.is_posting else 0.0):
                return f"pass {number}"
        return self.send()

    def can_take(self, number: int, draw: int) -> bool:
        _, port, data = self.world.packets[number - 1]
        end, key_set = self.world.end_at(port, data[2]), data[1] >> 6 & 1
        slot = end.rx[data[1] & 7].slots[key_set]
        return not end.failed and (slot.state, slot.draw) == ("live", draw)

    def attack(self) -> str:
        r, packets = self.r, self.world.packets
        number = 1 + r.randrange(len(packets) + 1)
        what = r.random()
        if what < 0.25 or not packets:
            return f"pass {number}"
        if what < 0.5:
            return f"alter {number} {r.randrange(r.choice([4, 45]))} {1 << r.randrange(8):02x}"
        if what < 0.65:
            return f"cut {number} {r.randrange(45)}"
        if what < 0.8 and self.forgery:
            return self.forge()
        port = r.choice([port for line in self.keyed for port in line.ports])
        return f"arrive {port} {broken(r, r.choice(packets)[2]).hex() or '-'}"

    def forge(self) -> str:
        """A memory write or another TLP, on any stream, under any draw that is Live there, with T or without."""
        r = self.r
        end = r.choice(self.keyed).ends[r.choice([HOST, HOST, HOST, DEVICE])]
        requester, tlp = self.requester(end.link), None
        if end.is_at_device:
            tlp = self.into_bar(end.link, requester)
        elif end.is_at_host:
            write, read = (make(r, requester, self.plan.memory) for make in (memory_write, memory_read))
            tlp = r.choice([write, write, read, read, None])
        data = forged(r, self.world, end, tlp or random_tlp(r, requester), r.random() < 0.8)
        return f"arrive {end.port} {data.hex()}" if data else self.send()

    # -- interfaces

    def interface_line(self, handle: Handle) -> str:
        r = self.r
        if r.random() < self.changes:
            return r.choice([self.write_register, self.write_register, self.change])(handle.number)
        if r.random() < self.forgery * 0.5:
            return self.forge()
        if r.random() < 0.07:
            return f"{r.choice(OPERATIONS + ['view', 'view'])} {handle.number}"
        peers = [line for line in self.world.peers if handle.link in map(link_of, line.ports)]
        if peers and r.random() < (self.binding if handle.view in ("locked", "running") else 0.03):
            return self.peer_line(handle, r.choice(peers))
        if peers and not self.queue and not self.is_posting and r.random() < self.binding * 0.1:
            self.queue = self.bind_both(r.choice(peers))
        if handle.view == "running":
            return self.in_run(handle)
        return self.towards_run(handle)

    def peer_line(self, handle: Handle, line: Line) -> str:
        """What an interface does with a stream to another device: mostly it is bound first."""
        r, number = self.r, handle.number
        if handle.view not in ("locked", "running"):
            return f"{r.choice(['bind', 'unbind'])} {number} {line.name}"
        repair = self.repair(line)
        if repair and r.random() < (0.6 if line.operation.name == "up" else 0.8):
            return repair
        is_bound = line.plan.id in handle.interface.bindings
        if not is_bound and r.random() < 0.8 or r.random() < 0.1:
            if handle.needs > line.draw and r.random() < 0.6:
                return self.operation("stop", line)
            if r.random() < self.changes:
                self.queue = self.queue or [lambda: f"{r.choice(['bind', 'unbind'])} {number} {line.name}"]
                return self.write_register(number)
            return f"{r.choice(['bind'] * 9 + ['unbind'])} {number} {line.name}{self.lose('bind')}"
        if r.random() < 0.9:
            self.queue = self.queue or [self.next_packet] * 2
            return self.peer_send(line, handle)
        return r.choice([f"unbind {number} {line.name}{self.lose('unbind')}"] * 3 + [self.operation("stop", line)])

    def bind_both(self, line: Line) -> List[Text]:
        """Interfaces at both ends of a stream between devices come into RUN and are bound to it, then they write into
        each other's BARs; seldom one of them is not bound."""
        pair = [self.bindable(end.link) for end in line.ends]
        if None in pair:
            return []
        keys = [lambda: f"pstop {line.name}", lambda: f"pestablish {line.name}"]
        binds = [lambda: f"bind {pair[0].number} {line.name}", lambda: f"bind {pair[1].number} {line.name}"]
        if self.r.random() < 0.2:
            binds.pop(self.r.randrange(2))
        writes = [lambda: self.marked_peer_write(line, pair, self.r.randrange(2)), self.pass_marked] * 4
        runs = self.comes_into_run(pair[0]) + self.comes_into_run(pair[1])
        return runs + keys + binds + writes + self.write_around_lock(line, pair)

    def write_around_lock(self, line: Line, pair: List[Handle]) -> List[Text]:
        """Of two interfaces that are bound to the stream one writes to the other, which is locked anew before the write
        arrives; sometimes the stream has new keys then, and the write comes between halt and lock."""
        side = self.r.randrange(2)
        source, target = pair[side], pair[1 - side]
        write, halt = [lambda: self.marked_peer_write(line, pair, side)], [self.of_handle(target, "halt")]
        ends = self.comes_to_bind(target, line) + [self.pass_marked]
        if self.r.random() < 0.5:
            return write + halt + ends
        keys = [lambda: f"pstop {line.name}", lambda: f"pestablish {line.name}"]
        return halt + [self.of_handle(source, "halt")] + keys + self.comes_to_bind(source, line) + write + ends

    def comes_to_bind(self, handle: Handle, line: Line) -> List[Text]:
        """After a halt."""
        events = [self.of_handle(handle, name) for name in ("refresh", "lock", "report", "start")]
        return events + [lambda: f"bind {handle.number} {line.name}"]

    def bindable(self, link: int) -> Optional[Handle]:
        handles = [handle for handle in self.world.on_link(link) if handle.plan.flags & BINDS_PEERS]
        return handles[-1] if handles else None

    def comes_into_run(self, handle: Handle) -> List[Text]:
        if handle.view == "running":
            return []
        keys = lambda: self.repair(handle.line) or f"refresh {handle.line.name}"
        names = ["lock", "report", "start"]
        begins = [self.of_handle(handle, "halt"), lambda: f"flr {handle.number}", keys]
        return begins + [self.of_handle(handle, name) for name in names]

    def marked_peer_write(self, line: Line, pair: List[Handle], side: int) -> str:
        self.marked = self.sealed + 1
        data = bar_write(self.r, pair[side].plan.rid, pair[1 - side].interface)
        return f"psend {line.name} {'ab'[side]} {data.hex()}" if data else f"view {pair[side].number}"

    def towards_run(self, handle: Handle) -> str:
        r, line = self.r, handle.line
        if handle.view in ("doubt", "broken"):
            if r.random() < 0.1:
                return r.choice([f"view {handle.number}", f"stop {line.name}"])
            return self.numbered(r.choice(["halt"] * 7 + OPERATIONS), handle.number)
        interface = handle.interface
        if interface.bars_overlap() and interface.registers != first_registers(handle.plan) and r.random() < 0.6:
            return f"flr {handle.number}"
        if handle.status(HOST) != "secure" or handle.status(DEVICE) != "secure":
            if r.random() < 0.1:
                return self.numbered(r.choice(["lock", "start"]), handle.number)
            return self.repair(line) or self.next_packet()
        if handle.view == "unlocked" and line.operation.name == "establish":
            self.queue = [lambda: f"report {handle.number}", lambda: f"start {handle.number}"]
        if handle.view == "unlocked":
            has_nonce = handle.interface.nonces or r.random() < 0.1
            return self.numbered("lock", handle.number) if has_nonce else self.send()
        if not handle.is_reported and r.random() < 0.9:
            return self.numbered("report", handle.number)
        if line.draw < handle.needs and r.random() < 0.8:
            return self.operation("refresh", line)
        return self.numbered("start", handle.number)

    def in_run(self, handle: Handle) -> str:
        r, what = self.r, self.r.random()
        if self.world.reads[handle.link] and r.random() < self.answering:
            return f"answer {handle.link}"
        if self.is_flooding and len(self.world.reads[handle.link]) < MOST_WAITING and not self.queue:
            self.queue = self.flood(handle)
            return self.queue.pop(0)()
        if what < 0.40:
            return self.device_request(handle)
        if what < 0.55:
            return self.host_write(handle.link)
        if what < 0.78:
            return self.next_packet()
        if what < 0.84:
            return r.choice([self.show_memory(), self.show_guarded(handle.number)])
        if what < 0.88:
            return self.operation("refresh", handle.line)
        if what < 0.92:
            return self.numbered(r.choice(["state", "report"]), handle.number)
        if what < 0.95:
            return self.numbered("halt", handle.number)
        if what < 0.97:
            late = [self.late_request, self.late_request, self.late_answer, self.early_write, self.changed_at_lock]
            self.queue = r.choice(late + [self.forged_twice] * (self.forgery > 0))(handle)
            return self.queue.pop(0)()
        if what < 0.98 and not self.is_posting:
            return self.operation("stop", handle.line)
        if what < 0.982 and not self.is_posting:
            return f"reset {handle.link}"
        return f"view {handle.number}"

    def device_request(self, handle: Handle) -> str:
        """A write to trusted memory, or a read of it."""
        make = memory_read if self.r.random() < self.reading else memory_write
        more = self.r.choice(["", "", " more"])
        return f"send d{handle.link} {make(self.r, handle.plan.rid, self.plan.memory).hex()}{more}"

    def late_request(self, handle: Handle) -> List[Text]:
        """A write or a read, of the device or of the host, that is sealed in one run and arrives in the next one, or
        after it; a read may have waited since the first."""
        again = self.run_again(handle)
        make = self.r.choice([memory_write, memory_read, bar_write])
        request, ends = self.marked_request(handle, make), [lambda: f"answer {handle.link}"] * 2
        if make is memory_read and self.r.random() < 0.5:
            return [request, self.pass_marked] + again + ends
        return [request] + again + [self.pass_marked] + ends

    def early_write(self, handle: Handle) -> List[Text]:
        """A trusted write of the host that is sealed before the lock of the run in which it arrives."""
        names = ["halt", "refresh", "lock", "report", "start"]
        again = [self.of_handle(handle, name) for name in names]
        return again[:2] + [self.marked_request(handle, bar_write)] + again[2:] + [self.pass_marked]

    def marked_request(self, handle: Handle, make: Callable) -> Text:
        """A request of the device, or of the host into a BAR, whose packet is passed later."""
        r = self.r

        def request():
            self.marked = self.sealed + 1
            if make is bar_write:
                data = bar_write(r, 0, handle.interface)
                return f"send h{handle.link} {data.hex()} trusted" if data else f"view {handle.number}"
            return f"send d{handle.link} {make(r, handle.plan.rid, self.plan.memory).hex()}"

        return request

    def pass_marked(self) -> str:
        return f"pass {self.marked}"

    def run_again(self, handle: Handle) -> List[Text]:
        """From the halt to the next start; seldom something is left out."""
        names = ["halt", "lock", "report", "refresh", "start"]
        if self.r.random() < 0.2:
            names.remove(self.r.choice(names[1:]))
        return [self.of_handle(handle, name) for name in names]

    def of_handle(self, handle: Handle, name: str) -> Text:
        if name == "refresh":
            return lambda: f"refresh {handle.line.name}"
        return lambda: f"{name} {handle.number}"

    def late_answer(self, handle: Handle) -> List[Text]:
        """The host has a unit of completions open over a refresh, so that it still seals under the older key."""
        r, link = self.r, handle.link
        completion = bytes.fromhex("0a00000000000004") + handle.plan.rid.to_bytes(2, "big") + b"\0\0"
        opens = [lambda: f"send h{link} {completion.hex()} more"]
        reads = [lambda: f"send d{link} {memory_read(r, handle.plan.rid, self.plan.memory).hex()}", self.next_packet]
        return opens + self.run_again(handle) + reads * 3 + [lambda: f"answer {link}"] * 2

    def changed_at_lock(self, handle: Handle) -> List[Text]:
        """The host writes into a BAR before the lock, and a register changes before the start."""
        write = lambda: f"send h{handle.link} {(bar_write(self.r, 0, handle.interface) or COMPLETION).hex()}"
        change = lambda: f"write {handle.number} lnr {handle.interface.registers['lnr'] ^ 1}"
        events = [self.of_handle(handle, name) for name in ("halt", "refresh", "lock", "report", "start")]
        return events[:2] + [self.marking(write), self.pass_marked] + events[2:4] + [change] + events[4:]

    def marking(self, text: Text) -> Text:
        """What it seals is passed by `pass_marked`."""

        def marked():
            self.marked = self.sealed + 1
            return text()

        return marked

    def forged_twice(self, handle: Handle) -> List[Text]:
        """Someone who knows the key writes to trusted memory for an interface, under two of its locks; the second one
        has no newer key."""
        locks = [self.of_handle(handle, name) for name in ("halt", "lock", "report", "refresh", "start")]
        forge = lambda: self.forged_write(handle)
        return locks + [forge] + locks[:3] + locks[4:] + [forge]

    def forged_write(self, handle: Handle) -> str:
        region = self.r.choice(self.plan.memory) if self.plan.memory else RegionPlan(CLOSE, 4096)
        address = region.base + 4 * self.r.randrange(900)
        tlp = memory_request(self.r, handle.plan.rid, address, [1], 0x40)[0] + self.r.randbytes(4)
        data = forged(self.r, self.world, handle.line.ends[HOST], tlp, True)
        return f"arrive h{handle.link} {data.hex()}" if data else f"view {handle.number}"

    def flood(self, handle: Handle) -> List[Text]:
        """More reads than may wait."""
        r, many = self.r, self.r.choice([5, 20, 70, 70])
        read = lambda: f"send d{handle.link} {self.good_read(handle).hex()}{r.choice(['', ' more'])}"
        return [read, self.next_packet] * many + [lambda: f"answer {handle.link}"] * r.choice([0, 3, 30])

    def good_read(self, handle: Handle) -> bytes:
        """One that may wait, if there is memory."""
        region = self.r.choice(self.plan.memory) if self.plan.memory else RegionPlan(CLOSE, 4096)
        return memory_request(self.r, handle.plan.rid, region.base + 4 * self.r.randrange(900), [1, 2], 0)[0]

    def change(self, number: int) -> str:
        return f"{self.r.choice(['flr', 'firmware', 'firmware'])} {number}"

    def write_register(self, number: int) -> str:
        """Mostly a value that does no harm, of any register."""
        r, has_interface = self.r, number < len(self.world.handles)
        registers = self.world.interfaces[number].registers if has_interface else {}
        register = r.choice(list(registers if registers and r.random() < 0.9 else WIDTHS))
        kept, bars = registers.get(register, 0), [value for name, value in registers.items() if name.startswith("bar")]
        if register == "command" and has_interface and self.world.interfaces[number].state == UNLOCKED:
            return f"write {number} command {kept ^ MEMORY_SPACE}"
        harmless = [kept] * 5 + [kept ^ 1, kept ^ 0x80]
        harmful = [kept ^ 2, kept ^ 4, r.randrange(2**64), r.choice(bars or [0]) + 4096]
        return f"write {number} {register} {r.choice([str, hex])(r.choice(harmless + harmful) % 2 ** WIDTHS[register])}"

    def show_memory(self) -> str:
        return f"memory {random_address(self.r, self.plan.memory):#x} {self.length()}"

    def length(self) -> int:
        return self.r.choice([1, 4, 16, 64, 256, 1 + self.r.randrange(256)])

    def show_guarded(self, number: int) -> str:
        """Mostly where a write may have gone."""
        r, interfaces = self.r, self.world.interfaces
        bars = interfaces[number].plan.bars if number < len(interfaces) else []
        bar = r.randrange(len(bars)) if bars and r.random() < 0.95 else r.choice([0, 5, 6, 2**64 - 1])
        pages = bars[bar].pages if bar < len(bars) else 0
        written = sorted(interfaces[number].guarded.contents[bar]) if bar < len(bars) else []
        if written and r.random() < 0.7:
            return f"mmio {number} {bar} {max(r.choice(written) - r.choice([0, 0, 1, 3, 8]), 0)} {self.length()}"
        offset = offset_in(r, pages) if pages and r.random() < 0.95 else r.choice([0, 4096 * pages, 2**64 - 1])
        return f"mmio {number} {bar} {offset} {self.length()}"


def misspelled(r: random.Random, line: str) -> str:
    """A line that is mostly not spelled."""
    words = line.split()
    place = r.randrange(len(words) + 1)
    strange = "more trusted lose request - 0x 1_0 +1 abc 0 00 257 65536 0xg 0X1 h8 d0 bar6 ats lock".split()
    strange += [str(2**64), f"{2**64 - 1:#x}", "0" * 21, "0x" + "0" * 17]
    what = r.random()
    if what < 0.3 and place < len(words):
        words[place] = r.choice(strange)
    elif what < 0.5:
        words.insert(place, r.choice(strange))
    elif what < 0.65:
        del words[min(place, len(words) - 1)]
    text = " ".join(words)
    if what > 0.65:
        at = r.randrange(len(text))
        letter = r.choice(["", " ", "G", "0", "x", "\t", "\x7f", "\xff", text[at].upper(), text[at] * 2])
        text = text[:at] + letter + text[at + 1:]
    return text if r.random() < 0.98 else text + " " * r.choice([20000 - len(text), 20001 - len(text)])
