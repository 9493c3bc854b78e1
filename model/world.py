"""Keyed lines with device interfaces, the manager's views, trusted memory with the reads of it that wait, and the
guarded memory of devices: the verdict of every line of a script."""

from dataclasses import dataclass
from typing import Dict, List, Optional, Tuple

from interfaces import RUN, Handle, Interface
from links import CPL, HOST, End, Line, Links, Packet, kind_of, link_of, loss, number, read_tlp
from memory import MOST_WAITING, Memory, WaitingRead, crosses
from plan import Plan

OPERATIONS = ["lock", "report", "start", "halt", "state"]
BINDINGS = ["bind", "unbind"]
CHANGES = ["write", "flr", "firmware"]


@dataclass
class DeviceRead(WaitingRead):
    """A read that waits at a device's port: its T, the end that it came to, and the interface and BAR that claimed it.

    The end is named by its line and side, as a reset makes another one.
    """

    t: bool
    line: Line
    side: int
    target: Handle
    bar: int

    end = property(lambda self: self.line.ends[self.side])


class World(Links):
    def __init__(self, plan: Plan):
        super().__init__(plan)
        self.memory = Memory(plan.memory)
        self.reads: Dict[int, List[WaitingRead]] = {link: [] for link in range(len(plan.links))}
        self.device_reads: Dict[int, List[DeviceRead]] = {link: [] for link in range(len(plan.links))}
        self.interfaces: List[Interface] = []
        self.handles: List[Handle] = []
        for link, link_plan in enumerate(plan.links):
            nonces = list(link_plan.nonces)
            for interface_plan in link_plan.interfaces:
                interface = Interface(interface_plan, nonces)
                self.interfaces.append(interface)
                self.handles.append(Handle(len(self.handles), link, interface_plan, interface, self))

    def on_link(self, link: int, requester: Optional[int] = None, stream: Optional[int] = None) -> List[Handle]:
        """The interfaces of a link, with this requester ID or with this stream as their topology has it."""
        return [
            handle
            for handle in self.handles
            if handle.link == link and requester in (None, handle.plan.rid) and stream in (None, handle.plan.stream)
        ]

    # -- what stands beside the links

    def sets_t(self, end: End, header: bytes, trusted: bool) -> bool:
        if not end.is_at_device:
            return trusted
        owners = [owner.interface for owner in self.on_link(end.link, requester=header[4] << 8 | header[5])]
        return any(owner.state == RUN and end.plan.id in (owner.stream, *owner.bindings) for owner in owners)

    def effect(self, end: End, draw: int, packet: Packet, payload: bytes) -> str:
        header, kind = packet.header, kind_of(packet.header[0]).name
        address = int.from_bytes(header[8:], "big")
        if kind == "memwrite":
            if end.is_at_device:
                return self.guarded_effect(end, draw, packet, payload)
            cause = self.not_granted(end, draw, packet) or self.memory.blocks(address, len(payload))
            if not cause:
                self.memory.write(address, payload, header[7] & 15, header[7] >> 4)
            return f"blocked:{cause}" if cause else "applied"
        if kind == "memread" and end.is_at_device:
            return self.device_read_effect(end, draw, packet)
        if kind == "memread" and packet.t:
            return self.read_effect(end, draw, packet)
        return "delivered"

    def read_effect(self, end: End, draw: int, packet: Packet) -> str:
        read, waiting = WaitingRead(packet.header, draw), self.reads[end.link]
        cause = self.not_granted(end, draw, packet) or self.memory.blocks(read.address, read.length)
        if not cause and len(waiting) == MOST_WAITING:
            cause = "full"
        if not cause:
            waiting.append(read)
        return f"blocked:{cause}" if cause else "queued"

    def guarded_effect(self, end: End, draw: int, packet: Packet, payload: bytes) -> str:
        """What a memory write that the device's port accepted gives."""
        address, enables = int.from_bytes(packet.header[8:], "big"), packet.header[7]
        claim = self.claim(end.link, address, len(payload))
        if claim is None:
            return "delivered"
        interface, bar = claim[0].interface, claim[1]
        cause = "crosses" if crosses(address, len(payload)) else None
        cause = cause or interface.not_admitted(bar, bool(packet.t), end.plan.id, draw)
        if not cause:
            offset = address - interface.registers[f"bar{bar}"]
            interface.guarded.write(bar, offset, payload, enables & 15, enables >> 4)
        return f"blocked:{cause}" if cause else "stored"

    def claim(self, link: int, address: int, length: int) -> Optional[Tuple[Handle, int]]:
        """The least interface of the link's device, and its least BAR, that have these bytes."""
        for handle in self.on_link(link):
            bar = handle.interface.claims(address, length)
            if bar is not None:
                return handle, bar
        return None

    def device_read_effect(self, end: End, draw: int, packet: Packet) -> str:
        """What a memory read that the device's port accepted gives."""
        named = WaitingRead(packet.header, draw)
        claim = self.claim(end.link, named.address, named.length)
        if claim is None or not claim[0].plan.reads:
            return "delivered"
        read = DeviceRead(packet.header, draw, bool(packet.t), end.line, end.side, *claim)
        cause = "crosses" if crosses(read.address, read.length) else None
        cause = cause or claim[0].interface.not_admitted(read.bar, read.t, end.plan.id, draw)
        if not cause and len(self.device_reads[end.link]) >= MOST_WAITING:
            cause = "full"
        if not cause:
            self.device_reads[end.link].append(read)
        return f"blocked:{cause}" if cause else "queued"

    def not_granted(self, end: End, draw: int, packet: Packet) -> Optional[str]:
        """Why the manager does not let this requester write, or read."""
        if not packet.t:
            return "nottrusted"
        requester = packet.header[4] << 8 | packet.header[5]
        running = [handle for handle in self.on_link(end.link, requester=requester) if handle.view == "running"]
        if not running:
            return "notrunning"
        if running[0].plan.stream != end.plan.id:
            return "wrongstream"
        return "stale" if draw < running[0].floor else None

    def stop_begins(self, line: Line):
        for handle in self.handles:
            if line in (handle.line, *handle.asked):
                handle.breaks()

    def ends_moved(self, line: Line):
        for end in line.ends:
            if end.is_at_device and end.status() != "secure":
                for interface in [handle.interface for handle in self.on_link(end.link)]:
                    if end.plan.id in (interface.stream, *interface.bindings):
                        interface.goes_wrong()

    # -- lines

    def verdict(self, line: str) -> str:
        words = line.split()
        event, rest = words[0], words[1:]
        if event == "memory":
            contents = self.memory.read(number(rest[0]), number(rest[1]))
            return f"memory {contents.hex()}" if contents else "none"
        if event == "mmio":
            return self.show_guarded(*map(number, rest))
        if event == "answer":
            return self.answer(number(rest[0]))
        if event == "respond":
            return self.respond(number(rest[0]))
        if event in OPERATIONS + BINDINGS + CHANGES + ["view"]:
            return self.on_interface(event, number(rest[0]), rest[1:])
        return super().verdict(line)

    def on_interface(self, event: str, place: int, words: List[str]) -> str:
        if place >= len(self.handles):
            return "none"
        handle = self.handles[place]
        if event == "view":
            return f"view {place} {handle.view}"
        if event in OPERATIONS:
            return handle.operate(event, loss(words))
        if event in BINDINGS:
            peer = number(words[0])
            is_here = peer < len(self.peers) and handle.link in map(link_of, self.peers[peer].ports)
            return handle.operate(event, loss(words[1:]), peer) if is_here else "none"
        return self.change(event, place, handle.interface, words)

    def change(self, event: str, place: int, interface: Interface, words: List[str]) -> str:
        if event == "write":
            if words[0] not in interface.registers:
                return "none"
            interface.write(words[0], number(words[1]))
            return f"written {place} {interface.state}"
        if event == "flr":
            interface.level_reset()
        else:
            interface.firmware()
        return f"{event} {place} {interface.state}"

    def reset(self, link: int) -> str:
        for handle in self.on_link(link):
            handle.interface.reset()
            handle.breaks()
        if link in self.reads:
            self.reads[link], self.device_reads[link] = [], []
        return super().reset(link)

    # -- reads that wait, and guarded memory

    def answer(self, link: int) -> str:
        """The oldest read of the link that waits is answered, dropped, or stays."""
        if link not in self.reads:
            return "none"
        waiting = self.reads[link]
        if not waiting:
            return f"empty {link}"
        completion = waiting[0].completion(self.memory.read(waiting[0].address, waiting[0].length))
        owner = self.on_link(link, requester=waiting[0].requester)[0]
        cause = self.not_answered(owner, waiting[0], completion)
        if cause:
            waiting.pop(0)
            return f"dropped {owner.number} {cause}"
        draw = owner.line.ends[HOST].tx[CPL].live_draw()
        if draw is not None and draw < owner.floor:
            return f"refused refreshfirst {draw} {owner.floor}"
        verdict = self.send_on(owner.line.ends[HOST], completion, more=False, trusted=True)
        if verdict.startswith("sealed"):
            waiting.pop(0)
        return verdict

    def not_answered(self, owner: Handle, read: WaitingRead, completion: bytes) -> Optional[str]:
        if owner.view != "running":
            return "notrunning"
        kind, header, _ = read_tlp(completion)
        if self.chosen(f"h{owner.link}", kind, header) != owner.plan.stream:
            return "wrongstream"
        return "stale" if read.draw < owner.floor else None

    def respond(self, link: int) -> str:
        """The oldest read that waits at the link's device is answered, dropped, or stays."""
        if link not in self.device_reads:
            return "none"
        waiting = self.device_reads[link]
        if not waiting:
            return f"empty {link}"
        read = waiting[0]
        cause = self.not_responded(read)
        if cause:
            waiting.pop(0)
            return f"dropped {read.target.number} {cause}"
        draw, floor = read.end.tx[CPL].live_draw(), read.target.interface.floors.get(read.end.plan.id, 0)
        if read.t and draw is not None and draw < floor:
            return f"refused refreshfirst {draw} {floor}"
        verdict = self.send_on(read.end, self.response(read), more=False, trusted=read.t, is_response=True)
        if verdict.startswith("sealed"):
            waiting.pop(0)
        return verdict

    def response(self, read: DeviceRead) -> bytes:
        """Its completion, from what stands behind the BAR now."""
        offset = read.address - read.target.interface.registers[f"bar{read.bar}"]
        contents = read.target.interface.guarded.read(read.bar, offset, read.length)
        return read.completion(contents, read.target.plan.rid)

    def not_responded(self, read: DeviceRead) -> Optional[str]:
        if self.claim(read.target.link, read.address, read.length) != (read.target, read.bar):
            return "moved"
        return read.target.interface.not_admitted(read.bar, read.t, read.end.plan.id, read.draw)

    def show_guarded(self, place: int, bar: int, offset: int, length: int) -> str:
        has_it = place < len(self.interfaces)
        contents = self.interfaces[place].guarded.read(bar, offset, length) if has_it else None
        return f"mmio {contents.hex()}" if contents else "none"
