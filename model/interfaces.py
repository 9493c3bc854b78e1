"""Device interfaces, and the host manager's views of them (docs/RULES.md).

Both ends are objects that go from state to state, one request after another. The manager calls the device's interface
through a session, which counts the exchanges of one event and loses the one that the script names.
"""

import struct
from typing import Callable, Dict, List, Optional

from guarded import GuardedMemory
from links import DEVICE, HOST, PR, Line, Links, Loss
from memory import PAGE
from plan import InterfacePlan

UNLOCKED, LOCKED, RUN, ERROR = range(4)
NO_FIRMWARE, KEEP_CACHE_LINE, LOCK_MSIX, BINDS_PEERS = 1, 2, 4, 8
LOCK_FLAGS = 0x1F
MEMORY_SPACE = 2
ANY_TIME = {"tph", "lnr", "pasid", "ats", "bar0", "bar1", "bar2", "bar3", "bar4", "bar5"}
ERROR_REQUEST, ERROR_STATE, ERROR_NONCE, NO_NONCE, NOT_LOCKABLE = 1, 4, 0x102, 0x103, 0x104


class DeviceRefused(Exception):
    """An ERROR reply with its code."""

    def __init__(self, code: int):
        self.code = code


class Stays(Exception):
    """The event ends before its operation does, with this verdict."""


# ---- the device's end


def first_registers(plan: InterfacePlan) -> Dict[str, int]:
    registers = {name: getattr(plan, name) for name in ("command", "msix", "lnr", "cacheline", "tph", "pasid", "ats")}
    registers.update({f"bar{number}": bar.base for number, bar in enumerate(plan.bars)})
    return registers


def report_bytes(plan: InterfacePlan, registers: Dict[str, int], flags: int, offset: int) -> bytes:
    ranges = [number for number, bar in enumerate(plan.bars) if bar.pages]
    allowed = 2 | (flags & NO_FIRMWARE)
    data = struct.pack("<HHHHI", allowed, 0, registers["msix"], registers["lnr"], registers["tph"])
    data += struct.pack("<I", len(ranges))
    for number in ranges:
        bar, first = plan.bars[number], (registers[f"bar{number}"] + offset) % 2**64
        data += struct.pack("<QIHH", first // PAGE, bar.pages, bar.attributes, number)
    return data + struct.pack("<I", len(plan.info)) + plan.info


class Interface:
    """An interface at its device. `nonces` are those that are left of the link's list, which its interfaces share."""

    def __init__(self, plan: InterfacePlan, nonces: List[bytes]):
        self.plan, self.nonces = plan, nonces
        self.guarded, self.floor = GuardedMemory(plan.bars), 0
        self.reset()

    def reset(self):
        self.registers = first_registers(self.plan)
        self.stop()
        self.guarded.clear()

    def goes_wrong(self):
        """What CONFIG_LOCKED and RUN do not bear; else nothing."""
        if self.state in (LOCKED, RUN):
            self.state, self.nonce, self.bindings = ERROR, None, {}

    # -- requests

    def lock(self, flags: int, stream: int, offset: int, is_secure: bool) -> bytes:
        if self.state != UNLOCKED:
            raise DeviceRefused(ERROR_STATE)
        if flags & ~LOCK_FLAGS or offset % PAGE:
            raise DeviceRefused(ERROR_REQUEST)
        if not is_secure or self.bars_overlap():
            raise DeviceRefused(NOT_LOCKABLE)
        if not self.nonces:
            raise DeviceRefused(NO_NONCE)
        self.state, self.nonce = LOCKED, self.nonces.pop(0)
        self.flags, self.stream = flags, stream
        self.kept_report = report_bytes(self.plan, self.registers, flags, offset)
        return self.nonce

    def bars_overlap(self) -> bool:
        spans = sorted(
            (self.registers[f"bar{number}"], self.registers[f"bar{number}"] + PAGE * bar.pages)
            for number, bar in enumerate(self.plan.bars)
            if bar.pages
        )
        return any(left[1] > right[0] for left, right in zip(spans, spans[1:]))

    def report(self, offset: int, length: int) -> tuple:
        """A portion, and how many bytes come after it."""
        if self.state not in (LOCKED, RUN):
            raise DeviceRefused(ERROR_STATE)
        if not length or offset >= len(self.kept_report):
            raise DeviceRefused(ERROR_REQUEST)
        portion = self.kept_report[offset: offset + length]
        return portion, len(self.kept_report) - offset - len(portion)

    def start(self, nonce: bytes, floor: int):
        """From the floor on, a key of the bound stream admits trusted writes to the BARs."""
        if self.state != LOCKED:
            raise DeviceRefused(ERROR_STATE)
        if nonce != self.nonce:
            raise DeviceRefused(ERROR_NONCE)
        self.state, self.nonce, self.floor = RUN, None, floor

    def stop(self):
        self.state, self.stream, self.nonce, self.flags, self.kept_report = UNLOCKED, None, None, 0, b""
        # the streams between devices that it is bound to, by ID, each with the draw that was Live then
        self.bindings: Dict[int, int] = {}
        self.guarded.stopped()

    def bind(self, stream: int, draw: Optional[int]):
        """The draw is None if the device has no such stream to another one, or it is not Secure there."""
        if self.state not in (LOCKED, RUN):
            raise DeviceRefused(ERROR_STATE)
        if not self.flags & BINDS_PEERS or stream in self.bindings:
            raise DeviceRefused(ERROR_REQUEST)
        if draw is None:
            raise DeviceRefused(NOT_LOCKABLE)
        self.bindings[stream] = draw

    def unbind(self, stream: int):
        if self.state not in (LOCKED, RUN):
            raise DeviceRefused(ERROR_STATE)
        if stream not in self.bindings:
            raise DeviceRefused(ERROR_REQUEST)
        del self.bindings[stream]

    def shown_state(self) -> int:
        return self.state

    # -- changes

    def write(self, register: str, value: int):
        changed = self.registers[register] ^ value
        self.registers[register] = value
        listed = changed and (
            register in ANY_TIME
            or register == "command" and changed & 0b110
            or register == "msix" and self.flags & LOCK_MSIX
            or register == "cacheline" and self.flags & KEEP_CACHE_LINE
        )
        if listed:
            self.goes_wrong()

    def level_reset(self):
        self.registers = first_registers(self.plan)
        self.guarded.clear()
        self.goes_wrong()

    def firmware(self):
        if self.flags & NO_FIRMWARE:
            self.goes_wrong()

    # -- writes to the BARs

    def claims(self, address: int, length: int) -> Optional[int]:
        """The least BAR that has all of these bytes, while memory space is on."""
        if self.registers["command"] & MEMORY_SPACE:
            for bar in range(len(self.plan.bars)):
                if self.guarded.has(bar, address - self.registers[f"bar{bar}"], length):
                    return bar
        return None

    def not_admitted(self, bar: int, t: bool, stream: int, draw: int) -> Optional[str]:
        """Why a write to this BAR changes nothing, and a read of it is not answered."""
        if not t:
            return None if self.guarded.is_open(bar) or self.state == UNLOCKED else "nottrusted"
        if self.state != RUN:
            return "notrunning"
        if stream not in self.floors:
            return "wrongstream"
        return "stale" if draw < self.floors[stream] else None

    @property
    def floors(self) -> Dict[Optional[int], int]:
        """Of each stream that it is bound to."""
        return {**self.bindings, self.stream: self.floor}


# ---- the manager's end


class Session:
    """The exchanges of one event, counted from 1."""

    def __init__(self, lost: Loss):
        self.lost, self.count = lost, 0

    def ask(self, answer: Callable, *request):
        """The reply of the next exchange; raises Stays if it is lost or an ERROR."""
        self.count += 1
        if self.lost == (self.count, "request"):
            raise Stays(f"lost request {self.count}")
        code, reply = None, None
        try:
            reply = answer(*request)
        except DeviceRefused as refusal:
            code = refusal.code
        if self.lost == (self.count, "reply"):
            raise Stays(f"lost reply {self.count}")
        if code is not None:
            raise Stays(f"refused devicerefused {self.count} {code}")
        return reply


class Handle:
    """The manager's view of an interface, and what the manager keeps beside it."""

    def __init__(self, number: int, link: int, plan: InterfacePlan, interface: Interface, links: Links):
        self.number, self.link, self.plan, self.interface, self.links = number, link, plan, interface, links
        self.view = "unlocked"
        self.nonce: Optional[bytes] = None
        self.is_reported = self.start_was_asked = False
        # the streams between devices whose BIND was asked since LOCK_INTERFACE last was
        self.asked: List[Line] = []
        self.floor = self.needs = 0

    def breaks(self):
        if self.view in ("locked", "running", "doubt"):
            self.view = "broken"

    # its own stream
    line = property(lambda self: self.links.streams[self.link, self.plan.stream])

    def status(self, side: int) -> str:
        return self.line.ends[side].status()

    def operate(self, operation: str, lost: Loss, *peer: int) -> str:
        """`peer` is the number of the stream between devices that bind and unbind name."""
        begin = getattr(self, operation)
        try:
            return begin(Session(lost), *peer)
        except Stays as stays:
            return str(stays)

    # -- refusals before the first exchange

    def only_if(self, holds: bool, refusal: str):
        if not holds:
            raise Stays(f"refused {refusal}")

    def only_in(self, *views: str):
        self.only_if(self.view in views, f"wrongstate {self.view}")

    def only_secure(self):
        self.only_if(self.status(HOST) == "secure", f"notsecure {self.status(HOST)}")

    # -- the operations

    def lock(self, session: Session) -> str:
        self.only_in("unlocked")
        self.only_secure()
        session.ask(lambda: "version")
        session.ask(lambda: "capabilities")
        self.start_was_asked, self.asked = False, []
        plan, is_secure = self.plan, self.status(DEVICE) == "secure"
        try:
            self.nonce = session.ask(self.interface.lock, plan.flags, plan.stream, plan.offset, is_secure)
        except Stays as stays:
            self.after_loss(stays)
            raise
        self.view, self.is_reported = "locked", False
        return f"locked {self.number} {self.nonce.hex()}"

    def report(self, session: Session) -> str:
        self.only_in("locked", "running")
        report, left = b"", 1
        while left:
            portion, left = session.ask(self.interface.report, len(report), self.links.plan.portion)
            report += portion
        self.is_reported = True
        return f"reported {self.number} {report.hex()}"

    def start(self, session: Session) -> str:
        self.only_in("locked")
        self.only_if(self.is_reported, "notreported")
        self.only_secure()
        draw = self.line.draw
        self.only_if(draw >= self.needs, f"refreshfirst {draw} {self.needs}")
        self.start_was_asked = True
        live = self.line.ends[DEVICE].rx[PR].live_draw()
        try:
            session.ask(self.interface.start, self.nonce, live or 0)
        except Stays as stays:
            self.view = "broken"
            self.after_loss(stays)
            raise
        self.view, self.floor = "running", draw
        return f"started {self.number} draw {draw}"

    def halt(self, session: Session) -> str:
        try:
            session.ask(self.interface.stop)
        except Stays as stays:
            self.after_loss(stays)
            raise
        self.view = "unlocked"
        if self.start_was_asked:
            self.needs = self.links.draws
        return f"halted {self.number} needs {self.needs}"

    def state(self, session: Session) -> str:
        state = session.ask(self.interface.shown_state)
        if self.view == "locked" and state != LOCKED or self.view == "running" and state != RUN:
            self.view = "broken"
        return f"state {self.number} {state}"

    def bind(self, session: Session, peer: int) -> str:
        self.only_in("locked", "running")
        line = self.links.peers[peer]
        state = line.operation.name
        self.only_if(state == "up", f"notsecure {'idle' if state == 'idle' else 'partial'}")
        self.only_if(line.draw >= self.needs, f"refreshfirst {line.draw} {self.needs}")
        self.asked.append(line)
        end = next(end for end in line.ends if end.link == self.link)
        live = end.rx[PR].live_draw() if end.status() == "secure" else None
        session.ask(self.interface.bind, line.plan.id, live)
        return f"bound {self.number} {peer}"

    def unbind(self, session: Session, peer: int) -> str:
        self.only_in("locked", "running")
        session.ask(self.interface.unbind, self.links.peers[peer].plan.id)
        return f"unbound {self.number} {peer}"

    def after_loss(self, stays: Stays):
        """The device may have acted or not."""
        if str(stays).startswith("lost"):
            self.view = "doubt"
