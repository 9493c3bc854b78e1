"""The messages of an event's exchanges, by the second model: each request and reply in the bytes of docs/FORMATS.md,
Messages of the manager and a device. They are laid out before the event, and its verdict says how many of them came."""

from dataclasses import dataclass
from typing import List, Optional

from interfaces import LOCKED, RUN, Handle
from links import Exchange, Line, link_of, number
from world import BINDINGS, World

QUERY, QUERY_RESP, KEY_PROG, KP_ACK, SET_GO, SET_STOP, GO_STOP_ACK = range(7)
OBJECTS = {"program": KEY_PROG, "go": SET_GO, "stop": SET_STOP}
VERSION, CAPABILITIES, LOCK, REPORT, STATE, START, STOP, BIND, UNBIND = range(0x81, 0x8A)
ERROR = 0x7F
REQUESTS = {"state": STATE, "start": START, "halt": STOP, "bind": BIND, "unbind": UNBIND}


@dataclass
class Messages:
    """An exchange: the request if it is known, the reply unless the verdict shows it, and the reply that refuses."""

    request: Optional[bytes]
    reply: Optional[bytes]
    function: int = 0
    refusal: Optional[bytes] = None


def little(size: int, value: int) -> bytes:
    return value.to_bytes(size, "little")


# ---- key management


def key_object(kind: int, stream: int, selector: int, status: int = 0) -> bytes:
    return bytes([0, kind, 0, 0, stream, status, selector, 0])


def key_messages(world: World, line: Line, exchange: Exchange, key_set: int, draw: int) -> Messages:
    """One exchange of an operation that gives the keys of a draw in a set."""
    if exchange.what == "query":
        has_interfaces = line.letter == "" and world.plan.links[link_of(line.ports[0])].interfaces
        requester = world.plan.links[link_of(line.ports[0])].interfaces[0].rid if has_interfaces else 0
        return Messages(bytes(4), bytes([0, QUERY_RESP, 0, 0]) + little(2, requester) + bytes(2))
    direction, sub = exchange.lane
    key_set = exchange.key_set if exchange.what == "stop" else key_set
    selector = sub << 4 | int(direction == exchange.side) << 1 | key_set
    request = key_object(OBJECTS[exchange.what], line.plan.id, selector)
    if exchange.what != "program":
        return Messages(request, key_object(GO_STOP_ACK, line.plan.id, selector))
    request += world.plan.pool[6 * draw + 3 * direction + sub] + little(8, 1)
    replies = [key_object(KP_ACK, line.plan.id, selector, status) for status in (0, 3)]
    return Messages(request, replies[0], refusal=replies[1])


def of_operation(world: World, name: str, line: Line) -> List[Messages]:
    """All exchanges of an operation on a stream, those that came before this event too."""
    now = line.operation
    key_set, draw = now.key_set, now.draw
    if now.name != name:
        key_set, draw = (1 - key_set if name == "refresh" else 0), world.draws
    if name != "stop" and 6 * draw >= len(world.plan.pool):
        return []
    return [key_messages(world, line, exchange, key_set, draw) for exchange in line.exchanges[name]]


# ---- interfaces


def tdisp(kind: int, function: int, body: bytes = b"") -> bytes:
    return bytes([1, 0x10, kind, 0, 0]) + little(4, function) + bytes(8) + body


def of_lock(handle: Handle) -> List[Messages]:
    plan = handle.plan
    body = little(2, plan.flags) + bytes([plan.stream, 0]) + little(8, plan.offset) + bytes(8)
    able = bytes(4) + b"\xfe\x03" + bytes(14) + little(2, 0x1F) + bytes(3) + bytes([64, 1, 1])
    return [
        Messages(tdisp(VERSION, plan.rid), tdisp(VERSION - 0x80, plan.rid, b"\x01\x10")),
        Messages(tdisp(CAPABILITIES, plan.rid, bytes(4)), tdisp(CAPABILITIES - 0x80, plan.rid, able)),
        Messages(tdisp(LOCK, plan.rid, body), None, plan.rid),
    ]


def of_report(handle: Handle, size: int) -> List[Messages]:
    interface, rid, messages, offset = handle.interface, handle.plan.rid, [], 0
    if interface.state not in (LOCKED, RUN):
        return [Messages(tdisp(REPORT, rid, little(2, 0) + little(2, size)), None, rid)]
    while offset < len(interface.kept_report):
        request = tdisp(REPORT, rid, little(2, offset) + little(2, size))
        portion = interface.kept_report[offset: offset + size]
        offset += len(portion)
        counts = little(2, len(portion)) + little(2, len(interface.kept_report) - offset)
        messages.append(Messages(request, tdisp(REPORT - 0x80, rid, counts + portion)))
    return messages


def of_interface(world: World, event: str, handle: Handle, words: List[str]) -> List[Messages]:
    rid = handle.plan.rid
    if event == "lock":
        return of_lock(handle)
    if event == "report":
        return of_report(handle, world.plan.portion)
    body = b""
    if event == "start":
        body = handle.nonce or b""
        if handle.interface.state != LOCKED:
            return [Messages(None, None, rid)]
    if event in BINDINGS:
        peer = number(words[0])
        if peer >= len(world.peers) or handle.link not in map(link_of, world.peers[peer].ports):
            return []
        body = bytes([world.peers[peer].plan.id])
    return [Messages(tdisp(REQUESTS[event], rid, body), None, rid)]


def shown(function: int, verdict: List[str]) -> bytes:
    """The reply that a verdict shows."""
    kind, body = {
        "locked": (LOCK, lambda: bytes.fromhex(verdict[2])),
        "started": (START, bytes),
        "halted": (STOP, bytes),
        "state": (STATE, lambda: bytes([int(verdict[2])])),
        "bound": (BIND, bytes),
        "unbound": (UNBIND, bytes),
    }[verdict[0]]
    return tdisp(kind - 0x80, function, body())


# ---- an event


def exchanges(world: World, line: str) -> tuple:
    """The first exchange that the event may have, and all exchanges of its operation."""
    words = line.split()
    event, rest = words[0], words[1:]
    letter = event[0] if event[0] in "ph" and event != "halt" else ""
    name = event[len(letter):]
    if name in ("establish", "refresh", "stop"):
        stream = world.line_of(letter, [number(word) for word in rest[: 1 if letter == "p" else 2]])
        if stream is None or name not in stream.exchanges:
            return 1, []
        first = stream.operation.exchange if stream.operation.name == name else 1
        return first, of_operation(world, name, stream)
    if event in REQUESTS or event in ("lock", "report"):
        place = number(rest[0])
        known = place < len(world.handles)
        return 1, of_interface(world, event, world.handles[place], rest[1:]) if known else []
    return 1, []


def told(first: int, messages: List[Messages], verdict: str) -> List[str]:
    """The lines of the exchanges that came, by the event's verdict."""
    words, facts = verdict.split(), []
    last, fate = len(messages), "done"
    if words[0] == "lost":
        last, fate = int(words[2]), words[1]
    elif words[:2] == ["refused", "devicerefused"]:
        last, fate = int(words[2]), "refused"
    elif words[0] in ("refused", "none"):
        return []
    for place in range(first, last + 1):
        message, ends = messages[place - 1], fate if place == last else "done"
        if ends == "request":
            facts.append(f"exchange {place} lost request")
            continue
        if message.request is not None:
            facts.append(f"exchange {place} request {message.request.hex()}")
        if ends == "reply":
            facts.append(f"exchange {place} lost reply")
        elif ends == "refused":
            code = little(4, int(words[3])) + bytes(4)
            facts.append(f"exchange {place} reply {(message.refusal or tdisp(ERROR, message.function, code)).hex()}")
        else:
            facts.append(f"exchange {place} reply {(message.reply or shown(message.function, words)).hex()}")
    return facts
