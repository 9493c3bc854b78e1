"""The laws of what goes out of a port: on which stream, with which T, when it is refused, and what it carries.

Each is a function of the past and an event with its verdict; it gives the instances that it finds, and whether each
holds.
"""

from typing import List, Optional, Tuple

from interface_laws import completed
from interfaces import RUN
from links import CPL, NPR, PR, SUB_NAMES, End, Kind, Malformed, masked, nonce, number, read_tlp
from notes import KINDS, Pair, Past, Sealed, claim_at, given, on, shown_to
from stream_laws import Instances

SYNC_HEADER = bytes([0x34]) + bytes(11)


# ---- the stream that takes a TLP


def read(data: bytes) -> Optional[Tuple[Kind, bytes, bytes]]:
    try:
        return read_tlp(data)
    except Malformed:
        return None


def id_at(port: str, kind: Kind, header: bytes) -> Optional[int]:
    """The ID of a TLP: at a device's port its requester, or completer; at a host's the destination of a configuration
    request or of a message routed by ID, and the requester of a completion."""
    if port[0] == "d":
        return int.from_bytes(header[4:6], "big")
    is_routed_by_id = kind.name == "message" and header[0] % 8 == 2
    if kind.name.startswith("cfg") or kind.name == "completion" or is_routed_by_id:
        return int.from_bytes(header[8:10], "big")
    return None


def taken_by(past: Past, port: str, kind: Kind, header: bytes) -> Tuple[str, Optional[int]]:
    """How a TLP that is sent at a port is taken, and by which stream."""
    link = past.plan.links[int(port[1:])]
    address = int.from_bytes(header[8:], "big") if kind.name.startswith("mem") else None
    requester, traffic_class = id_at(port, kind, header), header[1] // 16 % 8
    ranges = {stream.id: ([stream.rid] if stream.rid else [], stream.ranges) for stream in link.streams}
    has = lambda value, rows: value is not None and any(low <= value <= high for low, high in rows)
    fits = [one for one, (ids, addresses) in ranges.items() if has(requester, ids) or has(address, addresses)]
    if fits:
        return "by range", min(fits)
    for stream in link.streams:
        if stream.default:
            return "by default", stream.id
    for stream in link.streams:
        if traffic_class in stream.tcs:
            return "by class", stream.id
    if traffic_class in link.hop_tcs:
        return "by the hop", link.hop
    return "by none", None


def goes_on(past: Past, pair: Pair) -> Tuple[str, Optional[End]]:
    """How the TLP of a `send` or a `psend` is taken, and the end that is to seal it."""
    if pair.words[0] == "psend":
        return "by its name", past.world.peers[pair.first].ends["ab".index(pair.words[2])]
    kind, header, _ = read(given_bytes(pair))
    how, stream = taken_by(past, pair.words[1], kind, header)
    return how, past.world.end_at(pair.words[1], stream) if stream is not None else None


def given_bytes(pair: Pair) -> bytes:
    return given(pair.words)


def is_send_of_tlp(pair: Pair) -> bool:
    is_send = pair.words[0] in ("send", "psend") and pair.verdict[0] != "none"
    return is_send and read(given_bytes(pair)) is not None


def choice_law(past: Past, pair: Pair) -> Instances:
    """A TLP that is sent is `plain` exactly if no stream of the link takes it, nor its hop; each packet that is sealed
    for it is of the stream that takes it, at that port. An answer, a response and a forward are never plain."""
    if pair.words[0] in ("answer", "respond", "forward"):
        yield f"{'an' if pair.words[0] == 'answer' else 'a'} {pair.words[0]}", pair.verdict[0] != "plain"
    if is_send_of_tlp(pair):
        how, end = goes_on(past, pair)
        is_plain = pair.verdict[0] == "plain"
        yield f"a TLP that is taken {how}", is_plain == (end is None) and all(one.end is end for one in pair.sealed)


def cover_law(past: Past, pair: Pair) -> Instances:
    """A TLP goes in clear only where no stream of the link is the default stream, and some traffic class is listed
    neither by a link stream nor by the hop; at a device's port only if no stream has a requester range with its owner's
    ID."""
    if pair.words[0] == "send" and pair.verdict[0] == "plain":
        port, link = pair.words[1], past.plan.links[int(pair.words[1][1:])]
        listed = set(link.hop_tcs).union(*(stream.tcs for stream in link.streams))
        takes_all = any(stream.default for stream in link.streams) or len(listed) == 8
        owner = int.from_bytes(given_bytes(pair)[4:6], "big")
        ranges = [stream.rid for stream in link.streams if stream.rid] if port[0] == "d" else []
        takes_owner = any(low <= owner <= high for low, high in ranges)
        yield f"a TLP in clear at a {'device' if port[0] == 'd' else 'host'}", not takes_all and not takes_owner


# ---- T


def exact_trust_law(past: Past, pair: Pair) -> Instances:
    """A packet that carries a TLP has T exactly so: at a host's port if a trusted `send` or an answer sealed it, at a
    device's port of a link if its owner is in RUN and its lock names the stream, on a stream between devices if the
    owner is in RUN and bound to it, at a device's port of a hop never, at a switch if it came with T. A response has it
    exactly if the oldest read that waits at the device had it, on any line. A sync packet has none."""
    for one in pair.sealed:
        if one.sync:
            yield "a sync packet", not one.t
        else:
            where, t = due_t(past, pair, one)
            yield f"{'T' if t else 'no T'}{where}", one.t == t


def due_t(past: Past, pair: Pair, one: Sealed) -> Tuple[str, bool]:
    end, on_line = one.end, f" on {KINDS[one.end.line.letter]}"
    if pair.words[0] == "respond":
        first = next(iter(past.device_reads[pair.first]), None)
        return f" of a response{on_line}", first is not None and first.t
    if end.is_at_host:
        return f" at a host{on_line}", pair.words[0] == "answer" or "trusted" in pair.words[3:]
    if end.is_at_switch:
        first = first_waiting(past, pair)
        return " at a switch", bool(first and first[2])
    owner = past.owner(end, int.from_bytes(one.packet.header[4:6], "big"))
    standing = pair.before[owner] if owner is not None else None
    if standing is None or standing.state != RUN:
        return f" at a device{on_line}", False
    streams = {"": [past.world.handles[owner].plan.stream], "p": list(standing.bindings), "h": []}
    return f" at a device{on_line}", end.plan.id in streams[end.line.letter]


# ---- when it is sealed


def first_waiting(past: Past, pair: Pair):
    """The first TLP that was accepted at a switch, on the way of a forward, and not sealed behind it."""
    link, way = pair.first, number(pair.words[2])
    entering, leaving = past.world.segments[link, way], past.world.segments[link, 1 - way]
    sent = len(past.given[leaving, way])
    return next(iter(past.taken[entering, 1 - way][sent:]), None)


def live_draw(pair: Pair, end: End, sub: int) -> Optional[int]:
    """The draw that a sub-stream is sealed under: the lesser of those that are On."""
    return min(on(pair.keys[end.port, end.plan.id][sub]), default=None)


def posted_count(past: Past, end: End, sub: int) -> int:
    """How many posted packets went before, since the last packet of the sub-stream, since the last establish."""
    base = past.base(end.line)
    places = lambda u: [
        place
        for draw, under in past.sub((end.line, end.side, u)).unders.items() if draw >= base
        for place in under.places
    ]
    last = max(places(sub), default=-1)
    return sum(place > last for place in places(PR))


def refusal(past: Past, pair: Pair, end: End, sub: int) -> List[str]:
    """What refuses a TLP of a class at an end; nothing if it is to be sealed."""
    draws = [live_draw(pair, end, u) for u in (PR, NPR, CPL)]
    under = [past.sub((end.line, end.side, u)).unders[draws[u]] if draws[u] is not None else None for u in range(3)]
    is_open = lambda u: under[u] is not None and len(under[u].opened) > 0
    syncs = []
    if sub == PR and not is_open(PR):
        syncs = [u for u in (NPR, CPL) if posted_count(past, end, u) + end.plan.mode > 255]
    if past.has_failed(end):
        return ["insecure"]
    for u in [sub] + syncs:
        if draws[u] is None:
            return ["nokey", SUB_NAMES[u]]
    if sub != PR and is_open(PR):
        return ["unfinished"]
    for u in [sub] + syncs:
        if not is_open(u) and len(under[u].units) == past.plan.units_per_key:
            return ["worn", SUB_NAMES[u], str(past.plan.units_per_key)]
    return []


def is_answered(past: Past, pair: Pair, end: End, sub: int) -> bool:
    cause = refusal(past, pair, end, sub)
    if cause:
        return pair.verdict == ["refused"] + cause
    last = pair.sealed[-1] if pair.is_sealed else None
    if last is None or last.sub != sub or [one.sync for one in pair.sealed].index(False) != len(pair.sealed) - 1:
        return False
    return all(is_in_lane(past, pair, end, one) for one in pair.sealed)


def is_in_lane(past: Past, pair: Pair, end: End, one: Sealed) -> bool:
    """A packet is under the Live key of its sub-stream, in the next unit there, with the posted count there if it is
    not posted. A sync packet ends its unit, a TLP's if no more was announced or the unit is full with it."""
    draw, under = live_draw(pair, end, one.sub), past.sub(one.lane).unders[one.draw]
    posted = 0 if one.sub == PR else posted_count(past, end, one.sub)
    has_more = pair.words[0] in ("send", "psend") and "more" in pair.words[3:]
    ends = one.sync or not has_more or len(under.opened) + 1 == end.plan.mode
    is_next = one.draw == draw and one.unit == len(under.units) + 1
    return is_next and one.packet.posted == posted and bool(one.packet.m) == ends


def send_law(past: Past, pair: Pair) -> Instances:
    """Bytes that are no TLP are malformed. A TLP that a stream takes is sealed exactly if the stream has not failed
    there, each sub-stream in which it seals has a Live key, it overtakes no unfinished posted unit, and no unit that
    would begin is one too many; else the first of these refuses it. A forward is empty exactly if all that came was
    sealed behind the switch, else it sends the first that waits. An answer is empty exactly if no read waits; else it
    is dropped exactly if the interface may not have the completion, which is sent if it may. A response is empty
    exactly if no read waits at the device; what is neither dropped nor refused until a refresh is sent at the end on
    which the read came."""
    event = pair.words[0]
    if event in ("send", "psend") and pair.verdict[0] != "none":
        tlp = read(given_bytes(pair))
        end = goes_on(past, pair)[1] if tlp else None
        if tlp is None or pair.verdict[0] == "malformed":
            yield "bytes that are no TLP", tlp is None and pair.verdict[0] == "malformed"
        elif end:
            yield f"a {event} that is {pair.verdict[0]}", is_answered(past, pair, end, tlp[0].sub)
    if event == "forward" and pair.verdict[0] != "none":
        first = first_waiting(past, pair)
        if first is None or pair.verdict[0] == "empty":
            yield "a forward that is empty", first is None and pair.verdict[0] == "empty"
        else:
            leaving = past.world.segments[pair.first, 1 - number(pair.words[2])].ends[number(pair.words[2])]
            yield f"a forward that is {pair.verdict[0]}", is_answered(past, pair, leaving, first[0])
    if event == "answer" and pair.verdict[0] != "none":
        yield f"an answer that is {pair.verdict[0]}", is_answer_due(past, pair)
    if event == "respond" and pair.verdict[0] not in ("none", "dropped") and pair.verdict[1:2] != ["refreshfirst"]:
        yield f"a response that is {pair.verdict[0]}", is_response_due(past, pair)


def is_response_due(past: Past, pair: Pair) -> bool:
    first = next(iter(past.device_reads[pair.first]), None)
    if first is None or pair.verdict[0] == "empty":
        return first is None and pair.verdict == ["empty", pair.words[1]]
    line, side = first.lane
    return is_answered(past, pair, line.ends[side], CPL)


def is_answer_due(past: Past, pair: Pair) -> bool:
    if not past.reads[pair.first] or pair.verdict[0] == "empty":
        return not past.reads[pair.first] and pair.verdict[0] == "empty"
    first = past.reads[pair.first][0]
    standing, plan = pair.before[first.owner], past.world.handles[first.owner].plan
    kind, header, _ = read(completed(past, first))
    _, stream = taken_by(past, f"h{pair.first}", kind, header)
    if standing.view != "running" or stream != plan.stream or first.read.draw < standing.floor:
        return pair.verdict[0] == "dropped"
    end = past.world.end_at(f"h{pair.first}", plan.stream)
    draw = live_draw(pair, end, CPL)
    if draw is not None and draw < standing.floor:
        return pair.verdict == ["refused", "refreshfirst", str(draw), str(standing.floor)]
    return is_answered(past, pair, end, CPL)


# ---- what it carries


def sealed_comes_from(past: Past, pair: Pair) -> Instances:
    """Each packet that is sealed is a sync packet, or carries one TLP, its header in clear and its payload masked: that
    which a `send` or a `psend` was given, the first that waits at a switch, or the completion of the oldest read that
    waits. That is, of an answer, for an interface whose view is Running, on its bound stream, both under draws from its
    floor on; of a response, at the end and on the stream on which the read came, of an interface whose BAR claims it,
    and with T of one in RUN that is bound there, both under draws from its floor there on."""
    opened: dict = {}
    for one in pair.sealed:
        under = past.sub(one.lane).unders[one.draw]
        before = opened.setdefault((one.sub, one.draw), list(under.opened))
        offset = sum(len(other.packet.body) for other in before)
        before.append(one)
        if one.sync:
            yield "a sync packet", one.packet.header + one.packet.body == SYNC_HEADER
            continue
        what, tlp = source(past, pair, one)
        is_carried = False
        if tlp is not None:
            _, header, payload = read(tlp)
            body = masked(past.key(one.lane, one.draw), nonce(one.sub, one.unit), offset, payload)
            is_carried = (one.packet.header, one.packet.body) == (header, body)
        yield what, is_carried


def source(past: Past, pair: Pair, one: Sealed) -> Tuple[str, Optional[bytes]]:
    """The TLP that a packet is to carry, if it may go out there."""
    event = pair.words[0]
    if event in ("send", "psend"):
        return f"a TLP of a {event}", given_bytes(pair) if goes_on(past, pair)[1] is one.end else None
    if event == "forward":
        way = number(pair.words[2])
        first, end = first_waiting(past, pair), past.world.segments[pair.first, 1 - way].ends[way]
        return "a TLP of a forward", first[1] if first and one.end is end else None
    if event == "respond" and past.device_reads[pair.first]:
        return "a completion of a device", completion_of_device(past, pair, one)
    if event != "answer" or not past.reads[pair.first]:
        return "a TLP of another event", None
    first = past.reads[pair.first][0]
    standing, plan = pair.before[first.owner], past.world.handles[first.owner].plan
    may = standing.view == "running" and standing.floor <= min(first.read.draw, one.draw)
    may = may and one.t and one.end is past.world.end_at(f"h{pair.first}", plan.stream)
    return "a completion", completed(past, first) if may else None


def completion_of_device(past: Past, pair: Pair, one: Sealed) -> Optional[bytes]:
    """That of the oldest read that waits at the device, with what its BAR shows, if it may go out there."""
    first = past.device_reads[pair.first][0]
    standing, line = pair.before[first.target], first.lane[0]
    claim = claim_at(past, pair.before, pair.first, first.read.address, first.read.length)
    may = claim == (first.target, first.bar) and one.end is line.ends[first.lane[1]] and one.t == first.t
    if first.t:
        floor = standing.floors.get(line.plan.id)
        may = may and standing.state == RUN and floor is not None and floor <= min(first.read.draw, one.draw)
    completer = past.world.handles[first.target].plan.rid
    return first.read.completion(shown_to(past, pair.before, first), completer) if may else None
