"""Laws of streams, keys, switches and verdicts. Each is a function, and its docstring says it.

It is given what was noted of the events before (`Past`) and an event with its verdict (`Pair`), and yields each
instance of what the law supposes, by name, and whether the law holds of it: so an instance that never comes shows as
well as one that refutes it. Laws that suppose that no tag verified on a unit that its partner had not sealed are silent
from the first such tag on, of the sub-streams and draws of which there was one.
"""

from typing import Callable, Iterator, List, Optional, Tuple

from cryptography.hazmat.primitives.ciphers import Cipher, algorithms, modes

from links import CPL, LANES, NPR, PR, SUB_NAMES, End, Line, exclusive_or, nonce, number, read_tlp
from memory import PAGE
from notes import KINDS, Keyed, Pair, Past, Sealed, Touch, Under, keys_of, kept, on, posted_before, tlps_of
from plan import Plan
from world import BINDINGS, CHANGES, OPERATIONS

NAMED = ["a port", "a packet", "a stream", "a stream between devices", "a hop", "a link", "an interface", "a binding"]
NAMED += ["trusted memory"]
Instances = Iterator[Tuple[str, bool]]


# ---- what is delivered


def draws_never_fall(past: Past, pair: Pair) -> Instances:
    """The draws of successive accepted units of a sub-stream never fall."""
    before = past.sub(pair.unit.lane).draws_got if pair.unit else []
    if before:
        is_same = before[-1] == pair.unit.draw
        yield f"the {'same' if is_same else 'next'} draw on {kind_of_line(pair)}", before[-1] <= pair.unit.draw


def kind_of_line(pair: Pair) -> str:
    return KINDS[pair.unit.end.line.letter]


def in_order(past: Past, pair: Pair, may_end: Callable) -> Optional[Tuple[int, Under]]:
    """If the packet that is next of what was sealed under a draw arrives unchanged, after all before it: the draw. Its
    key is Live, nothing of another draw is held, the stream has not failed, and if it ends its unit, this holds too."""
    arrival = pair.arrival
    if arrival is None or arrival.end is None or past.has_failed(arrival.end):
        return None
    sub = past.sub(arrival.lane)
    live = [draw for state, draw in arrival.keys if state == "live"]
    for draw in live:
        under = sub.unders[draw]
        sent = under.sent[under.got: under.got + len(under.held) + 1]
        if len(sent) <= len(under.held) or sent[-1].data != arrival.data or not under.is_front:
            continue
        are_held = [one.packet for one in sent[:-1]] == under.held
        is_alone = not any(sub.unders[other].held for other in live if other != draw)
        if are_held and is_alone and (not arrival.packet.m or may_end(past, pair, under, draw)):
            return draw, under
    return None


def meets_counts(past: Past, pair: Pair, under: Under, draw: int) -> bool:
    """The posted counts of a unit are met, and on a closed stream unit 1 has all older ones before it."""
    lane = pair.arrival.lane
    sub, posted = past.sub(lane), past.sub((lane[0], lane[1], PR))
    count = sub.posted + sum(packet.posted for packet in under.held) + pair.arrival.packet.posted
    is_met = lane[2] == PR or count <= posted.got
    return is_met and is_behind_older(past, pair, under, draw)


def is_behind_posted(past: Past, pair: Pair, under: Under, draw: int) -> bool:
    """Each posted packet of the direction that was sealed before a request or a completion has been accepted, of the
    draws since the stream was last established; what was accepted under smaller ones was sealed; and on a closed stream
    unit 1 has all older ones before it."""
    lane, base = pair.arrival.lane, past.base(pair.arrival.lane[0])
    sub, posted = past.sub(lane), past.sub((lane[0], lane[1], PR))
    ahead = posted_before(past, lane, under.sent[under.got + len(under.held)].place)
    have_come = all(count <= posted.unders[older].got for older, count in ahead)
    are_sealed = all(one.is_front for older, one in sub.unders.items() if base <= older < draw)
    return (lane[2] == PR or have_come and are_sealed) and is_behind_older(past, pair, under, draw)


def is_behind_older(past: Past, pair: Pair, under: Under, draw: int) -> bool:
    line = pair.arrival.lane[0]
    return under.units_got > 0 or not line.plan.closed or past.sub(pair.arrival.lane).is_whole(past.base(line), draw)


def is_taken(pair: Pair, draw: int, under: Under) -> bool:
    """The packet is held, or ends its unit and is accepted, as the next unit of its sub-stream under the draw."""
    end, packet = pair.arrival.end, pair.arrival.packet
    due = "accepted" if packet.m else "held"
    name = [due, end.port, str(end.plan.id), SUB_NAMES[packet.sub], "draw", str(draw), "unit", str(under.units_got + 1)]
    return pair.verdict[:8] == name and len(pair.verdict) == 8 + (len(under.held) + 1 if packet.m else 0)


def kind_taken(pair: Pair) -> str:
    end, due = pair.arrival.end, "accepted" if pair.arrival.packet.m else "held"
    return f"{due} on {KINDS[end.line.letter]}{' that is closed' if end.plan.closed else ''}"


def whole_law(past: Past, pair: Pair) -> Instances:
    """What arrives unchanged and in order is held, or ends its unit and is accepted."""
    found = in_order(past, pair, meets_counts)
    if found:
        yield kind_taken(pair), is_taken(pair, *found)


def whole_law_by_order(past: Past, pair: Pair) -> Instances:
    """What arrives unchanged and in order, and after the posted packets that were sealed before it, is held, or ends
    its unit and is accepted, whatever its posted count is; and it is no forgery."""
    found = in_order(past, pair, is_behind_posted)
    if found:
        yield kind_taken(pair), is_taken(pair, *found) and not pair.is_forged


def honest_law(past: Past, pair: Pair) -> Instances:
    """If a stream was established by an operation that began and ended at one event, since then each operation on it
    was refused as it began, or was a refresh that began and ended at one event, when all that had not come yet was of
    the current draw, no reset touched it, and each packet of it that came to an end was the next that the other end had
    sealed, over the three sub-streams, then the next one is held, or ends its unit and is accepted, and is no
    forgery."""
    honest = past.honest_next(pair)
    if honest:
        draw = honest.sealed[honest.came].draw
        under = past.sub(pair.arrival.lane).unders[draw]
        behind = " behind a refresh" if draw != honest.base else ""
        yield kind_taken(pair) + behind, is_taken(pair, draw, under) and not pair.is_forged


def honest_delivery(past: Past, pair: Pair) -> Instances:
    """And once all came that was sealed, what was accepted of each sub-stream under each draw, with what is held, is
    what was sealed."""
    honest = past.honest_next(pair)
    if honest and honest.came + 1 == len(honest.sealed):
        last = honest.sealed[honest.came]
        for sub in (PR, NPR, CPL):
            for draw, under in past.sub((*last.lane[:2], sub)).unders.items():
                if draw >= honest.base:
                    is_here = sub == last.sub and draw == last.draw
                    count = under.got + len(under.held) + is_here
                    is_open = bool(under.opened)
                    was_held = not pair.arrival.packet.m if is_here else bool(under.held)
                    name = f"{'an open unit' if is_open else 'whole units'} on {kind_of_arrival(pair)}"
                    yield name, under.is_front and count == len(under.sent) and is_open == was_held


def kind_of_arrival(pair: Pair) -> str:
    return KINDS[pair.arrival.end.line.letter]


def fresh_law(past: Past, pair: Pair) -> Instances:
    """An establish of an idle stream that ends at the event at which it begins leaves the stream just established: it
    is up under the new draw, nothing was sealed, held or accepted under a draw from that on, and it has failed at
    neither end."""
    work = pair.work
    if work and (work.name, work.operation.name) == ("establish", "idle") and pair.verdict[0].endswith("established"):
        line = work.line
        unders = [past.sub((line, *lane)).unders for lane in LANES]
        newer = [under for ones in unders for draw, under in ones.items() if draw >= work.draw]
        is_new = not any(one.sent or one.got or one.held for one in newer)
        is_up = (line.operation.name, line.operation.draw, line.draw) == ("up", work.draw, work.draw)
        yield KINDS[line.letter], is_up and is_new and not any(past.has_failed(end) for end in line.ends)


def pass_law(past: Past, pair: Pair) -> Instances:
    """A pass brings the packet that it names, unaltered, to the other end of the line on which it was sealed."""
    if pair.words[0] == "pass" and 1 <= pair.first <= len(past.sealed):
        one, came = past.sealed[pair.first - 1], pair.arrival
        is_there = came is not None and came.end is one.end.line.ends[1 - one.end.side]
        yield f"a packet of {KINDS[one.end.line.letter]}", is_there and came.data == one.data


def order_is_no_forgery(past: Past, pair: Pair) -> Instances:
    """What arrives unchanged and in order is no forgery."""
    if in_order(past, pair, meets_counts) and pair.arrival.packet.m:
        yield f"a tag on {KINDS[pair.arrival.end.line.letter]}", not pair.is_forged


def count_law(past: Past, pair: Pair) -> Instances:
    """The posted counts that a non-posted or completion sub-stream got since the stream was last established sum to no
    more than the posted packets that were got."""
    unit = pair.unit
    if unit and unit.sub != PR and unit.draw >= past.base(unit.end.line):
        line, direction, _ = unit.lane
        came = sum(one.packet.posted for one in unit.packets)
        kind = f"{'a count' if came else 'no count'} on {kind_of_line(pair)}"
        yield kind, past.sub(unit.lane).posted + came <= past.sub((line, direction, PR)).got


def prefix_law(past: Past, pair: Pair) -> Instances:
    """Key by key, each sub-stream got a prefix of what was sealed, if no tag of it was forged under the key; the draws
    of its accepted units never fall; and on a closed stream a unit is accepted after all that was sealed under each
    smaller draw since the stream was last established, if no tag of its sub-stream was forged under a draw since
    then."""
    unit = pair.unit
    if not unit:
        return
    sub, kind = past.sub(unit.lane), kind_of_line(pair)
    if not past.is_forged_under(unit.lane, unit.draw):
        yield f"a unit on {kind}", sub.unders[unit.draw].is_front and all(one.is_as_sealed for one in unit.packets)
    if sub.draws_got:
        yield f"a draw on {kind}", sub.draws_got[-1] <= unit.draw
    base = past.base(unit.end.line)
    older = [draw for draw, under in sub.unders.items() if base <= draw < unit.draw and (under.sent or under.got)]
    if unit.end.plan.closed and older and not past.is_forged_from(unit.lane, base):
        yield "an older draw on a closed stream", sub.is_whole(base, unit.draw)


def delivery_law(past: Past, pair: Pair) -> Instances:
    """If no tag of the sub-stream was forged under a key, the TLPs that were delivered under it are a prefix of those
    that were sent under it, with header and payload."""
    if pair.unit and not past.is_forged_under(pair.unit.lane, pair.unit.draw):
        under, came = past.sub(pair.unit.lane).unders[pair.unit.draw], [tlp for _, tlp, _ in tlps_of(pair.unit)]
        first = under.tlps_got
        kind = f"{'TLPs' if len(came) > 1 else 'a TLP' if came else 'no TLP'} on {kind_of_line(pair)}"
        yield kind, under.tlps[first: first + len(came)] == came


def order_law(past: Past, pair: Pair) -> Instances:
    """When a unit of a non-posted or completion sub-stream is accepted, each posted packet that was sealed before a
    packet of it had been accepted, of the draws since the stream was last established, if under these no tag of both
    sub-streams was forged; on an open stream, if nothing of an overtaken key is missing."""
    unit = pair.unit
    if not unit or unit.sub == PR:
        return
    line, direction, _ = unit.lane
    base = past.base(line)
    if any(past.is_forged_from(lane, base) for lane in (unit.lane, (line, direction, PR))):
        return
    sub, posted = past.sub(unit.lane), past.sub((line, direction, PR))
    is_missing = not sub.is_whole(base, unit.draw) or not posted.is_whole(base, max(posted.draws_got, default=0))
    sent = sub.unders[unit.draw].sent[: sub.unders[unit.draw].got + len(unit.packets)]
    if sent and (line.plan.closed or not is_missing):
        ahead = posted_before(past, unit.lane, sent[-1].place)
        kind = f"{'a unit' if any(count for _, count in ahead) else 'the first unit'} on {kind_of_line(pair)}"
        kind += " that is closed" if line.plan.closed else ""
        yield kind, all(count <= posted.unders[draw].got for draw, count in ahead)


# ---- keys


def operations_settle(past: Past, pair: Pair) -> Instances:
    """At an established or refreshed verdict the draw of the operation is On in all places of the stream; at the first
    no other draw is kept there, at the second only smaller ones are On. At a stopped verdict none is kept."""
    work, done = pair.work, pair.verdict[0]
    if not work or not done.endswith(("established", "refreshed", "stopped")):
        return
    held = [keys_of(end, *lane) for end in work.line.ends for lane in LANES]
    kind = f"{done}{'' if work.begins else ' at last'}"
    if done.endswith("stopped"):
        yield kind, not any(kept(keys) for keys in held)
        return
    is_on = all(is_on_in(keys, work.key_set, work.draw) for keys in held) and int(pair.verdict[-1]) == work.draw
    if done == "refreshed":
        yield kind, is_on and all(draw <= work.draw for keys in held for draw in on(keys))
    else:
        yield kind, is_on and all(draw == work.draw for keys in held for draw in kept(keys))


def is_on_in(keys: List[Keyed], key_set: int, draw: int) -> bool:
    return keys[key_set][0] in ("armed", "live") and keys[key_set][1] == draw


def stream_stays_secure(past: Past, pair: Pair) -> Instances:
    """A stream that is Secure at a port before an event of a refresh is Secure there after each exchange of the event,
    and after the event."""
    if pair.work and pair.work.name == "refresh":
        for end, status in zip(pair.work.line.ends, pair.work.status):
            if status == "secure":
                within = [touch.status for touch in pair.touches if touch.place[1] == end.side]
                yield f"a refresh that is {pair.verdict[0]}", set(within + [end.status()]) == {"secure"}


def keys_follow_operations(past: Past, pair: Pair) -> Instances:
    """On a stream of which nothing was asked no key is kept. While one is established each place that its GO reached
    has the draw On, and no place keeps another; once it is up its draw is On in all places, and no greater one; while
    it is refreshed the new draw is On where its GO came. A draw is kept in one set, and on one stream."""
    if pair.work or pair.verdict[0] == "reset":
        lines = [pair.work.line] if pair.work else [line for line in past.world.lines() if is_of(line, pair.first)]
        for line in lines:
            places = [(end, *lane, keys_of(end, *lane)) for end in line.ends for lane in LANES]
            yield f"a stream that is {line.letter}{line.operation.name}", all(
                stands(line, end, lane, keys) for end, *lane, keys in places
            )
            yield "the draws of a stream", are_of_one(past, line, [keys for *_, keys in places])
        return
    ends = [(one.end, one.end.side, one.sub) for one in pair.sealed]
    ends += [(pair.unit.end, 1 - pair.unit.end.side, pair.unit.sub)] if pair.unit else []
    for end, *lane in ends:
        yield "a place of a packet", stands(end.line, end, lane, keys_of(end, *lane))


def is_of(line: Line, link: int) -> bool:
    return any(end.link == link for end in line.ends)


def stands(line: Line, end: End, lane: List[int], keys: List[Keyed]) -> bool:
    """What a place keeps is what the manager's state of the stream says."""
    operation = line.operation
    name, draw = operation.name, operation.draw
    if name == "idle":
        return not kept(keys)
    has_gone = go_number(line, end.side, lane, name) < operation.exchange
    if name == "establish":
        return (not has_gone or is_on_in(keys, 0, draw)) and all(one == draw for one in kept(keys))
    if name == "up":
        return is_on_in(keys, operation.key_set, draw) and all(one <= draw for one in on(keys))
    return name != "refresh" or not has_gone or is_on_in(keys, operation.key_set, draw)


def go_number(line: Line, side: int, lane: List[int], name: str) -> int:
    """The exchange that makes a key of this place On; a host's port goes on once its exchange is acknowledged."""
    direction, sub = lane
    receives = direction != side
    place = sub if receives else 3 + sub
    if line.is_hosted:
        return (10 if side == 0 else 8 + place) - (name == "refresh")
    return (13 if receives else 16) + place + (0 if side == 0 else 3)


def are_of_one(past: Past, line: Line, places: List[List[Keyed]]) -> bool:
    """Each draw that a line keeps is in one set, and on no other line."""
    sets = {(draw, key_set) for keys in places for key_set, (state, draw) in enumerate(keys) if state != "empty"}
    draws = {draw for draw, _ in sets}
    past.kept[line] = draws
    shared = [one for one, other in past.kept.items() if one is not line and draws & other]
    return len(draws) == len(sets) and not any(draws & kept_on(one) for one in shared)


def kept_on(line: Line) -> set:
    return {draw for end in line.ends for lane in LANES for draw in kept(keys_of(end, *lane))}


def set_go_finds_key(past: Past, pair: Pair) -> Instances:
    """Each GO that reaches a place finds its draw kept there, in the set that it names."""
    for touch in pair.touches:
        if touch.what == "go":
            yield f"a GO on {KINDS[touch.place[0].letter]}", touch.found


def ended_keys_stay_out(past: Past, pair: Pair) -> Instances:
    """A draw that was On at a place, and then was kept in neither set, is kept in neither at any later moment, also
    between the exchanges of one event; and once its GO came a draw is kept at a place only while it is On there."""
    for touch in moments(past, pair):
        stays, is_on = past.moment(touch)
        what = touch.what if touch.what in ("program", "go", "stop") else "another touch"
        yield f"a {what}" if what != "another touch" else what, stays and is_on


def moments(past: Past, pair: Pair) -> Iterator[Touch]:
    """All that touched places of keys in an event, with what they hold after it."""
    yield from pair.touches
    ends = [(one.end, one.end.side, one.sub) for one in pair.sealed]
    ends += [(pair.unit.end, 1 - pair.unit.end.side, pair.unit.sub)] if pair.unit else []
    if pair.verdict[0] == "reset":
        ends += [(end, *lane) for line in past.world.lines() if is_of(line, pair.first) for end in line.ends
                 for lane in LANES]
    for end, *lane in ends:
        yield Touch("packet", (end.line, end.side, *lane), True, keys_of(end, *lane))


# ---- numbers


def numbers_fresh(past: Past, pair: Pair) -> Instances:
    """The number of a packet's unit is one more than the units that were finished before it in its sub-stream and draw;
    two packets that were sealed under one key with one IV are of one unit."""
    for one in pair.sealed:
        under = past.sub(one.lane).unders[one.draw]
        yield f"a number on {KINDS[one.end.line.letter]}", one.unit == len(under.units) + 1
        before = past.ranges.get((past.key(one.lane, one.draw), nonce(one.sub, one.unit)))
        if before:
            other = before[0]
            is_one = (other.lane, other.draw, other.unit) == (one.lane, one.draw, one.unit)
            yield "a key and an IV again", is_one and not other.packet.m


def keystream_fresh(past: Past, pair: Pair) -> Instances:
    """The body of a packet is its payload, masked by the key stream from behind the payloads of the unit's packets
    before it; so ranges under one key with one IV are apart. The counter of each byte's block is none of those before
    it."""
    for one in pair.sealed:
        under, key = past.sub(one.lane).unders[one.draw], past.key(one.lane, one.draw)
        offset = sum(len(other.packet.body) for other in under.opened)
        payload = b"" if one.sync else read_tlp(one.tlp)[2]
        before = past.ranges.get((key, nonce(one.sub, one.unit)))
        is_apart = before is None or before[1] <= offset
        is_masked = one.packet.body == exclusive_or(payload, key_stream(key, one, offset, payload))
        if payload:
            kind = "a payload" if not offset else "a payload behind another one"
            kind += "" if offset + len(payload) <= 4096 else ", past 256 blocks"
            yield kind, is_masked and is_apart and 2 + (offset + len(payload) - 1) // 16 < 2**32
        else:
            yield "no payload", is_masked and is_apart


def key_stream(key: bytes, one: Sealed, offset: int, payload: bytes) -> bytes:
    """As many bytes of key stream, from an offset on: the cipher of one counter block after another (SP 800-38D section
    6.5)."""
    counter = nonce(one.sub, one.unit) + (2 + offset // 16).to_bytes(4, "big")
    stream = Cipher(algorithms.AES(key), modes.CTR(counter)).encryptor()
    return stream.update(bytes(offset % 16 + len(payload)))[offset % 16:] if payload else b""


# ---- switches


def hop_law(past: Past, pair: Pair) -> Instances:
    """Since the last reset of its link, what a switch sealed at one side are the first TLPs that it had accepted at the
    other, in one order, with the same bytes and T. If each segment had one draw at most since then: in each sub-stream
    of which no tag was forged under these, what was accepted behind the switch is a prefix of what was sealed before
    it."""
    for one in pair.sealed:
        if one.end.is_at_switch and not one.sync:
            link, side = one.end.link, one.end.side
            entering = past.world.segments[link, int(one.end.port[0] == "u")]
            sent = len(past.given[one.end.line, side])
            came = past.taken[entering, 1 - side][sent: sent + 1]
            yield f"a TLP that is forwarded{' with T' if one.t else ''}", came == [(one.sub, one.tlp, one.t)]
    unit = pair.unit
    if not unit or unit.end.line.letter != "h" or unit.end.is_at_switch:
        return
    segments = [past.world.segments[unit.end.link, segment] for segment in (0, 1)]
    is_forged = any(past.is_forged_since_reset(line, unit.lane[1], (unit.sub,)) for line in segments)
    if not is_forged and all(len(past.hop_draws[line]) <= 1 for line in segments):
        first = segments[0] if unit.end.line is segments[1] else segments[1]
        side = 1 - unit.end.side
        was = [tlp for tlp in past.given[first, side] if tlp[0] == unit.sub]
        got = [tlp for tlp in past.taken[unit.end.line, unit.end.side] if tlp[0] == unit.sub] + tlps_of(unit)
        yield "a TLP behind a switch", was[: len(got)] == got


# ---- single verdicts


def failed_law(past: Past, pair: Pair) -> Instances:
    """While a stream is failed at a port, nothing of it is sealed, held, accepted or failed there."""
    ends = [one.end for one in pair.sealed]
    if pair.verdict[0] in ("held", "accepted", "fail", "insecure"):
        ends = [past.world.end_at(pair.verdict[1], int(pair.verdict[2]))]
    for end in ends:
        if past.has_failed(end):
            what = "a send" if pair.is_sealed else "an arrival"
            yield f"{what} on {KINDS[end.line.letter]}", pair.verdict[0] == "insecure"
    if pair.verdict[:2] == ["refused", "insecure"]:
        yield f"{'an' if pair.words[0] == 'answer' else 'a'} {pair.words[0]}", True


def named_law(past: Past, pair: Pair) -> Instances:
    """A verdict is `none` exactly if something that its event names does not exist: a stream on its line, a link, a
    hop, a port, an interface, a register of it, a stream between its device and another, bytes of trusted memory in one
    region or of a BAR, a packet that was sealed, or a byte of it."""
    kind, is_there = named(past, pair.words[0], pair.words[1:])
    yield f"{kind} that is {'there' if is_there else 'not there'}", (pair.verdict[0] != "none") == is_there


def named(past: Past, event: str, rest: List[str]) -> Tuple[str, bool]:
    """What an event names, and whether all of it exists."""
    plan = past.plan
    if event in ("send", "arrive"):
        return "a port", has_port(plan, rest[0])
    if event in ("pass", "dump", "alter", "cut"):
        return "a packet", has_bytes_of_packet(past, event, rest)
    if event in ("psend", "pestablish", "pstop"):
        return "a stream between devices", number(rest[0]) < len(plan.p2p)
    if event in OPERATIONS + BINDINGS + CHANGES + ["view", "mmio"]:
        return ("a binding" if event in BINDINGS else "an interface"), has_interface(past, event, rest)
    numbers = [number(word) for word in rest[:2]]
    if event == "memory":
        inside = [one.base <= numbers[0] and sum(numbers[:2]) <= one.base + one.size for one in plan.memory]
        return "trusted memory", any(inside)
    link = plan.links[numbers[0]] if numbers[0] < len(plan.links) else None
    if event in ("reset", "answer", "respond"):
        return "a link", link is not None
    if event in ("hestablish", "hstop", "forward"):
        return "a hop", link is not None and link.hop is not None and numbers[1] < 2
    return "a stream", link is not None and numbers[1] in [stream.id for stream in link.streams]


def has_port(plan: Plan, port: str) -> bool:
    link = int(port[1:])
    return link < len(plan.links) and (port[0] in "hd" or plan.links[link].hop is not None)


def has_bytes_of_packet(past: Past, event: str, rest: List[str]) -> bool:
    """A packet that was sealed; `alter` names one of its bytes, `cut` how many of them."""
    if not 1 <= number(rest[0]) <= len(past.sealed):
        return False
    length = len(past.sealed[number(rest[0]) - 1].data)
    return number(rest[1]) < length + (event == "cut") if event in ("alter", "cut") else True


def has_interface(past: Past, event: str, rest: List[str]) -> bool:
    """An interface, and what else the event names of it."""
    if number(rest[0]) >= len(past.world.handles):
        return False
    handle = past.world.handles[number(rest[0])]
    if event in BINDINGS:
        return any(handle.link in (peer.a, peer.b) for peer in past.plan.p2p[number(rest[1]):][:1])
    if event == "write" and rest[1].startswith("bar"):
        return int(rest[1][3:]) < len(handle.plan.bars)
    if event == "mmio":
        bars = handle.plan.bars[number(rest[1]):][:1]
        return any(number(rest[2]) + number(rest[3]) <= PAGE * bar.pages for bar in bars)
    return True
