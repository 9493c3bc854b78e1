"""Laws of reads that wait at devices' ports, and of the completions that answer them. Each is a function as those of
stream_laws.py are."""

from typing import List, Optional

from interfaces import RUN, UNLOCKED
from interface_laws import MOST_WAITING_BY_RULE, is_asked_for, is_in_no_other_run, is_unforged
from links import CPL
from memory import PAGE, WaitingRead
from notes import KINDS, Arrived, Pair, Past, QueuedAtDevice, Standing, access_cause, claim_at, is_open, shown_to
from sending_laws import is_answered, live_draw
from stream_laws import Instances


def first_of(past: Past, pair: Pair) -> Optional[QueuedAtDevice]:
    """The oldest read that waits at the device of the event's link."""
    waiting = past.device_reads[pair.first]
    return waiting[0] if waiting else None


def device_read_law(past: Past, pair: Pair) -> Instances:
    """What responses took at a device since its last reset, sealed or dropped, is a prefix of what was queued there, in
    order, and no more than 64 wait. A response seals one packet, which ends its unit: the completion of the oldest
    read, by the requester ID of its interface, with the bytes that stand behind the BAR then, on the stream and at the
    end on which the read came, with T as the read had it."""
    if pair.words[0] == "respond" and pair.verdict[0] in ("sealed", "dropped"):
        first = first_of(past, pair)
        if first is None:
            yield "a read that is taken", False
        elif pair.verdict[0] == "dropped":
            yield "a read that is dropped", pair.verdict[1] == str(first.target)
        else:
            kind = f"a response {'with' if first.t else 'without'} T on {KINDS[first.lane[0].letter]}"
            yield kind, is_response(past, pair, first)
    for link in [pair.unit.end.link] if pair.unit and pair.unit.end.is_at_device else []:
        more = sum(one.effect == "queued" for one in pair.unit.packets)
        if more:
            yield "reads that wait", len(past.device_reads[link]) + more <= MOST_WAITING_BY_RULE


def is_response(past: Past, pair: Pair, first: QueuedAtDevice) -> bool:
    last = pair.sealed[-1]
    completion = first.read.completion(shown_to(past, pair.before, first), past.world.handles[first.target].plan.rid)
    is_there = len(pair.sealed) == 1 and (last.end.line, last.end.side) == first.lane
    is_last = last.packet.m == 1 and not last.sync and last.sub == CPL
    return is_there and is_last and last.t == first.t and last.tlp == completion


def device_effect_law(past: Past, pair: Pair) -> Instances:
    """Of a unit that a device's port accepted exactly those memory reads are queued, and those blocked by each cause,
    that the rules name; others are delivered. Nothing else is queued there."""
    if not pair.unit or not pair.unit.end.is_at_device:
        return
    waiting = len(past.device_reads[pair.unit.end.link])
    for one in pair.unit.packets:
        if one.kind == "memread":
            due = read_effect(past, pair, one, waiting)
            waiting += due == "queued"
            yield f"{due} on {KINDS[pair.unit.end.line.letter]}", one.effect == due
        else:
            yield "no read", one.effect != "queued"


def read_effect(past: Past, pair: Pair, one: Arrived, waiting: int) -> str:
    unit, read = pair.unit, WaitingRead(one.header, pair.unit.draw)
    claim = claim_at(past, pair.before, unit.end.link, read.address, read.length)
    if claim is None or not past.world.handles[claim[0]].plan.reads:
        return "delivered"
    cause = "crosses" if read.address // PAGE != (read.address + read.length - 1) // PAGE else None
    cause = cause or access_cause(past, pair, claim, bool(one.packet.t), unit.end.plan.id, unit.draw)
    cause = cause or ("full" if waiting >= MOST_WAITING_BY_RULE else None)
    return f"blocked:{cause}" if cause else "queued"


def respond_law(past: Past, pair: Pair) -> Instances:
    """A response is `none`, `empty`, `dropped` by each cause, and `refused refreshfirst` exactly as the rules name;
    else its completion is sealed, or refused by the first that refuses a send at the end on which the read came."""
    if pair.words[0] != "respond":
        return
    due = response_due(past, pair)
    if due is None:
        line, side = first_of(past, pair).lane
        yield f"{'sealed' if pair.is_sealed else 'refused as a send'}", is_answered(past, pair, line.ends[side], CPL)
    else:
        named = [due[0]] + [word for word in due[1:] if not word.isdigit()]
        yield " ".join(named), pair.verdict == due


def response_due(past: Past, pair: Pair) -> Optional[List[str]]:
    if pair.first >= len(past.plan.links):
        return ["none"]
    first = first_of(past, pair)
    if first is None:
        return ["empty", str(pair.first)]
    claim = claim_at(past, pair.before, pair.first, first.read.address, first.read.length)
    stream = first.lane[0].plan.id
    if claim != (first.target, first.bar):
        return ["dropped", str(first.target), "moved"]
    cause = access_cause(past, pair, claim, first.t, stream, first.read.draw)
    if cause:
        return ["dropped", str(first.target), cause]
    draw = live_draw(pair, first.lane[0].ends[first.lane[1]], CPL)
    if first.t and draw is not None and draw < pair.before[first.target].floors[stream]:
        return ["refused", "refreshfirst", str(draw), str(pair.before[first.target].floors[stream])]
    return None


def exposure_law(past: Past, pair: Pair) -> Instances:
    """If a packet that a response sealed has a byte of a BAR that is not open, of an interface that is not in
    CONFIG_UNLOCKED before the event: the packet has T, the interface is in RUN, bound to the packet's stream, the
    packet's draw is from its floor there on, and the read came under the lock that stands."""
    first = first_of(past, pair) if pair.words[0] == "respond" and pair.is_sealed else None
    if first is None:
        return
    claim = claim_at(past, pair.before, pair.first, first.read.address, first.read.length)
    has_bytes = any(first.read.is_enabled(place) for place in range(first.read.length))
    if claim is None or not has_bytes or is_open(past, *claim) or pair.before[claim[0]].state == UNLOCKED:
        return
    now, last = pair.before[claim[0]], pair.sealed[-1]
    floor = now.floors.get(last.end.plan.id)
    is_guarded = last.t and now.state == RUN and floor is not None and floor <= last.draw
    kind = "a packet of a later lock" if now.locks > 1 else "a packet"
    yield kind, is_guarded and first.target == claim[0] and first.locks == now.locks


def device_read_origin_law(past: Past, pair: Pair) -> Instances:
    """If no tag of its sub-stream and draw was forged: each trusted read that is queued at a device was given to a
    trusted send at the host's port of the link, or to a send at the other device while its owner was in RUN and bound
    to the stream, and from then on until it is answered the interface was in no other RUN. Nor is it from before it was
    queued on, whatever was forged."""
    for one in pair.unit.packets if is_unforged(past, pair) and pair.unit.end.is_at_device else []:
        read = WaitingRead(one.header, pair.unit.draw) if one.effect == "queued" and one.packet.t else None
        claim = read and claim_at(past, pair.before, pair.unit.end.link, read.address, read.length)
        if read:
            kind = "another device" if pair.unit.end.line.letter == "p" else "the host"
            yield f"a read of {kind}", claim is not None and is_asked_for(past, pair, claim[0], one)
    first = first_of(past, pair) if pair.words[0] == "respond" and pair.is_sealed else None
    if first and first.t:
        yield "a response", is_answered_in_run(first, pair.before[first.target])


def is_answered_in_run(first: QueuedAtDevice, now: Standing) -> bool:
    is_same = all(was is None or is_in_no_other_run(was, now) for was in (first.standing, first.sent))
    return now.state == RUN and is_same


def response_origin_law(past: Past, pair: Pair) -> Instances:
    """If no tag of its sub-stream and draw was forged: a completion with T that the host's port accepts, on the stream
    of an interface's lock, and that a response of that interface sealed, has the bytes that its memory held then, in
    RUN, and in no other since the read was sent."""
    if not is_unforged(past, pair) or not pair.unit.end.is_at_host or pair.unit.sub != CPL:
        return
    for one in pair.unit.packets:
        was = past.responses.get(one.sealed.place) if one.sealed and one.packet.t else None
        if was is None or was.standing.stream != pair.unit.end.plan.id:
            continue
        read, kind = was.of.read, "a completion with bytes" if any(one.payload) else "a completion of zeros"
        places = [place for place in range(read.length) if read.is_enabled(place)]
        is_held = all(one.payload[place] == was.contents[place] for place in places)
        is_whole = len(one.payload) == read.length and one.is_as_sealed
        yield kind, is_held and is_whole and is_answered_in_run(was.of, was.standing)
