"""Laws of interfaces, of their locks and views, of memory and of what is read of it. Each is a function as those of
stream_laws.py are."""

from typing import Dict, List, Optional, Tuple

from interfaces import ERROR, KEEP_CACHE_LINE, LOCK_MSIX, LOCKED, NO_FIRMWARE, RUN, UNLOCKED, report_bytes
from links import CPL, Packet, masked, nonce, number, read_tlp
from notes import KINDS, Arrived, Pair, Past, QueuedRead, Standing, Written, asks, given, is_admitted, is_bound_from
from notes import is_open, stored_bytes, stored_writes, takes, zeroed
from plan import InterfacePlan
from stream_laws import Instances

LISTED = ["tph", "lnr", "pasid", "ats", "bar0", "bar1", "bar2", "bar3", "bar4", "bar5"]


def each(pair: Pair):
    """How each interface stood before an event, and stands after it."""
    return enumerate(zip(pair.before, pair.after))


# ---- registers, reports, locks


def run_law(past: Past, pair: Pair) -> Instances:
    """Locked and in RUN, the listed registers are those that were locked. A report is that of the registers as they
    were locked. A listed change, a level reset, and a firmware update that lock flag 0 forbids, show state 3."""
    for place, (was, now) in each(pair):
        if now.is_locked and (now.registers != was.registers or not was.is_locked):
            flags = past.world.handles[place].plan.flags
            kind = "registers that were written" if was.is_locked else "registers at a lock"
            yield kind, bool(now.locked) and listed(flags, now.registers) == listed(flags, now.locked)
    event, name = pair.words[0], pair.verdict[0]
    if name == "reported":
        plan, was = past.world.handles[pair.first].plan, pair.before[pair.first]
        yield "a report", pair.verdict[2] == report_of(plan, was)
    if name in ("written", "flr", "firmware") and pair.before[pair.first].is_locked:
        flags, was = past.world.handles[pair.first].plan.flags, pair.before[pair.first].registers
        changes = event == "flr" or event == "firmware" and flags & NO_FIRMWARE
        if event == "write":
            then = {**was, pair.words[2]: number(pair.words[3])}
            changes = listed(flags, then) != listed(flags, was)
        if changes:
            yield f"a {event} that a lock forbids", pair.verdict[2] == str(ERROR)


def report_of(plan: InterfacePlan, standing: Standing) -> Optional[str]:
    """The report of the registers as they stood at the last lock; None if it was never locked."""
    return report_bytes(plan, standing.locked, plan.flags, plan.offset).hex() if standing.locked else None


def listed(flags: int, registers: Dict[str, int]) -> List[Optional[int]]:
    """What a lock with these flags keeps of registers."""
    command = registers["command"]
    values = [command >> 1 & 1, command >> 2 & 1] + [registers.get(name) for name in LISTED]
    values.append(registers["msix"] if flags & LOCK_MSIX else None)
    return values + [registers["cacheline"] if flags & KEEP_CACHE_LINE else None]


def reports_are_shown(past: Past, pair: Pair) -> Instances:
    """An interface in RUN was reported since its lock: some earlier verdict shows the report of exactly the registers
    that are locked now."""
    for place, (was, now) in each(pair):
        if now.state == RUN and was is not now:
            plan = past.world.handles[place].plan
            report = report_of(plan, now)
            kind = "a RUN" if len(now.runs) < 2 else "a later RUN"
            yield kind, (place, now.locks, report) in past.reported


def lock_law(past: Past, pair: Pair) -> Instances:
    """While an interface is in CONFIG_LOCKED or RUN, its stream is Secure at the device's port; and so is each stream
    between devices that it is bound to: one that leaves Secure ends the lock in the same event."""
    for place, now in enumerate(pair.after):
        if now.is_locked:
            yield "a lock", is_secure(past, place, past.world.handles[place].plan.stream)
        for stream in now.bindings:
            yield "a binding", is_secure(past, place, stream)


def is_secure(past: Past, interface: int, stream: int) -> bool:
    end = past.device_end(interface, stream)
    return end is not None and end.status() == "secure"


def bind_law(past: Past, pair: Pair) -> Instances:
    """An interface is bound to streams between devices in CONFIG_LOCKED and RUN alone."""
    for now in pair.after:
        if now.bindings:
            yield f"a binding in state {now.state}", now.is_locked


def unlocked_is_scrubbed(past: Past, pair: Pair) -> Instances:
    """Whatever takes an interface to CONFIG_UNLOCKED leaves each byte 0, of those that the stored writes left, of its
    BARs that are not open."""
    for place, (was, now) in each(pair):
        if was.state != UNLOCKED and now.state == UNLOCKED:
            bars = [bar for bar in range(len(past.world.handles[place].plan.bars)) if not is_open(past, place, bar)]
            full = [(place, bar) for bar in bars if any(past.stored[place, bar].values())]
            kind = f"a {pair.words[0]}{' over bytes' if full else ''}"
            yield kind, not full or set(full) <= set(zeroed(past, pair))


# ---- views


def trusted_packets_fit_view(past: Past, pair: Pair) -> Instances:
    """While the view is Unlocked or Locked, or no START was asked since LOCK was last asked, the interface is not in
    RUN, and each packet with T that it sent on its stream has a draw below the one that it needs. While the view is
    Running, START was asked, and each such packet of a draw from the floor on was sealed in RUN under this lock."""
    for place, (was, now) in each(pair):
        if was is now and not pair.sealed:
            continue
        trusted = past.trusted[place]
        beside = " over packets with T" if trusted else ""
        rests = now.state != RUN and max(trusted, default=-1) < now.needs
        if now.view in ("unlocked", "locked"):
            yield f"a view {now.view}{beside}", rests
        if not now.is_started:
            yield f"no START{beside}", rests
        if now.view == "running":
            since = [one for draw, ones in trusted.items() if draw >= now.floor for one in ones]
            kind = f"a view running{' over packets with T' if since else ''}"
            yield kind, now.is_started and all(one == (True, now.locks) for one in since)


def views_are_true(past: Past, pair: Pair) -> Instances:
    """The view Unlocked means that the interface is in CONFIG_UNLOCKED, Locked that it is in CONFIG_LOCKED or ERROR,
    Running that it is in RUN or ERROR."""
    states = {"unlocked": (UNLOCKED,), "locked": (LOCKED, ERROR), "running": (RUN, ERROR)}
    for was, now in zip(pair.before, pair.after):
        if now.view in states and was is not now:
            yield f"a view {now.view}{' in ERROR' if now.state == ERROR else ''}", now.state in states[now.view]


def one_lock_per_key(past: Past, pair: Pair) -> Instances:
    """Two packets of one interface that are applied or queued under one draw are so under one lock."""
    for one in pair.unit.packets if pair.unit else []:
        if one.effect in ("applied", "queued") and pair.unit.end.is_at_host:
            owner = past.owner(pair.unit.end, one.requester)
            if (owner, pair.unit.draw) in past.admitted and owner is not None:
                locks = pair.before[owner].locks
                kind = "two packets" if locks < 2 else "two packets of a later lock"
                yield kind, past.admitted[owner, pair.unit.draw] == locks


# ---- trusted memory


def memory_law(past: Past, pair: Pair) -> Instances:
    """Of an accepted unit exactly those packets are applied whose writes are admitted: they have T, their requester is
    an interface of the link whose view is Running, on its bound stream, under a draw from its floor on, and their bytes
    are in one region and in one page. Each byte that is shown is that of the last admitted write that enables it, else
    0."""
    if pair.unit:
        due = [is_admitted(past, pair, one) for one in pair.unit.packets]
        is_as_due = due == [one.effect == "applied" for one in pair.unit.packets] and pair.writes == sum(due)
        yield f"{'writes' if sum(due) > 1 else 'a write' if any(due) else 'no write'} of a unit", is_as_due
    if pair.verdict[0] == "memory":
        at, length = number(pair.words[1]), number(pair.words[2])
        shown = past.read(at, length)
        yield f"memory {'with bytes' if any(shown) else 'of zeros'}", pair.verdict[1] == shown.hex()


def effect_law(past: Past, pair: Pair) -> Instances:
    """Of an accepted unit exactly those packets are queued that are trusted reads which the manager grants, in one
    region and in one page, while fewer than 64 wait on the link; while 64 wait, exactly those are blocked as `full`.
    Exactly those packets are stored that a BAR claims, that cross no page, and that have T in RUN, on a stream that the
    interface is bound to, under a draw from its floor there on; or have no T, and the BAR is open or the interface in
    CONFIG_UNLOCKED. Exactly those wait that come to a switch, but for sync packets. Of reads at a device's port
    device_effect_law speaks."""
    if not pair.unit:
        return
    end, kind = pair.unit.end, KINDS[pair.unit.end.line.letter]
    waiting = len(past.reads[end.link])
    for one in pair.unit.packets:
        due = None
        if end.is_at_host and asks(past, pair, one):
            due = "queued" if waiting < MOST_WAITING_BY_RULE else "blocked:full"
            waiting += 1
        elif end.is_at_device and one.kind == "memread":
            continue
        elif end.is_at_device and takes(past, pair, one):
            due = "stored"
        elif end.is_at_switch and one.kind != "sync":
            due = "waiting"
        shown = one.effect if one.effect in ("queued", "blocked:full", "stored", "waiting") else None
        yield f"{due or 'another effect'} on {kind}", shown == due


def origin_law(past: Past, pair: Pair) -> Instances:
    """If no tag of its sub-stream and draw was forged: a packet whose write is admitted is the one at the same place of
    what was sealed there, before which the interface of its requester ID was in RUN, under as many locks as now."""
    if is_unforged(past, pair):
        for one in pair.unit.packets:
            if is_admitted(past, pair, one):
                yield "a write", is_from(past, pair, one)


def is_unforged(past: Past, pair: Pair) -> bool:
    """A unit is accepted, and no tag of its sub-stream and draw was forged."""
    return pair.unit is not None and not past.is_forged_under(pair.unit.lane, pair.unit.draw)


def is_from(past: Past, pair: Pair, one: Arrived) -> bool:
    """A packet was sealed by the interface of its requester ID, for which it is granted, in the RUN that it is in."""
    owner = past.owner(pair.unit.end, one.requester)
    if owner is None or not one.is_as_sealed:
        return False
    now, was, plan = pair.before[owner], one.sealed.before[owner], past.world.handles[owner].plan
    is_running = now.view == "running" and now.floor <= pair.unit.draw and plan.stream == pair.unit.end.plan.id
    return is_running and was.state == RUN and was.locks == now.locks


def byte_origin(past: Past, pair: Pair) -> Instances:
    """Each byte of trusted memory that is shown and is not 0 is that of the last admitted write; if no tag of the
    sub-stream and draw had been forged under which that came, it was given to a send at the device's port of the link,
    by the interface of its requester ID, while that was in the RUN in which it was admitted."""
    for address, byte in shown_bytes(pair):
        written = past.memory.get(address)
        if byte and not (written and written.is_forged):
            yield "a byte", written is not None and was_given(past, written, address, byte)


def shown_bytes(pair: Pair) -> List[Tuple[int, int]]:
    """The addresses of trusted memory that a verdict shows, with their bytes."""
    if pair.verdict[0] != "memory":
        return []
    first = number(pair.words[1])
    return [(first + place, byte) for place, byte in enumerate(bytes.fromhex(pair.verdict[1]))]


def was_given(past: Past, written: Written, address: int, byte: int) -> bool:
    """Whether the send that sealed a write gave this byte for this address, in the same RUN."""
    if written.owner is None or written.sealed is None:
        return False
    words, before = written.sealed.words, written.sealed.before[written.owner]
    handle = past.world.handles[written.owner]
    if words[:2] != ["send", f"d{handle.link}"] or before.state != RUN or before.locks != written.locks:
        return False
    kind, header, payload = read_tlp(given(words))
    one = Arrived(Packet(b"", header, b"", b"", False), payload, "", None)
    return kind.name == "memwrite" and one.requester == handle.plan.rid and (address, byte) in one.written()


# ---- reads of it


def read_law(past: Past, pair: Pair) -> Instances:
    """An answer takes the oldest read of the link: what it seals is its completion from memory as it is then, for an
    interface whose view is Running, whose floor the read's draw is from; each packet goes out at the host's port on the
    bound stream, and but for sync packets has T, is a completion and has a draw from the floor on. A read that is
    dropped is of the interface that the verdict names. What answers took is a prefix of what was queued, and no more
    than 64 wait."""
    if pair.words[0] == "answer" and pair.verdict[0] in ("sealed", "dropped"):
        first = past.reads[pair.first][0] if past.reads[pair.first] else None
        if first is None or pair.oldest is None or first.read.header != pair.oldest.header or first.owner is None:
            yield "a read that is taken", False
        elif pair.verdict[0] == "dropped":
            yield "a read that is dropped", pair.verdict[1] == str(first.owner)
        else:
            yield "a read that is answered", is_answered(past, pair, first)
    for link in [pair.unit.end.link] if pair.unit else []:
        more = sum(one.effect == "queued" for one in pair.unit.packets) if pair.unit.end.is_at_host else 0
        if more:
            yield "reads that wait", len(past.reads[link]) + more <= MOST_WAITING_BY_RULE


# as the rules have it (docs/RULES.md)
MOST_WAITING_BY_RULE = 64


def is_answered(past: Past, pair: Pair, first: QueuedRead) -> bool:
    now, plan = pair.before[first.owner], past.world.handles[first.owner].plan
    packets = [
        one.end.port == f"h{pair.first}" and one.end.plan.id == plan.stream
        and (one.sync or one.t and one.sub == CPL and now.floor <= one.draw)
        for one in pair.sealed
    ]
    is_running = now.view == "running" and now.floor <= pair.oldest.draw
    return is_running and all(packets) and pair.sealed[-1].tlp == completed(past, first)


def completed(past: Past, first: QueuedRead) -> bytes:
    return first.read.completion(past.read(first.read.address, first.read.length))


def answer_law(past: Past, pair: Pair) -> Instances:
    """The last packet that an answer seals is no sync packet, and ends its unit. It is the completion of the oldest
    read that waits on the link, from memory as it is then: its header is in clear, its payload masked under its key and
    unit."""
    if pair.words[0] != "answer" or not pair.is_sealed:
        return
    last, first = pair.sealed[-1], past.reads[pair.first][0] if past.reads[pair.first] else None
    completion = completed(past, first) if first else b""
    under, key = past.sub(last.lane).unders[last.draw], past.key(last.lane, last.draw)
    offset = sum(len(other.packet.body) for other in under.opened)
    body = masked(key, nonce(last.sub, last.unit), offset, completion[12:])
    is_last = last.packet.m == 1 and not last.sync
    yield "an answer", is_last and last.packet.header + last.packet.body == completion[:12] + body


def answers_law(past: Past, pair: Pair) -> Instances:
    """An answer goes to the oldest read that waits, which was queued from a packet of the interface of its requester
    ID, under the draw that is kept with it, and under the lock that stands."""
    if pair.words[0] == "answer" and pair.is_sealed:
        first = past.reads[pair.first][0] if past.reads[pair.first] else None
        if first is None or first.owner is None or pair.oldest is None:
            yield "an answer", False
            return
        locks = pair.before[first.owner].locks
        kind = "an answer" if locks < 2 else "an answer under a later lock"
        is_same = pair.oldest.header == first.read.header and pair.oldest.draw == first.read.draw
        yield kind, is_same and first.locks == locks


def read_origin_law(past: Past, pair: Pair) -> Instances:
    """If no tag of its sub-stream and draw was forged: a queued packet is the one at the same place of what was sealed
    there, before which the interface of its requester ID was in RUN, under as many locks as now."""
    if is_unforged(past, pair):
        for one in pair.unit.packets:
            if one.effect == "queued" and pair.unit.end.is_at_host:
                yield "a read", is_from(past, pair, one)


# ---- memory of devices


def mmio_law(past: Past, pair: Pair) -> Instances:
    """Each byte that is shown of a BAR is that of the last stored write that enables it, since the BAR was last set to
    0. Locked or in RUN before the event and after it, a byte of a BAR that is not open changes only by a stored write
    with T, in RUN, on a stream that the interface is bound to, under a draw from its floor there on. In RUN its floor
    is the greatest draw that was On at the device's PR receiver when it came into RUN under the lock that stands."""
    if pair.verdict[0] == "mmio":
        bar, offset, length = map(number, pair.words[2:])
        contents = past.stored[pair.first, bar]
        shown = bytes(contents.get(offset + at, 0) for at in range(length))
        yield f"a BAR {'with bytes' if any(shown) else 'of zeros'}", pair.verdict[1] == shown.hex()
    for place, (was, now) in each(pair):
        if now.state == RUN and was is not now:
            kind = "a floor" if len(now.runs) < 2 else "a floor of a later RUN"
            yield kind, now.device_floor in now.entered
    yield from guarded_bytes(past, pair)


def guarded_bytes(past: Past, pair: Pair) -> Instances:
    """Each byte that changes of a BAR that is not open, of an interface that is locked before and after it."""
    for (place, bar), offset, byte, one in stored_bytes(past, pair) if pair.unit else []:
        if is_locked_still(pair, place) and not is_open(past, place, bar):
            if past.stored[place, bar].get(offset, 0) != byte:
                kind = f"a byte that a write {'with' if one.packet.t else 'without'} T changes"
                yield kind, bool(one.packet.t) and is_bound_from(pair, pair.before[place])
    for place, bar in zeroed(past, pair):
        if is_locked_still(pair, place) and not is_open(past, place, bar):
            yield "a BAR that is set to 0", not any(past.stored[place, bar].values())


def is_locked_still(pair: Pair, place: int) -> bool:
    return pair.before[place].is_locked and pair.after[place].is_locked


def mmio_origin_law(past: Past, pair: Pair) -> Instances:
    """If no tag of its sub-stream and draw was forged: a packet with T whose write is stored came to an interface in
    RUN, on the stream of its lock or on one between devices that it is bound to, and is the one at the same place of
    what was sealed there. On the former a trusted send at the host's port of the link sealed it, on the latter a send
    at the other device, while the owner of its TLP was in RUN and bound to that stream. From before that send on the
    interface was in no RUN but under the lock that stands."""
    for (place, _), one in stored_writes(past, pair) if is_unforged(past, pair) else []:
        if one.packet.t:
            kind = f"a write of {'another device' if pair.unit.end.line.letter == 'p' else 'the host'}"
            if one.sealed and one.sealed.before[place].locks != pair.before[place].locks:
                kind += " from before the lock"
            yield kind, is_asked_for(past, pair, place, one)


def is_asked_for(past: Past, pair: Pair, place: int, one: Arrived) -> bool:
    now, end = pair.before[place], pair.unit.end
    if now.state != RUN or not one.is_as_sealed or not is_in_no_other_run(one.sealed.before[place], now):
        return False
    words, plan = one.sealed.words, past.world.handles[place].plan
    if end.line.letter != "p":
        is_sent = words[:2] == ["send", f"h{end.link}"] and "trusted" in words[3:]
        return is_sent and end.plan.id == plan.stream and not end.line.letter
    return end.plan.id in now.bindings and was_bound(past, one)


def is_in_no_other_run(was: Standing, now: Standing) -> bool:
    """From the one on, up to the other, an interface was in no RUN but under the lock that stands in the end."""
    between = now.runs[len(was.runs):] + ([was.locks] if was.state == RUN else [])
    return all(locks == now.locks for locks in between)


def was_bound(past: Past, one: Arrived) -> bool:
    """A send at the end of a stream between devices, or a response there, sealed a packet, while the owner of its TLP
    was in RUN and bound to the stream. A request is of a send."""
    owner = past.owner(one.sealed.end, one.requester) if one.sealed.words[0] in ("psend", "respond") else None
    if owner is None:
        return False
    before = one.sealed.before[owner]
    return before.state == RUN and one.sealed.end.plan.id in before.bindings
