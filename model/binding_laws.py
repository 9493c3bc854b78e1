"""Laws of bindings to streams between devices, of the keys that they are under, of the one lock that each key serves,
and of one stream alone. Each is a function as those of stream_laws.py are."""

from interfaces import BINDS_PEERS, RUN
from interface_laws import each, is_in_no_other_run, mmio_origin_law, origin_law, read_origin_law, shown_bytes
from interface_laws import was_bound, was_given
from links import PR
from notes import KINDS, Arrived, Pair, Past, Standing, is_refused, kept, keys_of, on, stored_writes
from stream_laws import LANES, Instances, delivery_law, order_law, prefix_law


def bindings_are_asked(past: Past, pair: Pair) -> Instances:
    """Each binding came of a bind under the lock that stands, which has flag 3, while the stream was Secure at the
    device, and no unbind of it came since. The manager counts it among those that were asked since the lock."""
    for place, (was, now) in each(pair):
        is_new = was is not now or pair.words[0] == "unbind"
        for stream in now.bindings if is_new else []:
            bind, handle = past.binds.get((place, stream)), past.world.handles[place]
            counted = [line.plan.id for line in handle.asked]
            is_flagged = bool(handle.plan.flags & BINDS_PEERS)
            kind = "a binding" if now.locks < 2 else "a binding of a later lock"
            yield kind, is_flagged and bind == (now.locks, True) and stream in counted


def bindings_last(past: Past, pair: Pair) -> Instances:
    """From a `bound` verdict on an interface is bound to the stream, as long as the lock stands and no unbind of that
    stream comes to it."""
    event = pair.words[0] if pair.words[0] in ("bind", "unbind", "start", "write") else "another event"
    for (place, stream), locks in past.said_bound.items():
        was, now = pair.before[place], pair.after[place]
        if now.is_locked and now.locks == locks and (was is not now or pair.words[0] in ("bind", "unbind")):
            yield f"a binding over {event}", stream in now.bindings


def verdicts_tell_bindings(past: Past, pair: Pair) -> Instances:
    """A `bound` verdict binds the interface to the stream, to which it was not bound; an `unbound` verdict ends
    that."""
    name = pair.verdict[0]
    if name in ("bound", "unbound"):
        stream = past.world.peers[int(pair.words[2])].plan.id
        was, now = (stream in side[pair.first].bindings for side in (pair.before, pair.after))
        yield name, pair.verdict[1:] == pair.words[1:3] and (was, now) == (name == "unbound", name == "bound")


def stops_break_views(past: Past, pair: Pair) -> Instances:
    """An exchange of a stop of a stream between devices leaves the view of each interface that is bound to it
    Broken."""
    if pair.words[0] == "pstop" and not is_refused(pair.verdict):
        stream = past.world.peers[pair.first].plan.id
        for was, now in zip(pair.before, pair.after):
            if stream in was.bindings:
                yield f"a stop that is {pair.verdict[0]}", now.view == "broken"


def bindings_hold_keys(past: Past, pair: Pair) -> Instances:
    """The floor of a binding is the draw of the stream's last establish. It is On where the device receives posted
    requests on the stream, and no place of the stream keeps another."""
    for place, now in enumerate(pair.after):
        for stream, floor in now.bindings.items():
            end = past.device_end(place, stream)
            places = [keys_of(one, *lane) for one in end.line.ends for lane in LANES]
            is_on = floor in on(keys_of(end, 1 - end.side, PR))
            is_alone = all(draw == floor for keys in places for draw in kept(keys))
            yield "a binding", is_on and is_alone and end.line.draw == floor


def peers_are_never_stale(past: Past, pair: Pair) -> Instances:
    """No packet of a unit that an end of a stream between devices accepts is blocked as stale."""
    if pair.unit and pair.unit.end.line.letter == "p":
        yield "a unit", all(one.effect != "blocked:stale" for one in pair.unit.packets)


def trusted_on_all_streams(past: Past, pair: Pair) -> Instances:
    """Each packet with T that an interface sealed at its device was sealed in RUN. While the view is Unlocked or
    Locked, or no START was asked since the lock, its draw is below the one that the interface needs; while the view is
    Running it was sealed under this lock, or its draw is below that."""
    for place, (was, now) in each(pair):
        if was is now and not pair.sealed:
            continue
        trusted = past.trusted_anywhere[place]
        beside = " over packets with T" if trusted else ""
        rests = max(trusted, default=-1) < now.needs
        if now.view in ("unlocked", "locked"):
            yield f"a view {now.view}{beside}", rests
        if not now.is_started:
            yield f"no START{beside}", rests
        since = [one for draw, ones in trusted.items() for one in ones if draw >= now.needs]
        if now.view == "running":
            kind = f"a view running{' over packets with T' if since else ''}"
            yield kind, all(one == (True, now.locks) for one in since)


def one_lock_per_peer_key(past: Past, pair: Pair) -> Instances:
    """Two packets with T that an interface seals on streams between devices under one draw are sealed under one
    lock."""
    for one in pair.sealed:
        owner = past.sealed_for(pair, one) if one.end.line.letter == "p" else None
        if owner is not None:
            locks = past.trusted_anywhere[owner][one.draw]
            yield "a packet" if len(past.trusted_anywhere[owner]) < 2 else "a packet of a later draw", len(locks) == 1


def one_lock_per_stored_key(past: Past, pair: Pair) -> Instances:
    """Two packets with T whose writes are stored in the memory of one interface, and that came under one draw, are
    stored under one lock of it."""
    for (place, _), one in stored_writes(past, pair):
        locks = past.stored_under.get((place, pair.unit.draw))
        if one.packet.t and locks is not None:
            yield f"two writes on {KINDS[pair.unit.end.line.letter]}", locks == pair.before[place].locks


def peer_origin_law(past: Past, pair: Pair) -> Instances:
    """If no tag of its sub-stream and draw was forged: each packet with T that an end of a stream between devices
    accepts was sealed for an owner that was in RUN and bound to the stream, and that was bound to it in no other lock
    since. It came under the draw of the stream's last establish, and since it was sealed no other one began. While the
    view of the owner is Unlocked or Locked the draw is below the one that the owner needs; while it is Running and the
    draw is not, the packet was sealed under the lock that stands."""
    if pair.unit and pair.unit.end.line.letter == "p" and not past.is_forged_under(pair.unit.lane, pair.unit.draw):
        for one in pair.unit.packets:
            if one.packet.t:
                yield f"a packet of an owner that {standing(past, pair, one)}", came_from_owner(past, pair, one)


def standing(past: Past, pair: Pair, one: Arrived) -> str:
    owner = past.owner(one.sealed.end, one.requester) if one.sealed else None
    if owner is None:
        return "is not there"
    now = pair.before[owner]
    if pair.unit.end.plan.id in now.bindings:
        return "is bound"
    is_in_another = now.state == RUN and now.locks != one.sealed.before[owner].locks
    return "runs in another lock" if is_in_another else "is not bound"


def came_from_owner(past: Past, pair: Pair, one: Arrived) -> bool:
    if not one.is_as_sealed or not was_bound(past, one):
        return False
    owner, line = past.owner(one.sealed.end, one.requester), pair.unit.end.line
    locks, draw = one.sealed.before[owner].locks, pair.unit.draw
    is_last = line.draw == draw and past.base(line) == draw and one.sealed.draw == draw
    since = [lock for place, lock in past.bound_locks[owner, line.plan.id] if place > one.sealed.place]
    return is_last and all(lock == locks for lock in since) and fits_view(pair.before[owner], locks, draw)


def fits_view(now: Standing, locks: int, draw: int) -> bool:
    """What the view says of a draw that an interface sealed a packet with T under, in one of its locks."""
    if now.view in ("unlocked", "locked") or not now.is_started:
        return draw < now.needs
    return now.view != "running" or draw < now.needs or locks == now.locks


def peer_store_law(past: Past, pair: Pair) -> Instances:
    """Under the same proviso: if the write of such a packet is stored, its target is in RUN, bound to the stream, and
    was in no other RUN since it was sealed."""
    if pair.unit and pair.unit.end.line.letter == "p" and not past.is_forged_under(pair.unit.lane, pair.unit.draw):
        for (place, _), one in stored_writes(past, pair):
            if one.packet.t:
                now = pair.before[place]
                is_bound = now.state == RUN and pair.unit.end.plan.id in now.bindings
                is_same = one.is_as_sealed and is_in_no_other_run(one.sealed.before[place], now)
                yield "a write", is_bound and is_same and came_from_owner(past, pair, one)


# ---- one stream alone

OF_A_STREAM = [prefix_law, delivery_law, order_law, origin_law, read_origin_law, mmio_origin_law]
OF_A_STREAM += [peer_origin_law, peer_store_law]


def streams_stand_alone(past: Past, pair: Pair) -> Instances:
    """Of a stream of which no tag was forged at either end, whatever was forged on others: all that these laws say of
    its units holds, and each byte of trusted memory that a write on it left was given to a send."""
    if pair.unit and not past.is_forged_on(pair.unit.end.line):
        for law in OF_A_STREAM:
            for _, holds in law(past, pair):
                yield f"what {law.__name__} says", holds
    for address, byte in shown_bytes(pair):
        written = past.memory.get(address)
        if byte and written and not past.is_forged_on(written.line):
            yield "a byte", was_given(past, written, address, byte)
