"""Laws of the states of interfaces, of their nonces, and of the manager's views of them. Each is a function as those of
stream_laws.py are."""

from typing import List, Set

from interface_laws import each, is_secure, listed
from interfaces import ERROR, LOCKED, LOCK_FLAGS, NO_FIRMWARE, RUN, UNLOCKED
from links import number
from memory import PAGE
from notes import Pair, Past, Standing, is_open, is_refused, stored_writes
from stream_laws import Instances

CHANGES = ("write", "flr", "firmware")
DONE = {"locked", "reported", "started", "halted", "state", "bound", "unbound"}


def carries(verdict: List[str], exchange: int) -> bool:
    """The request of an exchange reached the device."""
    if verdict[0] == "lost":
        return exchange < int(verdict[2]) or exchange == int(verdict[2]) and verdict[1] == "reply"
    if verdict[:2] == ["refused", "devicerefused"]:
        return exchange <= int(verdict[2])
    return verdict[0] in DONE


def loses(verdict: List[str], exchange: int) -> bool:
    return verdict[0] == "lost" and int(verdict[2]) == exchange


def refuses(verdict: List[str], exchange: int) -> bool:
    return verdict[:2] == ["refused", "devicerefused"] and int(verdict[2]) == exchange


def is_on(pair: Pair, place: int, *events: str) -> bool:
    return pair.words[0] in events and pair.first == place


def is_link_reset(past: Past, pair: Pair, place: int) -> bool:
    return pair.verdict[0] == "reset" and past.world.handles[place].link == pair.first


def unlocks(past: Past, pair: Pair, place: int) -> bool:
    return is_on(pair, place, "halt") and carries(pair.verdict, 1) or is_link_reset(past, pair, place)


# ---- what stood before


def secure_streams(past: Past, place: int, was: Standing) -> Set[int]:
    """Of its own stream and those that it is bound to, those that are Secure at its device."""
    streams = {past.world.handles[place].plan.stream, *was.bindings}
    return {stream for stream in streams if is_secure(past, place, stream)}


def left(past: Past, pair: Pair, place: int) -> Set[int]:
    """The streams of its lock and its bindings that were Secure at its device before the event, and are not now."""
    was = pair.before[place]
    return past.secure.get(place, set()) - secure_streams(past, place, was)


def overlap(past: Past, place: int, was: Standing) -> bool:
    bars = [(was.registers[f"bar{n}"], bar.pages) for n, bar in enumerate(past.world.handles[place].plan.bars)]
    spans = sorted((base, base + PAGE * pages) for base, pages in bars if pages)
    return any(low[1] > high[0] for low, high in zip(spans, spans[1:]))


def is_lockable(past: Past, place: int, was: Standing) -> bool:
    handle = past.world.handles[place]
    plan, nonces = handle.plan, past.plan.links[handle.link].nonces
    is_fit = not plan.flags & ~LOCK_FLAGS and plan.offset % PAGE == 0 and not overlap(past, place, was)
    is_there = plan.stream in past.secure.get(place, set()) and past.used[handle.link] < len(nonces)
    return was.state == UNLOCKED and is_fit and is_there


def is_forbidden(past: Past, pair: Pair, place: int) -> bool:
    """What a lock forbids: a listed change, a level reset, and with lock flag 0 a firmware update."""
    if not is_on(pair, place, *CHANGES) or pair.verdict[0] == "none":
        return False
    flags, was = past.world.handles[place].plan.flags, pair.before[place].registers
    if pair.words[0] == "write":
        return listed(flags, {**was, pair.words[2]: number(pair.words[3])}) != listed(flags, was)
    return pair.words[0] == "flr" or bool(flags & NO_FIRMWARE)


# ---- the state


def moved(past: Past, pair: Pair, place: int) -> tuple:
    """The state after the event, and what leads to it."""
    was, event = pair.before[place], pair.words[0]
    if unlocks(past, pair, place):
        return UNLOCKED, event
    if is_on(pair, place, "lock") and carries(pair.verdict, 3) and is_lockable(past, place, was):
        return LOCKED, event
    if is_on(pair, place, "start") and carries(pair.verdict, 1) and was.state == LOCKED:
        return RUN, event
    if was.is_locked and is_forbidden(past, pair, place):
        return ERROR, event
    if was.is_locked and left(past, pair, place):
        return ERROR, "stream that leaves Secure"
    return was.state, "pair"


def state_law(past: Past, pair: Pair) -> Instances:
    """The state changes just so: from CONFIG_UNLOCKED to CONFIG_LOCKED at a LOCK_INTERFACE that comes while it may be
    locked, with the next nonce of the link; from CONFIG_LOCKED to RUN at a START_INTERFACE, with the nonce of the lock;
    from both to ERROR at what the lock forbids, or when a stream that it is bound to leaves Secure; to CONFIG_UNLOCKED
    at a STOP_INTERFACE and a reset of the link."""
    for place, (was, now) in each(pair):
        state, cause = moved(past, pair, place)
        if (was.state, now.state, state) != (was.state,) * 3:
            yield f"a {cause} from {was.state} to {state}", now.state == state
        if (was.state, state) == (LOCKED, RUN):
            yield "a nonce of a start", past.world.handles[place].nonce == past.locked_nonce.get(place)


def nonce_law(past: Past, pair: Pair) -> Instances:
    """Each lock takes the next place of the link's nonces."""
    for place, (was, now) in each(pair):
        if was.state == UNLOCKED and now.state == LOCKED:
            link = past.world.handles[place].link
            nonces, used = past.plan.links[link].nonces, past.used[link]
            nonce = nonces[used] if used < len(nonces) else None
            told = [pair.verdict[2]] if pair.verdict[0] == "locked" else []
            kind = "a lock" if not used else "a later lock of a link"
            is_so = nonce is not None and past.world.interfaces[place].nonce == nonce
            yield kind, is_so and all(one == nonce.hex() for one in told)


def shown_state_law(past: Past, pair: Pair) -> Instances:
    """A verdict that shows the state of an interface shows the one after the event."""
    if pair.verdict[0] in ("written", "flr", "firmware", "state"):
        state = pair.after[int(pair.verdict[1])].state
        yield f"a verdict {pair.verdict[0]} {state}", int(pair.verdict[2]) == state


def leaving_law(past: Past, pair: Pair) -> Instances:
    """In CONFIG_LOCKED and RUN, a stream of the lock or of a binding that leaves Secure at the device takes the
    interface to ERROR, a reset of its link to CONFIG_UNLOCKED."""
    for place, (was, now) in each(pair):
        if was.is_locked:
            for stream in left(past, pair, place):
                due = UNLOCKED if is_link_reset(past, pair, place) else ERROR
                kind = "its own stream" if stream == past.world.handles[place].plan.stream else "a stream of a binding"
                yield f"{kind} from {was.state} to {due}", now.state == due


# ---- the view


def stops(past: Past, pair: Pair, place: int) -> bool:
    """A stop of its stream begins, or there is an event of a stop of a stream between devices that it was to be bound
    to since its lock."""
    work = pair.work
    if not work or work.name != "stop" or is_refused(pair.verdict):
        return False
    if work.line.letter == "p":
        return work.line in past.asked[place]
    return work.line is past.world.handles[place].line and work.begins


def view_due(past: Past, pair: Pair, place: int) -> tuple:
    view, verdict = pair.before[place].view, pair.verdict
    told = {"locked": "locked", "started": "running", "halted": "unlocked"}
    if verdict[0] in told and int(verdict[1]) == place:
        return told[verdict[0]], verdict[0]
    for event, exchange in (("lock", 3), ("start", 1), ("halt", 1)):
        if is_on(pair, place, event) and loses(verdict, exchange):
            return "doubt", f"lost {event}"
    if is_on(pair, place, "start") and refuses(verdict, 1):
        return "broken", "refused start"
    if verdict[0] == "state" and int(verdict[1]) == place and view in ("locked", "running"):
        if int(verdict[2]) != {"locked": LOCKED, "running": RUN}[view]:
            return "broken", "state"
    if stops(past, pair, place) or is_link_reset(past, pair, place):
        return view if view == "unlocked" else "broken", pair.words[0]
    return view, "pair"


def view_law(past: Past, pair: Pair) -> Instances:
    """The view changes just so: to Locked, Running and Unlocked at the verdicts that tell it, to Doubt at a loss of
    LOCK_INTERFACE, START_INTERFACE or STOP_INTERFACE, and to Broken where the device refuses a start or tells another
    state, at a stop of a stream and at a reset of the link."""
    for place, (was, now) in each(pair):
        view, cause = view_due(past, pair, place)
        if (was.view, now.view, view) != (was.view,) * 3:
            yield f"a {cause} of a view {was.view}", now.view == view


# ---- ERROR


def error_law(past: Past, pair: Pair) -> Instances:
    """In ERROR an interface seals nothing with T, no write with T is stored in its BARs and none at all in closed ones,
    and it is bound to nothing. It leaves ERROR by a halt and a reset of its link alone."""
    for place, (was, now) in each(pair):
        if was.state == ERROR:
            yield "no binding", not was.bindings
            if now.state != ERROR:
                yield "an end of ERROR", unlocks(past, pair, place)
    if pair.words[0] in ("send", "psend", "respond"):
        for one in pair.sealed:
            owner = past.owner(one.end, one.packet.header[4] << 8 | one.packet.header[5]) if not one.sync else None
            if one.end.is_at_device and owner is not None and pair.before[owner].state == ERROR:
                yield "a packet", not one.t
    for (place, bar), one in stored_writes(past, pair):
        if pair.before[place].state == ERROR:
            yield "a write", is_open(past, place, bar) and not one.packet.t


# ---- what is noted for them


def note_states(past: Past, pair: Pair):
    for place, (was, now) in each(pair):
        handle = past.world.handles[place]
        if was.state == UNLOCKED and now.state == LOCKED:
            nonces, used = past.plan.links[handle.link].nonces, past.used[handle.link]
            past.locked_nonce[place] = nonces[used] if used < len(nonces) else None
            past.used[handle.link] += 1
        if is_on(pair, place, "lock") and (pair.verdict[0] == "locked" or loses(pair.verdict, 3)
                                           or refuses(pair.verdict, 3)):
            past.asked[place] = []
        if is_on(pair, place, "bind") and (carries(pair.verdict, 1) or loses(pair.verdict, 1)):
            past.asked[place].append(past.world.peers[number(pair.words[2])])
        past.secure[place] = secure_streams(past, place, now)
