"""Laws of keys in use: what is sealed and accepted under, what a stop and a refresh take, how many units a key seals,
and what a forged tag is to the cipher. In the form of stream_laws.py.

What is On is told from verdicts (key_account.py); what is kept at the end of a stop, a reset or a refresh is read of
the model.
"""

from typing import Iterator

from key_account import Account, Place, draws_on, numbers
from links import LANES, End, Line, nonce
from notes import KINDS, Pair, Past, keys_of, kept, seen
from stream_laws import Instances


def keys_in_use(past: Past, pair: Pair) -> Instances:
    """Each packet is sealed under the least draw that is On at its sender just before it, each unit held or accepted
    under one that is On at its receiver before the event; both in the set that K names."""
    for one, keys in zip(pair.sealed, past.account.found):
        is_least = keys[one.packet.k] == ("on", one.draw) and one.draw == min(draws_on(keys), default=None)
        yield f"a packet on {KINDS[one.end.line.letter]}", is_least
    if pair.verdict[0] in ("held", "accepted") and past.account.found:
        keys, draw = past.account.found[0], int(pair.verdict[5])
        kind = f"{pair.verdict[0]} on {KINDS[pair.arrival.end.line.letter]}"
        yield kind, keys[pair.arrival.packet.k] == ("on", draw)


def stop_takes_keys(past: Past, pair: Pair) -> Instances:
    """While a stream is being stopped, a host's port keeps nothing of it, and any other end nothing in a set whose STOP
    was acknowledged; no place gains a key then; nothing is sealed, held or accepted where the keys are gone, or where
    no stream was established; and a reset leaves nothing at the ends that it clears."""
    for place in uses(pair):
        name = past.account.stage(place[0]).name
        if name == "stop":
            yield "a key that is used in a stop", has_keys_left(past.account, place)
        else:
            yield "a key that is used", name != "idle"
    lines = [pair.work.line] if pair.work else []
    if pair.verdict[0] == "reset":
        lines = [line for line in past.world.lines() if any(end.link == pair.first for end in line.ends)]
        for end in [end for line in lines for end in line.ends if line.letter != "p" or end.link == pair.first]:
            yield f"a reset of {KINDS[end.line.letter]}", not any(kept(keys_of(end, *lane)) for lane in LANES)
    for line in lines:
        if line.operation.name == "stop":
            yield f"a stop on {KINDS[line.letter]}", all(is_taken(line, end) for end in line.ends)
            places = [(line, end.side, *lane) for end in line.ends for lane in LANES]
            yield "a place in a stop", all(is_no_gain(past.account, place) for place in places)


def uses(pair: Pair) -> Iterator[Place]:
    """Where a packet was sealed, or a unit held or accepted."""
    for one in pair.sealed:
        yield one.end.line, one.end.side, one.end.side, one.sub
    if pair.verdict[0] in ("held", "accepted") and pair.arrival and pair.arrival.end:
        line, direction, sub = pair.arrival.lane
        yield line, pair.arrival.end.side, direction, sub


def has_keys_left(account: Account, place: Place) -> bool:
    """In a stop: not at a host's port, nor where the last STOP was acknowledged."""
    line, side, _, _ = place
    is_local = line.is_hosted and side == 0
    return not is_local and account.stage(line).exchange <= numbers(line, "stop", place)[2] + 6


def is_taken(line: Line, end: End) -> bool:
    for lane in LANES:
        keys = keys_of(end, *lane)
        if line.is_hosted and end.side == 0:
            if kept(keys):
                return False
            continue
        stop = numbers(line, "stop", (line, end.side, *lane))[2]
        for key_set in (0, 1):
            if stop + 6 * key_set < line.operation.exchange and keys[key_set][0] != "empty":
                return False
    return True


def is_no_gain(account: Account, place: Place) -> bool:
    before = account.before.get(place, account.at(place))
    pairs = zip(before, account.at(place))
    return all(now[0] == "off" or was[0] != "off" and was[1] == now[1] for was, now in pairs)


def refresh_takes(past: Past, pair: Pair) -> Instances:
    """When a refresh has ended its draw is On at each place, no other is kept but what is On, and a lesser one at a
    sender alone where a unit under it is unfinished. A unit begins under the greatest draw that is On at its sender.
    Of what is On at a place the greatest is not lost for less, but by a stop and a reset."""
    if pair.verdict[0] == "refreshed":
        line, draw = pair.work.line, int(pair.verdict[-1])
        places = [(end, *lane) for end in line.ends for lane in LANES]
        yield "a refresh that has ended", all(is_refreshed(past, end, *lane, draw) for end, *lane in places)
    for one, keys in zip(pair.sealed, past.account.found):
        if not past.sub(one.lane).unders[one.draw].opened:
            yield f"a unit that begins on {KINDS[one.end.line.letter]}", one.draw == max(draws_on(keys), default=None)
        elif len(draws_on(keys)) > 1:
            yield "a unit that is left under an older key", True
    if not pair.work or pair.work.name != "stop":
        for place, before in past.account.before.items():
            if pair.verdict[0] != "reset" and draws_on(before):
                yield "a place with a key", max(draws_on(past.account.at(place)), default=-1) >= max(draws_on(before))


def is_refreshed(past: Past, end: End, direction: int, sub: int, draw: int) -> bool:
    slots = [one for one in keys_of(end, direction, sub) if one[0] != "empty"]
    if ("programmed" in [state for state, _ in slots]) or draw not in [one for _, one in slots]:
        return False
    under = past.sub((end.line, direction, sub)).unders
    older = [one for _, one in slots if one != draw]
    return all(one < draw and (direction != end.side or under[one].opened) for one in older)


def key_limits(past: Past, pair: Pair) -> Instances:
    """What is sealed under the same bytes of a key is of one sub-stream and draw. Under each key no more units are
    finished than the plan's limit, and one begins only below it; a unit that was sealed or accepted has at most as many
    packets as its stream's mode says, one that is open or held fewer."""
    limit = past.plan.units_per_key
    for one in pair.sealed:
        under, mode = past.sub(one.lane).unders[one.draw], one.end.plan.mode
        is_below = len(under.units) < limit and one.unit <= limit
        kind = "the last unit of a key" if one.unit == limit else "a unit of a key"
        yield kind, is_below and len(under.opened) + 1 <= mode - (not one.packet.m)
        owner = past.owners.get(past.key(one.lane, one.draw))
        if owner:
            yield "a key that seals again", owner == (one.lane, one.draw)
    if pair.unit:
        yield "a unit that is accepted", len(pair.unit.packets) <= pair.unit.end.plan.mode
    if pair.verdict[0] == "held":
        under = past.sub(pair.arrival.lane).unders[int(pair.verdict[5])]
        yield "a packet that is held", len(under.held) + 1 < pair.arrival.end.plan.mode


def forgeries_are_of_cipher(past: Past, pair: Pair) -> Instances:
    """Where a tag verifies, and a unit was sealed under the same key with the same IV, authenticated bytes and
    ciphertext, it is the unit that is no forgery. So a forgery verifies what was never sealed under its key."""
    ending = past.ends_unit(pair.arrival)
    if ending is None or not past.is_verified(pair.arrival.lane, *ending):
        return
    lane, (draw, packets) = pair.arrival.lane, ending
    under, sub = past.sub(lane).unders[draw], past.sub(lane)
    front = sub.units_got.to_bytes(8, "big") if lane[0].plan.closed and under.units_got == 0 else b""
    authenticated, encrypted = seen(packets)
    given = (past.key(lane, draw), nonce(lane[2], under.units_got + 1), front + authenticated, encrypted)
    yield f"{'a forgery' if pair.is_forged else 'a tag'}", (given in past.cipher) != pair.is_forged
