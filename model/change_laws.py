"""Laws of what changes and what does not: resets, verdicts that leave everything, switches, and streams apart.

They are functions as those of stream_laws.py.
"""

from typing import List

from interfaces import UNLOCKED, first_registers
from links import LANES, PR
from notes import KINDS, HopTlp, Kept, Pair, Past, keys_of, kept, tlps_of
from stream_laws import Instances

# verdicts that leave everything as it was, and refusals before anything is done
SHOWS = ["packet", "status", "view", "memory", "mmio"]
TAKES_NOTHING = ["malformed", "plain", "unknown", "insecure", "notkeyed", "through"]
KINDS_OF_INERT = {"none": "nothing there", "empty": "nothing that waits", "refused": "a refusal"}
KINDS_OF_INERT.update({name: "bytes that are not taken" for name in TAKES_NOTHING})
KINDS_OF_INERT.update({name: "what is shown" for name in SHOWS})


def inert_law(past: Past, pair: Pair) -> Instances:
    """A verdict that finds nothing, takes nothing, refuses before anything is done, or shows what stands leaves all as
    it was."""
    kind = KINDS_OF_INERT.get(pair.verdict[0])
    if kind and pair.verdict[1:2] != ["devicerefused"]:
        yield kind, pair.was == pair.now and not pair.writes


def reset_law(past: Past, pair: Pair) -> Instances:
    """A reset of a link leaves no key, no failure and nothing held at the ends of the link and of its hop, and at its
    device at those of streams between devices; the link's streams and its hop's are idle, the others are to be stopped.
    No read waits at its two ports, and nothing at its switch. Its interfaces are as they were first, and each view of
    them is Unlocked or Broken. All other ends are as they were, and the reads that wait at the ports of other links."""
    if pair.verdict[0] != "reset":
        return
    world, link = past.world, pair.first
    for line in world.lines():
        is_cut, was, now = any(end.link == link for end in line.ends), pair.was.lines[line], pair.now.lines[line]
        for side, end in enumerate(line.ends):
            if end.link == link:
                is_clear = not any(kept(keys_of(end, *lane)) or end.lane(*lane).slots[k].packets
                                   for lane in LANES for k in (0, 1))
                yield f"an end of {KINDS[line.letter]}", is_clear and not end.failed
            else:
                yield f"another end of {KINDS[line.letter]}", was[1][side] == now[1][side]
        left = ("stop", 1) if line.letter == "p" else ("idle", 1)
        is_left = (line.operation.name, line.operation.exchange) == left if is_cut else was[0] == now[0]
        yield f"a stream of {KINDS[line.letter]}", is_left
    waiting = [world.waiting.get((link, direction), []) for direction in (0, 1)]
    yield "what waits", not world.reads[link] and not world.device_reads[link] and not any(waiting)
    beside = [[{**ports, link: []} for ports in kept.reads] for kept in (pair.was, pair.now)]
    yield "what waits elsewhere", beside[0] == beside[1]
    for handle in world.on_link(link):
        one = handle.interface
        is_new = one.state == UNLOCKED and not one.bindings and one.registers == first_registers(one.plan)
        is_new = is_new and not any(any(contents.values()) for contents in one.guarded.contents)
        yield "an interface", is_new and handle.view in ("unlocked", "broken")


def exact_through_law(past: Past, pair: Pair) -> Instances:
    """A verdict is `through` exactly of bytes that come to a port of a switch, at least three, of which the first is
    92h and the third is not the hop's stream ID; and it names that port."""
    is_through, came = pair.verdict[0] == "through", pair.arrival
    if came is None:
        if is_through:
            yield "an event that brings no bytes", False
        return
    at_switch, data = came.port[0] in "uw", came.data
    goes = at_switch and len(data) >= 3 and data[0] == 0x92 and data[2] != past.plan.links[int(came.port[1:])].hop
    kind = f"bytes at {'a switch' if at_switch else 'a host or a device'}"
    is_named = not goes or pair.verdict[1:] == [came.port]
    yield f"{kind}{' that go through' if goes else ''}", is_through == goes and is_named


def hop_trust_law(past: Past, pair: Pair) -> Instances:
    """No packet that came on a segment of a hop is applied to trusted memory, or queued or stored with T; no answer is
    sealed there, and a device seals no packet with T there."""
    if pair.unit and pair.unit.end.line.letter == "h" and not pair.unit.end.is_at_switch:
        for one in pair.unit.packets:
            is_trusted = one.effect == "applied" or one.effect in ("queued", "stored") and bool(one.packet.t)
            yield f"a packet behind a switch{' with T' if one.packet.t else ''}", not is_trusted
    for one in pair.sealed:
        if pair.words[0] == "answer":
            yield "an answer", one.end.line.letter != "h"
        if one.end.line.letter == "h" and one.end.is_at_device:
            yield "a packet that a device sends on a hop", not one.t


def streams_apart(past: Past, pair: Pair) -> Instances:
    """An event leaves each stream as it was on which it is no operation, of whose line it resets no end, and on which
    it neither sends nor brings bytes."""
    own = {one.end.line for one in pair.sealed}
    own |= {pair.work.line} if pair.work else set()
    own |= {pair.arrival.end.line} if pair.arrival and pair.arrival.end else set()
    if pair.verdict[0] == "reset":
        own |= {line for line in past.world.lines() if any(end.link == pair.first for end in line.ends)}
    for line in pair.was.lines:
        if line not in own and own:
            yield f"{KINDS[line.letter]}", pair.was.lines[line] == pair.now.lines[line]


def hop_order_law(past: Past, pair: Pair) -> Instances:
    """If no tag of a sub-stream was forged on the two segments of a hop, under the draws that they were given since the
    last reset of its link: what was accepted behind the switch since then is, in this sub-stream, what was sealed
    before it, in that order and with the same bytes and T, but for some that were lost."""
    unit = pair.unit
    if not unit or unit.end.line.letter != "h" or unit.end.is_at_switch:
        return
    segments = [past.world.segments[unit.end.link, segment] for segment in (0, 1)]
    if any(past.is_forged_since_reset(line, 1 - unit.end.side, (unit.sub,)) for line in segments):
        return
    first = segments[0] if unit.end.line is segments[1] else segments[1]
    was = [tlp for tlp in past.given[first, 1 - unit.end.side] if tlp[0] == unit.sub]
    got = [tlp for tlp in past.taken[unit.end.line, unit.end.side] if tlp[0] == unit.sub] + tlps_of(unit)
    is_again = any(len(past.hop_draws[line]) > 1 for line in segments)
    is_lost = len(got) < len(was) and was[: len(got)] != got
    kind = "TLPs behind a switch" + (" that was keyed again" if is_again else "") + (" after a loss" if is_lost else "")
    yield kind, is_left_of(got, was)


def hop_posted_law(past: Past, pair: Pair) -> Instances:
    """With one draw on each segment since the last reset of its link, a TLP that is not posted is accepted behind a
    switch only after each posted one that was sealed before it, if no tag of the two sub-streams was forged on the two
    segments under these draws."""
    unit = pair.unit
    if not unit or unit.end.line.letter != "h" or unit.end.is_at_switch or unit.sub == PR:
        return
    segments = [past.world.segments[unit.end.link, segment] for segment in (0, 1)]
    is_forged = any(past.is_forged_since_reset(line, 1 - unit.end.side, (PR, unit.sub)) for line in segments)
    if is_forged or any(len(past.hop_draws[line]) > 1 for line in segments):
        return
    first = segments[0] if unit.end.line is segments[1] else segments[1]
    was, got = past.given[first, 1 - unit.end.side], past.taken[unit.end.line, unit.end.side]
    places = [place for place, tlp in enumerate(was) if tlp[0] == unit.sub]
    number = len([tlp for tlp in got if tlp[0] == unit.sub])
    posted = len([tlp for tlp in got if tlp[0] == PR])
    for place in places[number : number + len(tlps_of(unit))]:
        ahead = len([tlp for tlp in was[:place] if tlp[0] == PR])
        yield "a TLP behind posted ones" if ahead else "a TLP", ahead <= posted


def is_left_of(got: List[HopTlp], was: List[HopTlp]) -> bool:
    """Whether the first list is the second without some of its elements."""
    rest = iter(was)
    return all(one in rest for one in got)
