"""Laws of outcomes: what verdicts show, why arrivals fail and accesses are blocked, which operations succeed, and that
every interface can be brought to RUN again. Each is a function as those of stream_laws.py are."""

from typing import Iterator, List, Optional, Tuple

from interfaces import ERROR_STATE, LOCKED, RUN, UNLOCKED, report_bytes
from links import DEVICE, HOST, PR, SUB_NAMES, End, number
from memory import PAGE, WaitingRead
from notes import KINDS, Arrived, Pair, Past, Standing, claim_at, is_open
from plan import InterfacePlan
from stream_laws import Instances
from world import World

MOST_WAITING_BY_RULE = 64
# by the letter of a line the words of what its operations end in
ENDED = {"establish": "established", "refresh": "refreshed", "stop": "stopped"}


def first_of(causes: List[Tuple[str, bool]]) -> Optional[str]:
    """The first cause that holds."""
    return next((cause for cause, holds in causes if holds), None)


def is_lost(pair: Pair) -> bool:
    return pair.verdict[0] == "lost"


def is_asked_whole(pair: Pair) -> bool:
    """No message of the event is to be lost, and what it names exists."""
    return "lose" not in pair.words and pair.verdict[0] != "none"


# ---- what verdicts show


def shown_law(past: Past, pair: Pair) -> Instances:
    """A status, a dump, a view, a state, the needs of a halt, the state after a write, a level reset and a firmware
    update, the nonce of a lock, and the draws of an establish, a refresh and a start are those that the history
    gives; so are the view and the draws that a refusal shows."""
    event, text = pair.words[0], " ".join(pair.verdict)
    if text == "none":
        return
    if event == "status":
        line = past.world.line_of("", [number(word) for word in pair.words[1:]])
        yield "a status", text == f"status {line.name} {status_of(past, line.ends[0])} {status_of(past, line.ends[1])}"
    if event == "dump":
        yield "a dump", text == f"packet {pair.first} {past.sealed[pair.first - 1].data.hex()}"
    if pair.work and pair.verdict[0] == pair.work.line.letter + ENDED[pair.work.name] and pair.work.name != "stop":
        shown = f"{pair.verdict[0]} {pair.work.line.name} draw {pair.work.draw}"
        yield f"a draw {pair.verdict[0]}", text == shown and pair.work.line.draw == pair.work.draw
    if event in ("view", "state", "halt", "lock", "start", "report", "bind", "unbind", "write", "flr", "firmware"):
        yield from shown_of_interface(past, pair, pair.before[pair.first], pair.after[pair.first])


def shown_of_interface(past: Past, pair: Pair, was: Standing, now: Standing) -> Instances:
    event, verdict, place = pair.words[0], pair.verdict, pair.first
    handle, text = past.world.handles[place], " ".join(pair.verdict)
    if event == "view":
        yield f"a view {was.view}", text == f"view {place} {was.view}"
    if event == "state" and not is_lost(pair):
        yield f"a state {was.state}", text == f"state {place} {was.state}"
    if event == "halt" and not is_lost(pair):
        needs = past.world.draws if was.is_started else was.needs
        yield "needs", text == f"halted {place} needs {needs}"
    if event in ("write", "flr", "firmware"):
        name = {"write": "written"}.get(event, event)
        yield f"a state after a {event}", text == f"{name} {place} {now.state}"
    if verdict[0] == "locked":
        used = sum(one.locks for one, other in zip(pair.before, past.world.handles) if other.link == handle.link)
        nonces = past.plan.links[handle.link].nonces
        yield "a nonce", used < len(nonces) and text == f"locked {place} {nonces[used].hex()}"
    if verdict[0] == "started":
        yield "a draw started", text == f"started {place} draw {handle.line.draw}"
    if verdict[:2] == ["refused", "refreshfirst"] and event == "start":
        yield "a draw refused", text == f"refused refreshfirst {handle.line.draw} {was.needs}"
    if verdict[:2] == ["refused", "wrongstate"]:
        yield "a view refused", text == f"refused wrongstate {was.view}"


def status_of(past: Past, end: End) -> str:
    live = [any(slot.state == "live" for slot in lane.slots) for lane in end.tx + end.rx]
    if past.has_failed(end):
        return "insecure"
    return "secure" if all(live) else "partial" if any(live) else "idle"


# ---- checks that fail


def fail_law(past: Past, pair: Pair) -> Instances:
    """A verdict says that a check failed exactly if one fails of the packet that arrived, and names the first."""
    cause, end = cause_of_failure(past, pair), pair.arrival.end if pair.arrival else None
    if cause is None:
        if pair.verdict[0] == "fail" or pair.arrival:
            yield "no failure", pair.verdict[0] != "fail"
        return
    shown = ["fail", end.port, str(end.plan.id), SUB_NAMES[pair.arrival.packet.sub], cause]
    yield f"a failure by {cause} on {KINDS[end.line.letter]}", pair.verdict == shown


def cause_of_failure(past: Past, pair: Pair) -> Optional[str]:
    arrival = pair.arrival
    if arrival is None or arrival.packet is None or arrival.end is None or past.has_failed(arrival.end):
        return None
    packet, sub = arrival.packet, past.sub(arrival.lane)
    named, other = arrival.keys[packet.k], arrival.keys[1 - packet.k]
    if "live" not in (named[0], other[0]):
        return None
    if named[0] != "live":
        return "key"
    held = sub.unders[named[1]].held
    posted = past.sub((arrival.lane[0], arrival.lane[1], PR))
    count = sub.posted + sum(one.posted for one in held) + packet.posted
    return first_of([
        ("unit", other[0] == "live" and len(sub.unders[other[1]].held) > 0),
        ("unit", not packet.m and arrival.end.plan.mode <= len(held) + 1),
        ("tag", bool(packet.m) and not past.is_verified(arrival.lane, named[1], held + [packet])),
        ("order", bool(packet.m) and packet.sub != PR and count > posted.got),
    ])


# ---- requests that are blocked, and reads that are dropped


def block_law(past: Past, pair: Pair) -> Instances:
    """Of each packet of an accepted unit the effect is blocked exactly if a cause holds, and by the first that does;
    exactly a sync packet has the effect `sync`. An answer drops the oldest read exactly if a cause holds, of the
    interface of its requester ID, by the first."""
    reads = past.device_reads if pair.unit and pair.unit.end.is_at_device else past.reads
    waiting = len(reads[pair.unit.end.link]) if pair.unit else 0
    for one in pair.unit.packets if pair.unit else []:
        cause = cause_of_block(past, pair, one, waiting)
        waiting += one.effect == "queued"
        shown = one.effect[len("blocked:"):] if one.effect.startswith("blocked:") else None
        where = "a host" if pair.unit.end.is_at_host else "a device" if pair.unit.end.is_at_device else "a switch"
        kind = one.kind if one.kind in ("memwrite", "memread") else "another TLP"
        yield f"{kind} at {where}: {cause or 'not blocked'}", shown == cause
        yield "sync", (one.effect == "sync") == (one.kind == "sync")
    if pair.words[0] == "answer" and pair.first < len(past.plan.links) and past.reads[pair.first]:
        cause = cause_of_drop(past, pair)
        owner = past.reads[pair.first][0].owner
        shown = pair.verdict[1:] if pair.verdict[0] == "dropped" else None
        yield f"an answer: {cause or 'not dropped'}", shown == ([str(owner), cause] if cause else None)


def cause_of_block(past: Past, pair: Pair, one: Arrived, waiting: int) -> Optional[str]:
    end, t = pair.unit.end, bool(one.packet.t)
    if end.is_at_host and one.kind == "memwrite":
        causes = [("nottrusted", not t)] + granting(past, pair, one) + placing(past, one.address, one.length)
        return first_of(causes)
    if end.is_at_host and one.kind == "memread" and t:
        read = WaitingRead(one.header, pair.unit.draw)
        full = [("full", waiting >= MOST_WAITING_BY_RULE)]
        return first_of(granting(past, pair, one) + placing(past, read.address, read.length) + full)
    if not end.is_at_device or one.kind not in ("memwrite", "memread"):
        return None
    length = one.length if one.kind == "memwrite" else WaitingRead(one.header, pair.unit.draw).length
    claim = claim_at(past, pair.before, end.link, one.address, length)
    if claim is None or one.kind == "memread" and not past.world.handles[claim[0]].plan.reads:
        return None
    was = pair.before[claim[0]]
    floor = was.floors.get(end.plan.id)
    return first_of([
        ("crosses", one.address // PAGE != (one.address + length - 1) // PAGE),
        ("nottrusted", not t and not is_open(past, *claim) and was.state != UNLOCKED),
        ("notrunning", t and was.state != RUN),
        ("wrongstream", t and floor is None),
        ("stale", t and floor is not None and pair.unit.draw < floor),
        ("full", one.kind == "memread" and waiting >= MOST_WAITING_BY_RULE),
    ])


def granting(past: Past, pair: Pair, one: Arrived) -> List[Tuple[str, bool]]:
    owner = past.owner(pair.unit.end, one.requester)
    was = pair.before[owner] if owner is not None else None
    return [
        ("notrunning", was is None or was.view != "running"),
        ("wrongstream", owner is not None and past.world.handles[owner].plan.stream != pair.unit.end.plan.id),
        ("stale", was is not None and pair.unit.draw < was.floor),
    ]


def placing(past: Past, address: int, length: int) -> List[Tuple[str, bool]]:
    has_all = any(one.base <= address and address + length <= one.base + one.size for one in past.plan.memory)
    return [("outside", not has_all), ("crosses", address // PAGE != (address + length - 1) // PAGE)]


def cause_of_drop(past: Past, pair: Pair) -> Optional[str]:
    first = past.reads[pair.first][0]
    was, plan = pair.before[first.owner], past.world.handles[first.owner].plan
    return first_of([
        ("notrunning", was.view != "running"),
        ("wrongstream", taken_by(past, pair.first, first.read) != plan.stream),
        ("stale", first.read.draw < was.floor),
    ])


def taken_by(past: Past, link: int, read: WaitingRead) -> Optional[int]:
    """The stream of the link that takes the completion of a read: by its requester ID, or the default, or by its
    traffic class."""
    streams, traffic_class = past.plan.links[link].streams, read.header[1] >> 4 & 7
    selective = [one for one in streams if one.kind == "selective"]
    by_id = [one.id for one in selective if one.rid and one.rid[0] <= read.requester <= one.rid[1]]
    default = [one.id for one in selective if one.default]
    by_class = [one.id for one in streams if one.kind == "link" and traffic_class in one.tcs]
    return next(iter(sorted(by_id)[:1] + default + by_class), None)


# ---- operations that succeed


def operation_law(past: Past, pair: Pair) -> Instances:
    """If no message of it is lost: an establish that the manager does not refuse is established, and a refresh
    refreshed if no sender has an unfinished unit in the set to be given; a stop is stopped, and a halt halted, whatever
    stands; a lock of an Unlocked view whose stream is Secure at both ends, with a nonce left and BARs that do not
    overlap, is locked; a report of a view that is Locked or Running, of an interface in CONFIG_LOCKED or RUN, is
    reported; a start of a Locked view that is reported, with its stream Secure at the host and under no older draw than
    it needs, is started exactly in CONFIG_LOCKED."""
    if not is_asked_whole(pair):
        return
    event, name = pair.words[0], pair.verdict[0]
    if pair.work and pair.work.name == "stop":
        yield event, name == f"{pair.work.line.letter}stopped"
    if pair.work and pair.work.name == "establish":
        is_begun = pair.work.operation.name == "idle" and 6 * pair.work.draws < len(past.plan.pool)
        if is_begun or pair.work.operation.name == "establish":
            kind = "begins" if is_begun else "goes on"
            yield f"{event} that {kind}", name == f"{pair.work.line.letter}established"
    if event == "refresh" and pair.work:
        yield from refresh_succeeds(past, pair)
    if event == "halt":
        yield "a halt", name == "halted"
    if event in ("lock", "report", "start"):
        handle, was = past.world.handles[pair.first], pair.before[pair.first]
        status = [status_of(past, end) for end in handle.line.ends]
        if event == "lock" and was.view == "unlocked" and status == ["secure", "secure"]:
            if has_nonce(past, pair.before, handle.link) and not overlap(handle.plan, was.registers):
                yield "a lock", name == "locked"
        if event == "report" and was.view in ("locked", "running") and was.is_locked:
            yield "a report", name == "reported"
        if event == "start" and was.view == "locked" and status[HOST] == "secure" and was.needs <= handle.line.draw:
            if (pair.first, was.locks) in past.reports_shown:
                due = "started" if was.state == LOCKED else f"refused devicerefused 1 {ERROR_STATE}"
                yield f"a start in state {was.state}", " ".join(pair.verdict).startswith(due)


def refresh_succeeds(past: Past, pair: Pair) -> Instances:
    operation, verdict, key_set = pair.work.operation, pair.verdict, pair.work.key_set
    is_begun = operation.name == "up" and pair.work.status[HOST] == "secure"
    if is_begun and 6 * pair.work.draws < len(past.plan.pool) or operation.name == "refresh":
        is_open = [[bool(lane.slots[key_set].packets) for lane in end.tx] for end in pair.work.line.ends]
        is_due = verdict[0] == "refreshed"
        if verdict[:2] == ["refused", "unitopen"]:
            is_due = is_open[HOST][SUB_NAMES.index(verdict[2])]
        if verdict[:2] == ["refused", "devicerefused"]:
            is_due = number(verdict[2]) in (4, 5, 6) and is_open[DEVICE][number(verdict[2]) - 4]
        yield f"refresh that {'begins' if is_begun else 'goes on'}", is_due


def has_nonce(past: Past, standings: List[Standing], link: int) -> bool:
    used = sum(one.locks for one, other in zip(standings, past.world.handles) if other.link == link)
    return used < len(past.plan.links[link].nonces)


def overlap(plan: InterfacePlan, registers: dict) -> bool:
    spans = [(registers[f"bar{n}"], registers[f"bar{n}"] + PAGE * bar.pages) for n, bar in enumerate(plan.bars)]
    return any(max(a[0], b[0]) < min(a[1], b[1]) for n, a in enumerate(spans) for b in spans[n + 1:])


# ---- recovery


def recoveries(world: World) -> Iterator[str]:
    """What brings each interface to RUN again, one after another."""
    for handle in world.handles:
        yield from recovery(world, handle.number)


def recovery(world: World, interface: int) -> List[str]:
    """What brings an interface to RUN again, whatever happened."""
    handle = world.handles[interface]
    stream = f"{handle.link} {handle.plan.stream}"
    lines = [f"halt {interface}", f"stop {stream}", f"establish {stream}"]
    return lines + [f"{event} {interface}" for event in ("flr", "lock", "report", "start")]


def recovery_law(past: Past, pair: Pair) -> Instances:
    """Halt, stop, establish, level reset, lock, report and start, with no message lost, bring an interface to RUN
    exactly if a draw and a nonce are left and by the topology no BARs of it overlap. A stop and an establish of a
    stream of any line, with a draw left, leave it Secure at both ends."""
    pairs = past.recent[-6:] + [pair]
    if pair.words[0] == "start" and len(pairs) == 7 and pair.first < len(past.world.handles):
        handle, first = past.world.handles[pair.first], pairs[0]
        if [" ".join(one.words) for one in pairs] == recovery(past.world, pair.first):
            draws = pairs[2].work.draws
            planned = {f"bar{n}": bar.base for n, bar in enumerate(handle.plan.bars)}
            can = 6 * draws < len(past.plan.pool) and has_nonce(past, first.before, handle.link)
            can = can and not overlap(handle.plan, planned)
            before, now = first.before[pair.first], pair.after[pair.first]
            is_shown = [" ".join(one.verdict[:2]) for one in pairs] == due_of(handle, pair.first)
            is_shown = is_shown and pairs[2].verdict[-1] == pair.verdict[-1] == str(draws)
            is_shown = is_shown and pairs[5].verdict[2] == planned_report(handle.plan)
            kind = f"an interface in state {before.state} with view {before.view}"
            is_running = now.state == RUN and now.view == "running"
            yield kind if can else "an interface that lacks what it takes", can == is_shown == is_running
    if pair.work and pair.work.name == "establish" and "lose" not in pair.words and len(pairs) > 1:
        last = pairs[-2]
        if last.work and last.work.name == "stop" and last.work.line is pair.work.line and "lose" not in last.words:
            if 6 * pair.work.draws < len(past.plan.pool):
                line = pair.work.line
                names = [last.verdict[0], pair.verdict[0]]
                is_due = names == [f"{line.letter}stopped", f"{line.letter}established"]
                is_secure = [end.status() for end in line.ends] == ["secure", "secure"]
                yield f"a stream of {KINDS[line.letter]}", is_due and is_secure


def due_of(handle, place: int) -> List[str]:
    names = ["flr", "locked", "reported", "started"]
    stream = [f"stopped {handle.link}", f"established {handle.link}"]
    return [f"halted {place}"] + stream + [f"{name} {place}" for name in names]


def planned_report(plan: InterfacePlan) -> str:
    registers = {name: getattr(plan, name) for name in ("msix", "lnr", "tph")}
    registers.update({f"bar{n}": bar.base for n, bar in enumerate(plan.bars)})
    return report_bytes(plan, registers, plan.flags, plan.offset).hex()
