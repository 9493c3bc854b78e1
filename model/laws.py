"""The laws of `run`, and a world that judges each of its events by all of them.

Each field of a part of the record `Laws` (crates/ide_cli/specs/Laws.antt) has the function of its name in a module
*_laws.py. `cause_law` has none: it is the comparison itself. Those that suppose that no tag was forged suppose it of
just the sub-streams and draws that they speak of.
"""

import collections
from dataclasses import replace
from typing import Callable, Dict, List, Optional, Tuple

import binding_laws as binding
import change_laws as change
import interface_laws as interface
import key_laws as key
import outcome_laws as outcome
import read_laws as read
import sending_laws as sending
import state_laws as states
import stream_laws as stream
from interfaces import ERROR, LOCKED, RUN
from links import PR, SUB_NAMES, End, Line, Loss, Malformed, cut, number
from memory import Memory, WaitingRead
from notes import KINDS, Arrival, Keyed, Kept, Pair, Past, Sealed, Standing, Touch, Work, keys_of, unit_of
from plan import Plan
from stream_laws import Instances
from world import World

ON = [f" on {kind}" for kind in KINDS.values()]

STATE_CAUSES = ["lock from 0 to 1", "start from 1 to 2", "reset from 3 to 0"]
STATE_CAUSES += [f"halt from {state} to 0" for state in (1, 2, 3)]
STATE_CAUSES += [f"{event} from {state} to 3" for event in ("write", "flr", "firmware", "stream that leaves Secure")
                 for state in (1, 2)]
BLOCKS = ["nottrusted", "notrunning", "wrongstream", "stale", "outside", "crosses"]
# how interfaces stand that are brought to RUN again: state and view
RECOVERED = [(0, "unlocked"), (0, "broken"), (0, "doubt"), (1, "locked"), (1, "doubt"), (2, "running"), (2, "doubt")]
RECOVERED += [(3, "locked"), (3, "running"), (3, "broken")]

# each law with all instances that a long enough run has
LAWS: Dict[Callable[[Past, Pair], Instances], List[str]] = {
    stream.draws_never_fall: [f"the {which} draw{on}" for which in ("same", "next") for on in ON],
    stream.whole_law: [f"accepted{on}" for on in ON + [" on a link that is closed"]]
    + [f"held{on}" for on in (ON[0], ON[2], " on a link that is closed")],
    stream.whole_law_by_order: [f"accepted{on}" for on in ON + [" on a link that is closed"]]
    + [f"held{on}" for on in (ON[0], ON[2], " on a link that is closed")],
    stream.honest_law: [
        f"{what}{behind}"
        for what in [f"accepted{on}" for on in (ON[0], " on a link that is closed")]
        + [f"held{on}" for on in (ON[0], " on a link that is closed")]
        for behind in ("", " behind a refresh")
    ]
    + [f"accepted{on}" for on in ON[1:]] + [f"held{ON[2]}"],
    stream.honest_delivery: [f"{what}{on}" for what in ("whole units", "an open unit") for on in (ON[0], ON[2])]
    + [f"whole units{ON[1]}"],
    stream.fresh_law: list(KINDS.values()),
    stream.pass_law: [f"a packet of {kind}" for kind in KINDS.values()],
    stream.order_is_no_forgery: [f"a tag{on}" for on in ON],
    stream.count_law: [f"{what} count{on}" for what in ("a", "no") for on in ON],
    stream.operations_settle: [
        f"{letter}{done}{when}"
        for letter, done in [("", "refreshed")] + [(one, end) for one in KINDS for end in ("established", "stopped")]
        for when in ("", " at last")
    ],
    stream.stream_stays_secure: [f"a refresh that is {what}" for what in ("refreshed", "lost", "refused")],
    stream.keys_follow_operations: ["a place of a packet", "the draws of a stream", "a stream that is refresh"]
    + [f"a stream that is {letter}{name}" for letter in KINDS for name in ("idle", "establish", "up", "stop")],
    stream.set_go_finds_key: [f"a GO{on}" for on in ON],
    stream.ended_keys_stay_out: ["a program", "a go", "a stop", "another touch"],
    key.keys_in_use: [f"{what}{on}" for what in ("a packet", "accepted") for on in ON]
    + [f"held{on}" for on in (ON[0], ON[2])],
    key.stop_takes_keys: [f"a {word}{kind}" for word in ("stop on ", "reset of ") for kind in KINDS.values()]
    + ["a place in a stop", "a key that is used", "a key that is used in a stop"],
    key.refresh_takes: ["a refresh that has ended", "a unit that is left under an older key", "a place with a key"]
    + [f"a unit that begins{on}" for on in ON],
    key.key_limits: ["a unit of a key", "the last unit of a key", "a unit that is accepted", "a packet that is held"]
    + ["a key that seals again"],
    key.forgeries_are_of_cipher: ["a tag", "a forgery"],
    stream.failed_law: [f"an arrival{on}" for on in ON]
    + ["a send", "a psend", "a forward", "an answer", "a respond"],
    stream.numbers_fresh: [f"a number{on}" for on in ON] + ["a key and an IV again"],
    stream.keystream_fresh: ["no payload", "a payload", "a payload behind another one"]
    + ["a payload behind another one, past 256 blocks"],
    stream.named_law: [f"{kind} that is {place}" for kind in stream.NAMED for place in ("there", "not there")],
    stream.prefix_law: [f"{what}{on}" for what in ("a unit", "a draw") for on in ON]
    + ["an older draw on a closed stream"],
    stream.delivery_law: [f"a TLP{on}" for on in ON] + [f"TLPs{on}" for on in (ON[0], ON[2])] + [f"no TLP{ON[0]}"],
    stream.order_law: [
        f"{what}{on}" for what in ("a unit", "the first unit") for on in ON + [f"{ON[0]} that is closed"]
    ],
    stream.hop_law: ["a TLP that is forwarded", "a TLP that is forwarded with T", "a TLP behind a switch"],
    sending.choice_law: ["an answer", "a respond", "a forward"]
    + [f"a TLP that is taken by {way}" for way in ("range", "default", "class", "the hop", "its name", "none")],
    sending.cover_law: [f"a TLP in clear at a {where}" for where in ("host", "device")],
    sending.exact_trust_law: [
        f"{t} at a {where}"
        for t in ("T", "no T")
        for where in (f"host{ON[0]}", f"host{ON[1]}", f"device{ON[0]}", f"device{ON[2]}", "switch")
    ]
    + ["a sync packet", f"no T at a device{ON[1]}", f"T of a response{ON[0]}", f"T of a response{ON[2]}"]
    + [f"no T of a response{on}" for on in ON],
    sending.send_law: ["bytes that are no TLP"]
    + [f"a {event} that is {end}" for event in ("send", "psend", "forward") for end in ("sealed", "refused")]
    + ["a forward that is empty"]
    + [f"an answer that is {end}" for end in ("empty", "dropped", "sealed", "refused")]
    + [f"a response that is {end}" for end in ("empty", "sealed", "refused")],
    sending.sealed_comes_from: [f"a TLP of a {event}" for event in ("send", "psend", "forward")]
    + ["a completion", "a completion of a device", "a sync packet"],
    interface.run_law: ["a report", "registers at a lock", "registers that were written"]
    + [f"a {event} that a lock forbids" for event in ("write", "flr", "firmware")],
    interface.reports_are_shown: ["a RUN", "a later RUN"],
    interface.lock_law: ["a lock", "a binding"],
    interface.unlocked_is_scrubbed: [
        f"a {event}{filled}" for event in ("halt", "reset") for filled in ("", " over bytes")
    ],
    interface.bind_law: [f"a binding in state {state}" for state in (LOCKED, RUN)],
    interface.trusted_packets_fit_view: [
        f"{what}{beside}"
        for what in ("no START", "a view unlocked", "a view locked", "a view running")
        for beside in ("", " over packets with T")
    ],
    interface.views_are_true: ["a view unlocked"]
    + [f"a view {view}{state}" for view in ("locked", "running") for state in ("", " in ERROR")],
    interface.one_lock_per_key: ["two packets", "two packets of a later lock"],
    interface.answers_law: ["an answer", "an answer under a later lock"],
    interface.memory_law: ["no write of a unit", "a write of a unit", "writes of a unit", "memory of zeros"]
    + ["memory with bytes"],
    interface.effect_law: [f"queued{ON[0]}", f"blocked:full{ON[0]}", f"waiting{ON[1]}"]
    + [f"{effect}{on}" for effect in ("stored", "another effect") for on in ON],
    interface.read_law: ["a read that is answered", "a read that is dropped", "reads that wait"],
    interface.answer_law: ["an answer"],
    interface.mmio_law: ["a BAR of zeros", "a BAR with bytes", "a floor", "a floor of a later RUN"]
    + ["a byte that a write with T changes"],
    states.state_law: [f"a {cause}" for cause in STATE_CAUSES] + ["a nonce of a start"],
    states.nonce_law: ["a lock", "a later lock of a link"],
    states.shown_state_law: ["a verdict flr 0", "a verdict flr 3"]
    + [f"a verdict {name} {state}" for name in ("written", "firmware", "state") for state in range(4)],
    states.leaving_law: [f"its own stream from {state} to {then}" for state in (LOCKED, RUN) for then in (0, 3)]
    + [f"a stream of a binding from {state} to {ERROR}" for state in (LOCKED, RUN)],
    states.view_law: [f"a {cause} of a view broken" for cause in ("halted", "lost halt")]
    + [f"a {cause} of a view running" for cause in ("halted", "lost halt", "state")]
    + [f"a {cause} of a view unlocked" for cause in ("locked", "lost lock", "lost halt")]
    + [f"a {cause} of a view locked" for cause in ("halted", "started", "lost start", "refused start", "state")]
    + [f"a {cause} of a view {view}" for cause in ("stop", "pstop", "reset") for view in ("locked", "running", "doubt")]
    + ["a halted of a view doubt", "a lost halt of a view locked"],
    states.error_law: ["no binding", "an end of ERROR", "a packet", "a write"],
    interface.origin_law: ["a write"],
    interface.read_origin_law: ["a read"],
    interface.byte_origin: ["a byte"],
    binding.streams_stand_alone: [f"what {law.__name__} says" for law in binding.OF_A_STREAM] + ["a byte"],
    read.device_read_law: [f"a response without T{on}" for on in ON]
    + ["a response with T on a link", "a response with T on a stream between devices", "a read that is dropped"]
    + ["reads that wait"],
    read.device_effect_law: [f"{effect}{on}" for effect in ("queued", "delivered", "blocked:crosses") for on in ON]
    + [f"blocked:{cause}{on}" for cause in ("nottrusted", "notrunning", "wrongstream") for on in ON]
    + [f"blocked:{cause}{ON[0]}" for cause in ("stale", "full")] + ["no read"],
    read.respond_law: ["none", "empty", "sealed", "refused as a send", "refused refreshfirst"]
    + [f"dropped {cause}" for cause in ("moved", "nottrusted", "notrunning", "wrongstream", "stale")],
    read.exposure_law: ["a packet", "a packet of a later lock"],
    read.device_read_origin_law: ["a read of the host", "a read of another device", "a response"],
    read.response_origin_law: ["a completion with bytes", "a completion of zeros"],
    interface.mmio_origin_law: [
        f"a write of {who}{when}" for who in ("the host", "another device") for when in ("", " from before the lock")
    ],
    binding.bindings_are_asked: ["a binding", "a binding of a later lock"],
    binding.bindings_last: [
        f"a binding over {event}" for event in ("bind", "unbind", "start", "write", "another event")
    ],
    binding.verdicts_tell_bindings: ["bound", "unbound"],
    binding.stops_break_views: ["a stop that is lost", "a stop that is pstopped"],
    binding.bindings_hold_keys: ["a binding"],
    binding.peers_are_never_stale: ["a unit"],
    binding.trusted_on_all_streams: [
        f"{what}{beside}"
        for what in ("no START", "a view unlocked", "a view locked", "a view running")
        for beside in ("", " over packets with T")
    ],
    binding.one_lock_per_peer_key: ["a packet", "a packet of a later draw"],
    binding.one_lock_per_stored_key: [f"two writes{ON[0]}", f"two writes{ON[2]}"],
    binding.peer_origin_law: [
        f"a packet of an owner that {what}" for what in ("is bound", "is not bound", "runs in another lock")
    ],
    binding.peer_store_law: ["a write"],
    change.inert_law: sorted(set(change.KINDS_OF_INERT.values())),
    change.reset_law: [f"{what} of {kind}" for what in ("an end", "another end", "a stream") for kind in KINDS.values()]
    + ["what waits", "what waits elsewhere", "an interface"],
    change.exact_through_law: ["bytes at a host or a device", "bytes at a switch", "bytes at a switch that go through"],
    change.hop_trust_law: ["a packet behind a switch", "a packet behind a switch with T", "an answer"]
    + ["a packet that a device sends on a hop"],
    change.streams_apart: list(KINDS.values()),
    change.hop_order_law: [
        f"TLPs behind a switch{again}{lost}"
        for again, lost in (("", ""), (" that was keyed again", ""), (" that was keyed again", " after a loss"))
    ],
    change.hop_posted_law: ["a TLP", "a TLP behind posted ones"],
    outcome.shown_law: ["a status", "a dump", "needs", "a nonce", "a view refused", "a draw refused"]
    + [f"a draw {name}" for name in ("established", "refreshed", "pestablished", "hestablished", "started")]
    + [f"a view {view}" for view in ("unlocked", "locked", "running", "doubt", "broken")]
    + [f"a state {state}" for state in range(4)]
    + [f"a state after a {event}" for event in ("write", "flr", "firmware")],
    outcome.fail_law: ["no failure"]
    + [f"a failure by {cause}{on}" for cause in ("key", "unit", "tag", "order") for on in ON],
    outcome.block_law: ["sync", "memwrite at a host: not blocked", "memread at a host: not blocked"]
    + [f"memwrite at a host: {cause}" for cause in BLOCKS]
    + [f"memread at a host: {cause}" for cause in BLOCKS[1:] + ["full"]]
    + [f"memwrite at a device: {cause}" for cause in ["not blocked", "crosses"] + BLOCKS[:4]]
    + [f"memread at a device: {cause}" for cause in ["not blocked", "crosses", "full"] + BLOCKS[:4]]
    + [f"an answer: {cause}" for cause in ["not dropped"] + BLOCKS[1:4]],
    outcome.operation_law: [f"{letter}stop" for letter in KINDS]
    + [f"{letter}establish that {how}" for letter in KINDS for how in ("begins", "goes on")]
    + ["refresh that begins", "refresh that goes on", "a halt", "a lock", "a report"]
    + ["a start in state 1", "a start in state 3"],
    outcome.recovery_law: [f"a stream of {kind}" for kind in KINDS.values()] + ["an interface that lacks what it takes"]
    + [f"an interface in state {state} with view {view}" for state, view in RECOVERED],
}

# those that speak of accepted units alone
OF_UNITS = {stream.draws_never_fall, stream.count_law, stream.prefix_law, stream.delivery_law, stream.order_law}
OF_UNITS |= {interface.one_lock_per_key, interface.effect_law, interface.origin_law, interface.read_origin_law}
OF_UNITS |= {interface.mmio_origin_law, read.device_effect_law, read.response_origin_law}
OF_UNITS |= {binding.one_lock_per_stored_key, binding.peer_origin_law, binding.peer_store_law}
OF_UNITS |= {binding.peers_are_never_stale, change.hop_order_law, change.hop_posted_law}


# those that suppose that no tag was forged of the sub-stream and draw that they speak of
OF_UNFORGED = {stream.prefix_law, stream.delivery_law, stream.order_law, interface.origin_law}
OF_UNFORGED |= {interface.read_origin_law, interface.byte_origin, interface.mmio_origin_law}
OF_UNFORGED |= {binding.streams_stand_alone, binding.peer_origin_law, binding.peer_store_law}
OF_UNFORGED |= {read.device_read_origin_law, read.response_origin_law}
OF_UNFORGED |= {stream.hop_law, change.hop_order_law, change.hop_posted_law}
BESIDE = "what comes after a forgery elsewhere"


def instance_names() -> List[str]:
    names = [f"{law.__name__}: {kind}" for law, kinds in LAWS.items() for kind in kinds]
    return names + [f"{law.__name__}: {BESIDE}" for law in LAWS if law in OF_UNFORGED]


# ---- the world that is watched


class WatchedEnd(End):
    """An end that tells its line what touches its places of keys."""

    def touch(self, what: str, direction: int, sub: int, found: bool = True):
        touches = self.line.__dict__.setdefault("touches", [])
        keys = keys_of(self, direction, sub)
        touches.append(Touch(what, (self.line, self.side, direction, sub), found, keys, self.status()))

    def program(self, key_set: int, direction: int, sub: int, draw: int) -> bool:
        is_taken = super().program(key_set, direction, sub, draw)
        self.touch("program", direction, sub)
        return is_taken

    def go(self, key_set: int, direction: int, sub: int):
        slot, _ = self.pair(key_set, direction, sub)
        found = slot.state != "empty" and slot.draw == self.line.operation.draw
        super().go(key_set, direction, sub)
        self.touch("go", direction, sub, found)

    def halt(self, key_set: int, direction: int, sub: int):
        super().halt(key_set, direction, sub)
        self.touch("stop", direction, sub)


class WatchedMemory(Memory):
    """Trusted memory that counts its writes."""

    writes = 0

    def write(self, address: int, payload: bytes, first: int, last: int):
        super().write(address, payload, first, last)
        self.writes += 1


def state_of(line: Line) -> tuple:
    """What the manager keeps of a stream."""
    operation = line.operation
    return operation.name, operation.key_set, operation.draw, operation.exchange, line.draw


def state_of_end(end: End) -> tuple:
    """What an end keeps: whether a check failed, and of each lane its counts and its slots with their packets."""
    slots = [(slot.state, slot.draw, slot.units, [(one.prefix, one.header, one.body, one.tag) for one in slot.packets])
             for lane in end.tx + end.rx for slot in lane.slots]
    return end.failed, [(one.posted, one.carried, one.got, one.total) for one in end.tx + end.rx], slots


class Watched(World):
    """A world that judges each of its events by all laws. `instances` counts what the laws suppose; `refuted` has the
    number of each event that refutes a law, with the instance; `forged` counts the arrivals at which a tag verified on
    a unit that its partner had not sealed."""

    end_type = WatchedEnd

    def __init__(self, plan: Plan):
        super().__init__(plan)
        self.memory = WatchedMemory(plan.memory)
        self.past = Past(self)
        self.instances: collections.Counter = collections.Counter()
        self.refuted: List[Tuple[int, str]] = []
        self.forged = 0
        self.events = 0
        self.now: Optional[Kept] = None
        self.standings: List[Standing] = []
        self.standings = [self.standing(place) for place in range(len(self.handles))]
        self.forget()

    def forget(self):
        """What one event brings, works on, and seals."""
        self.arrival: Optional[Arrival] = None
        self.work: Optional[Work] = None
        self.tlp = b""
        self.memory.writes = 0

    # -- what the model does on the way

    def arrive(self, port: str, data: bytes) -> str:
        try:
            packet = cut(data)
        except Malformed:
            packet = None
        end = self.end_at(port, packet.stream) if packet else None
        keys = keys_of(end, 1 - end.side, packet.sub) if end else []
        self.arrival = Arrival(port, data, packet, end, keys)
        return super().arrive(port, data)

    def kept(self) -> Kept:
        lines = {line: (state_of(line), [state_of_end(end) for end in line.ends]) for line in self.lines()}
        handles = [(one.view, one.nonce, one.is_reported, one.start_was_asked, len(one.asked), one.floor, one.needs)
                   for one in self.handles]
        interfaces = [(one.state, dict(one.registers), one.stream, one.nonce, one.flags, dict(one.bindings), one.floor,
                       [dict(contents) for contents in one.guarded.contents], len(one.nonces))
                      for one in self.interfaces]
        waiting = {way: list(tlps) for way, tlps in self.waiting.items()}
        reads = [{link: [(one.header, one.draw) for one in ones] for link, ones in kept.items()}
                 for kept in (self.reads, self.device_reads)]
        return Kept(lines, (self.draws, len(self.packets), waiting, handles, interfaces), reads)

    def operate(self, name: str, line: Line, lost: Loss) -> str:
        status = [end.status() for end in line.ends] if name == "refresh" else []
        self.work = Work(name, line, replace(line.operation), self.draws, status)
        return super().operate(name, line, lost)

    def send_on(self, end: End, data: bytes, more: bool, trusted: bool, is_response: bool = False) -> str:
        self.tlp = data
        return super().send_on(end, data, more, trusted, is_response)

    # -- an event

    def verdict(self, line: str) -> str:
        words, before = line.split(), self.standings
        self.forget()
        oldest, keys, was = self.oldest(words), self.keys_out(words), self.now or self.kept()
        text = super().verdict(line)
        self.now = self.kept()
        verdict = text.split()
        self.events += 1
        self.standings = [self.standing(place) for place in range(len(self.handles))]
        sealed, unit = self.sealed_of(text, words, before), None
        if verdict[0] == "accepted" and self.arrival.end:
            unit = unit_of(self.past, self.arrival, verdict)
        touches = self.work.line.__dict__.pop("touches", []) if self.work else []
        self.judge(
            Pair(words, verdict, before, self.standings, sealed, self.arrival, unit, self.work, touches, oldest,
                 self.memory.writes, keys, was, self.now)
        )
        return text

    def oldest(self, words: List[str]) -> Optional[WaitingRead]:
        reads = self.reads.get(number(words[1]), []) if words[0] == "answer" else []
        return replace(reads[0]) if reads else None

    def keys_out(self, words: List[str]) -> Dict[Tuple[str, int], List[List[Keyed]]]:
        """Before an event that may seal the keys of the sub-streams that each end seals, by its port and stream."""
        if words[0] not in ("send", "psend", "forward", "answer", "respond"):
            return {}
        ends = [end for line in self.lines() for end in line.ends]
        return {(end.port, end.plan.id): [keys_of(end, end.side, sub) for sub in range(3)] for end in ends}

    def judge(self, pair: Pair):
        self.past.meet(pair)
        for law in LAWS:
            if pair.unit or law not in OF_UNITS:
                for kind, holds in law(self.past, pair):
                    name = f"{law.__name__}: {kind}"
                    self.instances[name] += 1
                    if law in OF_UNFORGED and self.past.is_forged:
                        self.instances[f"{law.__name__}: {BESIDE}"] += 1
                    if not holds:
                        self.refuted.append((self.events, name))
        self.past.note(pair)
        states.note_states(self.past, pair)
        self.forged += pair.is_forged

    def standing(self, place: int) -> Standing:
        """How an interface stands now; the very standing before, if nothing changed."""
        one, handle = self.interfaces[place], self.handles[place]
        was = self.standings[place] if self.standings else None
        if was and (one.state, handle.view, one.floor, handle.floor, handle.needs, handle.start_was_asked) == (
            was.state, was.view, was.device_floor, was.floor, was.needs, was.is_started
        ) and one.registers == was.registers and one.bindings == was.bindings and one.stream == was.stream:
            return was
        now = Standing(one.state, handle.view, one.stream, dict(one.bindings), one.floor, dict(one.registers),
                       handle.floor, handle.needs, handle.start_was_asked)
        if was:
            self.count_locks(now, was, handle)
        return now

    def count_locks(self, now: Standing, was: Standing, handle):
        is_locked, is_run = (was.state != state == now.state for state in (LOCKED, RUN))
        now.locks = was.locks + is_locked
        now.locked = was.registers if is_locked else was.locked
        now.entered, now.runs = [] if is_locked else was.entered, was.runs
        if is_run:
            end = self.end_at(f"d{handle.link}", handle.plan.stream)
            now.entered, now.runs = now.entered + [end.rx[PR].live_draw()], was.runs + [now.locks]

    def sealed_of(self, verdict: str, words: List[str], before: List[Standing]) -> List[Sealed]:
        """The packets of a `sealed` verdict."""
        if not verdict.startswith("sealed "):
            return []
        sealed = []
        for row in [row.split() for row in verdict[len("sealed "):].split(" ; ")]:
            place = int(row[0]) - 1
            data = self.packets[place][2]
            sealed.append(
                Sealed(self.end_at(row[1], int(row[2])), SUB_NAMES.index(row[3]), int(row[5]), int(row[7]),
                       row[10] == "t1", row[-1] == "sync", data, cut(data), self.tlp, words, before, place)
            )
        return sealed
