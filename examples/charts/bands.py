"""What each stream is at each port and what each interface is, event by event, as far as the verdicts show it.

A band is what a chart draws beside a lifeline. Its value is worked out from the verdicts by docs/RULES.md. Where they
do not settle it, the value is UNKNOWN.
"""

from dataclasses import dataclass, field, replace
from typing import Dict, List, Optional, Tuple

from charts.reading import DEVICE, HOST, KEY_OPERATIONS, Line, Row, Run, end_of, face_of, number, stream_of

UNKNOWN = "unknown"
STATES = ["unlocked", "locked", "run", "error"]
# the exchange of an establish whose reply makes the host's port secure, and the first GO at the device
HOST_KEYED, FIRST_GO, LAST = 10, 8, 13
# of a line that is keyed by messages at both ends: at which exchange an end has its first key, and at which its last
PAIR_KEYED = {HOST: (13, 21), DEVICE: (16, 24)}
# and after which exchange of a stop an end begins to be emptied, and is empty
PAIR_STOPPED = {HOST: (0, 12), DEVICE: (12, 24)}
Key = Tuple  # ("stream", line, side, id), ("view", interface) or ("state", interface)


def is_paired(line: Line) -> bool:
    """Whether both ends are keyed by messages."""
    return line.kind == "peer" or (line.kind, line.segment) == ("hop", 1)


@dataclass(frozen=True)
class Stream:
    """A stream at one port: its status, the newest draw that was shown there, and the operation that is unfinished."""

    status: str = "idle"
    draw: Optional[int] = None
    under_way: str = ""


@dataclass
class Work:
    """An operation on a stream's keys that is unfinished: its next exchange, and how many the device acted on."""

    verb: str
    next: int = 1
    done: int = 0


@dataclass
class Bands:
    """The values after the events that were followed so far, and all changes, each with the number of its event."""

    run: Run
    values: Dict[Key, object] = field(default_factory=dict)
    changes: Dict[Key, List[tuple]] = field(default_factory=dict)
    work: Dict[tuple, Work] = field(default_factory=dict)
    # to which streams between devices each interface is bound, and whose BIND was asked since its last lock
    bound_to: Dict[int, set] = field(default_factory=dict)
    asked: Dict[int, set] = field(default_factory=dict)
    event: int = 0

    def __post_init__(self):
        for place in range(len(self.run.topology.faces)):
            self.put(("view", place), "unlocked")
            self.put(("state", place), "unlocked")

    def put(self, key: Key, value):
        if key[0] == "state" and value in ("unlocked", "error"):
            self.bound_to.pop(key[1], None)
        if self.values.get(key) != value:
            self.values[key] = value
            self.changes.setdefault(key, []).append((self.event, value))

    def stream(self, line: Line, side: str, id: int) -> Stream:
        return self.values.get(("stream", line, side, id), Stream())

    def put_stream(self, line: Line, side: str, id: int, **fields):
        key = ("stream", line, side, id)
        if key not in self.values:
            self.changes[key] = [(0, Stream())]
        self.put(key, replace(self.stream(line, side, id), **fields))

    # -- one event

    def follow(self, row: Row):
        """Goes on by the event's verdict."""
        self.event = row.number
        verb, answer = row.verb(), row.answer()
        if not row.verdict or answer == "none":
            return
        for packet in row.packets:
            self.show_draw(packet.line, packet.side, packet.stream, packet.draw)
        if verb in KEY_OPERATIONS:
            self.on_keys(row)
        elif answer == "reset":
            self.on_reset(number(row.words[1]))
        elif answer == "status" and len(row.verdict) == 5:
            self.on_status(row)
        elif answer in ("accepted", "held", "fail", "insecure"):
            self.on_arrival(row)
        elif face_of(row, self.run) is not None:
            self.on_face(row, face_of(row, self.run))

    def show_draw(self, line: Line, side: str, id: int, draw: int):
        """A draw that was shown at a port; an older one changes nothing."""
        shown = self.stream(line, side, id).draw
        self.put_stream(line, side, id, draw=draw if shown is None else max(shown, draw))

    def on_status(self, row: Row):
        id = number(row.verdict[2])
        for side, status in zip((HOST, DEVICE), row.verdict[3:5]):
            self.put_stream(row.line_drawn, side, id, status=status)

    def on_arrival(self, row: Row):
        end, id = end_of(row, self.run), number(row.verdict[2])
        if not end or id is None:
            return
        line, side = end
        if row.answer() in ("fail", "insecure"):
            self.put_stream(line, side, id, status="insecure")
            self.end_faces(line, side, id, "error")
        elif number(row.verdict[5]) is not None:
            self.show_draw(line, side, id, number(row.verdict[5]))

    def on_reset(self, link: int):
        for key in list(self.values):
            if key[0] == "stream" and self.is_cleared(key[1], key[2], link):
                self.put(key, Stream())
        self.work = {at: work for at, work in self.work.items() if not self.run.topology.touches(at[0], link)}
        for place, face in enumerate(self.run.topology.faces):
            if face.link == link:
                self.put(("state", place), "unlocked")
                self.bound_to.pop(place, None)
                self.break_view(place)

    def is_cleared(self, line: Line, side: str, link: int) -> bool:
        """Of a stream between devices a reset of one of their links clears that end alone."""
        if line.kind != "peer":
            return line.number == link
        peer = self.run.topology.peers[line.number]
        return link == (peer.a if side == HOST else peer.b)

    # -- operations on keys

    def begun(self, row: Row) -> int:
        """The exchange at which the event goes on: 1, if it goes on with no earlier one."""
        work = self.work.get((row.line_drawn, stream_of(row, self.run)))
        return work.next if work and work.verb == row.verb() else 1

    def on_keys(self, row: Row):
        line, id, verb = row.line_drawn, stream_of(row, self.run), row.verb()
        if line is None or id is None:
            return
        if row.answer() == "refused" and row.verdict[1] != "devicerefused":
            self.on_refusal(row, line, id)
            return
        at, is_new = (line, id), False
        if at not in self.work or self.work[at].verb != verb:
            self.work[at], is_new = Work(verb), True
        if verb.endswith("stop"):
            self.stop_begins(line, id, is_new)
        if row.answer() in ("lost", "refused"):
            self.goes_on(at, row)
        else:
            del self.work[at]
            self.ends(row, line, id)

    def on_refusal(self, row: Row, line: Line, id: int):
        if row.verdict[1] == "notsecure":
            self.put_stream(line, HOST, id, status=row.verdict[2])

    def stop_begins(self, line: Line, id: int, is_new: bool):
        """A host's port is emptied first. Each event of a stop between devices breaks views, of others the first."""
        if is_new and not is_paired(line):
            self.put_stream(line, HOST, id, status="idle", draw=None)
        if line.kind == "peer":
            for place, peers in self.asked.items():
                if line.number in peers:
                    self.break_view(place)
        elif line.kind == "link" and is_new:
            for place in self.bound(line, DEVICE, id):
                self.break_view(place)

    def goes_on(self, at: tuple, row: Row):
        """An operation that stays at an exchange: what is known of the two ports in the meantime."""
        work, exchange = self.work[at], number(row.verdict[2]) or 0
        acted = exchange if row.verdict[:2] == ["lost", "reply"] else exchange - 1
        work.next, work.done = exchange, max(work.done, acted)
        line, id = at
        for side in (HOST, DEVICE):
            self.put_stream(line, side, id, under_way=work.verb)
        if work.verb.endswith("establish"):
            self.half_established(line, id, exchange, work.done)
        elif work.verb.endswith("stop") and is_paired(line):
            self.half_stopped(line, id, work.done)
        elif work.verb.endswith("stop") and work.done:
            self.put_stream(line, DEVICE, id, status=UNKNOWN)
            self.end_faces(line, DEVICE, id, UNKNOWN)

    def half_established(self, line: Line, id: int, exchange: int, done: int):
        """The host's keys are Live after the third GO's reply, those of other ends one by one with each GO."""
        if is_paired(line):
            for side, (first, last) in PAIR_KEYED.items():
                if done >= first:
                    self.keyed(line, side, id, "secure" if done >= last else "partial")
            return
        if exchange > HOST_KEYED:
            self.keyed(line, HOST, id, "secure")
        if done >= FIRST_GO:
            self.keyed(line, DEVICE, id, "secure" if done >= LAST else "partial")

    def half_stopped(self, line: Line, id: int, done: int):
        """The ends are emptied one after the other."""
        for side, (first, last) in PAIR_STOPPED.items():
            if done >= last:
                self.put_stream(line, side, id, status="idle", draw=None)
                self.end_faces(line, side, id, "error")
            elif done > first:
                self.put_stream(line, side, id, status=UNKNOWN)
                self.end_faces(line, side, id, UNKNOWN)

    def keyed(self, line: Line, side: str, id: int, status: str):
        """A failure stands until no key is left, so an operation that gives keys does not end it."""
        if self.stream(line, side, id).status != "insecure":
            self.put_stream(line, side, id, status=status)

    def ends(self, row: Row, line: Line, id: int):
        for side in (HOST, DEVICE):
            self.put_stream(line, side, id, under_way="")
            if row.answer().endswith("stopped"):
                self.put_stream(line, side, id, status="idle", draw=None)
                self.end_faces(line, side, id, "error")
            elif row.answer().endswith(("established", "refreshed")):
                self.keyed(line, side, id, "secure")
                self.put_stream(line, side, id, draw=number(row.verdict[-1]))

    # -- interfaces

    def bound(self, line: Line, side: str, id: int) -> List[int]:
        """The interfaces at this end that go by this stream: its own, or one that they are bound to."""
        faces = enumerate(self.run.topology.faces)
        if line.kind == "peer":
            peer = self.run.topology.peers[line.number]
            link = peer.a if side == HOST else peer.b
            return [place for place, face in faces if face.link == link and line.number in self.bound_to.get(place, ())]
        is_own = line.kind == "link" and side == DEVICE
        return [place for place, face in faces if is_own and (face.link, face.stream) == (line.number, id)]

    def break_view(self, place: int):
        if self.values["view", place] in ("locked", "running", "doubt"):
            self.put(("view", place), "broken")

    def end_faces(self, line: Line, side: str, id: int, state: str):
        """The stream is no longer secure at this end: the interfaces there that are locked or run go to this state."""
        for place in self.bound(line, side, id):
            if self.values["state", place] in ("locked", "run"):
                self.put(("state", place), state)

    def on_face(self, row: Row, place: int):
        answer, verdict, face = row.answer(), row.verdict, self.run.topology.faces[place]
        after = {"locked": ("locked", "locked"), "started": ("running", "run"), "halted": ("unlocked", "unlocked")}
        if row.verb() == "lock" and (answer == "locked" or number(verdict[-2] if len(verdict) > 2 else "") == 3):
            self.asked.pop(place, None)
        if row.verb() in ("bind", "unbind"):
            self.on_binding(row, place)
        if answer in after:
            self.put(("view", place), after[answer][0])
            self.put(("state", place), after[answer][1])
        elif answer == "view":
            self.put(("view", place), verdict[-1])
        elif answer in ("state", "written", "flr", "firmware"):
            self.show_state(row, place)
        elif answer == "lost":
            self.on_loss(row, place)
        elif verdict[:2] == ["refused", "wrongstate"]:
            self.put(("view", place), verdict[2])
        elif verdict[:2] == ["refused", "notsecure"]:
            if row.verb() not in ("bind", "unbind"):
                self.put_stream(Line("link", face.link), HOST, face.stream, status=verdict[2])
        elif verdict[:2] == ["refused", "devicerefused"]:
            self.device_refuses(row, place)

    def on_binding(self, row: Row, place: int):
        """A BIND that was asked counts at a stop, whatever came of it."""
        peer, answer = number(row.words[2]), row.answer()
        is_asked = answer in ("bound", "lost") or row.verdict[:2] == ["refused", "devicerefused"]
        if row.verb() == "bind" and is_asked:
            self.asked.setdefault(place, set()).add(peer)
        has_acted = answer in ("bound", "unbound") or row.verdict[:2] == ["lost", "reply"]
        if row.verb() == "bind" and has_acted:
            self.bound_to.setdefault(place, set()).add(peer)
        elif has_acted:
            self.bound_to.get(place, set()).discard(peer)

    def show_state(self, row: Row, place: int):
        shown = number(row.verdict[-1])
        if shown is None or shown >= len(STATES):
            return
        self.put(("state", place), STATES[shown])
        due = {"locked": "locked", "running": "run"}.get(self.values["view", place])
        if row.answer() == "state" and due and due != STATES[shown]:
            self.put(("view", place), "broken")

    def device_refuses(self, row: Row, place: int):
        if row.verb() == "start":
            self.put(("view", place), "broken")

    def on_loss(self, row: Row, place: int):
        """A lost reply leaves open what the device did; a halt it never refuses."""
        verb, exchange, state = row.verb(), number(row.verdict[2]), ("state", place)
        if verb not in ("lock", "start", "halt") or verb == "lock" and exchange != 3:
            return
        self.put(("view", place), "doubt")
        if row.verdict[1] == "request":
            return
        if verb == "halt":
            self.put(state, "unlocked")
        elif self.values[state] == {"lock": "unlocked", "start": "locked"}[verb]:
            self.put(state, UNKNOWN)
