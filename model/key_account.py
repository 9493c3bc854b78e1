"""Which keys a place has, told from verdicts alone: how far each operation came, which ends a reset cleared, what was
sealed and what accepted (docs/RULES.md). What the model itself keeps of keys is not read.
"""

from dataclasses import dataclass
from typing import TYPE_CHECKING, Dict, List, Optional, Set, Tuple

from links import LANES, Line

if TYPE_CHECKING:
    from notes import Pair, Sealed

# what a key set holds: the state of its slot, and the draw
Keyed = Tuple[str, int]
# an end of a line, and there a sub-stream: the line, the side, the direction and which of the three
Place = Tuple[Line, int, int, int]
OFF: Keyed = ("off", 0)


@dataclass
class Stage:
    """What is going on on a line, by verdicts: the exchange that is next of an operation."""

    name: str = "idle"
    key_set: int = 0
    draw: int = 0
    exchange: int = 0


@dataclass
class Reach:
    """An event of an operation: what it works with, its first exchange, whether it begins; each exchange below the one
    number was carried to its end, each below the other acknowledged."""

    stage: Stage
    begins: bool
    carried: int
    acknowledged: int

    def spans(self, number: int, is_local: bool) -> bool:
        first = 0 if is_local and self.begins else self.stage.exchange
        return first <= number < (self.acknowledged if is_local else self.carried)


def last_exchange(line: Line, name: str) -> int:
    return (13 if name == "establish" else 12) if line.is_hosted else 24


def numbers(line: Line, name: str, place: Place) -> Tuple[int, int, int]:
    """The exchanges that bring a place its key, make it On, and take the key of set 0 away."""
    _, side, direction, sub = place
    lane = sub + (3 if direction == side else 0)
    if line.is_hosted:
        is_refresh = int(name == "refresh")
        if side == 0:
            return 0, 10 - is_refresh, 1 + lane
        return 2 + lane - is_refresh, 8 + lane - is_refresh, 1 + lane
    if side == 0:
        return 1 + lane, (13 if lane < 3 else 16) + lane, 1 + lane
    return 7 + lane, (16 if lane < 3 else 19) + lane, 13 + lane


class Account:
    """The keys of all places, from verdicts."""

    def __init__(self):
        self.stages: Dict[Line, Stage] = {}
        self.keys: Dict[Place, List[Keyed]] = {}
        # the draws under which the last packet of a place left its unit unfinished
        self.opened: Dict[Place, Set[int]] = {}
        self.draws = 0
        # of the last event: the keys before each packet that it sealed or brought, and of each place that it touched
        self.found: List[List[Keyed]] = []
        self.before: Dict[Place, List[Keyed]] = {}

    def at(self, place: Place) -> List[Keyed]:
        return self.keys.get(place, [OFF, OFF])

    def stage(self, line: Line) -> Stage:
        return self.stages.get(line, Stage())

    # -- one event

    def note(self, lines: List[Line], pair: "Pair"):
        self.found, self.before = [], {}
        if pair.work:
            self.operate(pair.work.line, pair.work.name, pair.verdict)
        elif pair.verdict[0] == "reset":
            self.reset(lines, pair.first)
        for one in pair.sealed:
            place = (one.end.line, one.end.side, one.end.side, one.sub)
            self.found.append(self.at(place))
            self.seal(place, one)
        if pair.verdict[0] in ("held", "accepted") and pair.arrival and pair.arrival.end:
            line, direction, sub = pair.arrival.lane
            place = (line, pair.arrival.end.side, direction, sub)
            self.found.append(self.at(place))
            if pair.verdict[0] == "accepted":
                draw = int(pair.verdict[5])
                self.put(place, [OFF if is_on(one) and one[1] < draw else one for one in self.at(place)])

    def put(self, place: Place, keys: List[Keyed]):
        """After a touch: at a sender a key that is On goes if a greater one is On and no unit is open under it."""
        _, side, direction, _ = place
        self.before.setdefault(place, self.at(place))
        opened = self.opened.get(place, set())
        if direction == side:
            on = [draw for state, draw in keys if state == "on"]
            keys = [OFF if is_on(one) and one[1] < max(on) and one[1] not in opened else one for one in keys]
        self.keys[place] = keys

    def seal(self, place: Place, one: "Sealed"):
        opened = self.opened.setdefault(place, set())
        (opened.discard if one.packet.m else opened.add)(one.draw)
        self.put(place, self.at(place))

    def reset(self, lines: List[Line], link: int):
        for line in lines:
            sides = [end.side for end in line.ends if end.link == link]
            for side in sides if line.letter == "p" else [0, 1] if sides else []:
                for lane in LANES:
                    self.put((line, side, *lane), [OFF, OFF])
            if sides:
                self.stages[line] = Stage("stop", exchange=1) if line.letter == "p" else Stage()

    def operate(self, line: Line, name: str, verdict: List[str]):
        reach = self.reach(line, name, verdict)
        if reach is None:
            return
        stage, last = reach.stage, last_exchange(line, name)
        for side in (0, 1):
            for lane in LANES:
                self.touch((line, side, *lane), name, reach)
        if reach.begins and name != "stop":
            self.draws += 1
        at = Stage(name, stage.key_set, stage.draw, reach.acknowledged)
        ended = Stage() if name == "stop" else Stage("up", stage.key_set, stage.draw)
        self.stages[line] = ended if reach.acknowledged > last else at

    def reach(self, line: Line, name: str, verdict: List[str]) -> Optional[Reach]:
        now, last = self.stage(line), last_exchange(line, name)
        begins = now.name != name
        key_set = 1 - now.key_set if name == "refresh" else 0
        work = Stage(name, key_set, self.draws, 1) if begins else now
        if verdict[0].lstrip("hp") in ("established", "refreshed", "stopped"):
            return Reach(work, begins, last + 1, last + 1)
        if verdict[0] == "lost":
            at = int(verdict[2])
            return Reach(work, begins, at + (verdict[1] == "reply"), at)
        if verdict[:2] == ["refused", "devicerefused"]:
            return Reach(work, begins, int(verdict[2]) + 1, int(verdict[2]))
        return None

    def touch(self, place: Place, name: str, reach: Reach):
        line, side, direction, _ = place
        is_local = line.is_hosted and side == 0
        program, go, stop = numbers(line, name, place)
        stage = reach.stage
        if name == "stop":
            if is_local and reach.begins:
                self.put(place, [OFF, OFF])
            for key_set in (0, 1):
                if not is_local and stage.exchange <= stop + 6 * key_set < reach.carried:
                    self.put(place, with_key(self.at(place), key_set, OFF))
            return
        if reach.spans(program, is_local) and not refuses(self.at(place), stage.key_set, direction == side):
            self.put(place, with_key(self.at(place), stage.key_set, ("loaded", stage.draw)))
        if reach.spans(go, is_local):
            self.put(place, with_key(self.at(place), stage.key_set, ("on", stage.draw)))


def is_on(one: Keyed) -> bool:
    return one[0] == "on"


def with_key(keys: List[Keyed], key_set: int, one: Keyed) -> List[Keyed]:
    return [one, keys[1]] if key_set == 0 else [keys[0], one]


def refuses(keys: List[Keyed], key_set: int, sends: bool) -> bool:
    """A KEY_PROG of the set: at a receiver if its draw is On and no greater one is, at a sender if it is the least that
    is On."""
    mine, other = keys[key_set], keys[1 - key_set]
    if not is_on(mine) or not is_on(other):
        return is_on(mine)
    return mine[1] <= other[1] if sends else other[1] <= mine[1]


def draws_on(keys: List[Keyed]) -> List[int]:
    return [draw for state, draw in keys if state == "on"]
