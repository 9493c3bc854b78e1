"""How often each rule answers an event or the effect of a packet, and how many tags are forged."""

import collections
from typing import List, Tuple

from facts import RULES, told
from laws import Watched
from notes import Kept, Pair


class Unjudged(Watched):
    """A world that is not judged, so that how all stood before an event need not be kept."""

    def kept(self) -> Kept:
        return Kept({}, (), [])

    def judge(self, pair: Pair):
        self.past.meet(pair)
        self.past.note(pair)
        self.forged += pair.is_forged


class Coverage:
    """What is counted of the events of a world."""

    def __init__(self, world: Watched):
        self.world = world
        self.rules: collections.Counter = collections.Counter()

    def step(self, line: str) -> Tuple[str, List[str]]:
        """The verdict of an event; the rule that answers it, and of an accepted unit that of each packet's effect."""
        verdict, lines = told(self.world, line)
        rules = [text.split()[1] for text in lines if text.startswith("rule ")]
        self.rules.update(rules)
        return verdict, rules

    def lines(self) -> List[str]:
        return [f"rule {name} {self.rules[name]}" for name in RULES] + [f"forged {self.world.forged}"]
