"""The memory behind an interface's BARs, byte by byte (docs/RULES.md, Guarded memory)."""

from typing import List, Optional

from memory import PAGE, enabled
from plan import BarPlan

OPEN_TO_ALL = 4


class GuardedMemory:
    """Bytes by BAR and offset; one that was not written is 0."""

    def __init__(self, bars: List[BarPlan]):
        self.bars = bars
        self.clear()

    def clear(self):
        self.contents: List[dict] = [{} for _ in self.bars]

    def stopped(self):
        """Only the ranges that are open to all keep their bytes."""
        for number, contents in enumerate(self.contents):
            if not self.is_open(number):
                contents.clear()

    def is_open(self, bar: int) -> bool:
        return bool(self.bars[bar].attributes & OPEN_TO_ALL)

    def has(self, bar: int, offset: int, length: int) -> bool:
        return bar < len(self.bars) and 0 <= offset and offset + length <= PAGE * self.bars[bar].pages

    def write(self, bar: int, offset: int, payload: bytes, first: int, last: int):
        for place, byte in enumerate(payload):
            if enabled(place, len(payload), first, last):
                self.contents[bar][offset + place] = byte

    def read(self, bar: int, offset: int, length: int) -> Optional[bytes]:
        if not self.has(bar, offset, length):
            return None
        return bytes(self.contents[bar].get(offset + place, 0) for place in range(length))
