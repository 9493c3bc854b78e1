"""Trusted memory at the host, byte by byte, and the reads of it that wait (docs/RULES.md)."""

from dataclasses import dataclass
from typing import List, Optional

from plan import RegionPlan

PAGE = 4096
MOST_WAITING = 64


class Memory:
    def __init__(self, regions: List[RegionPlan]):
        self.regions = [(region.base, bytearray(region.size)) for region in regions]

    def region_of(self, address: int, length: int) -> Optional[int]:
        """The number of the region that has all of these bytes."""
        for number, (base, contents) in enumerate(self.regions):
            if base <= address and address + length <= base + len(contents):
                return number
        return None

    def blocks(self, address: int, length: int) -> Optional[str]:
        """Why no write may touch these bytes, whoever sends it."""
        if self.region_of(address, length) is None:
            return "outside"
        return "crosses" if crosses(address, length) else None

    def write(self, address: int, payload: bytes, first: int, last: int):
        """Puts the bytes that the byte enables name; the bytes are in one region."""
        base, contents = self.regions[self.region_of(address, len(payload))]
        for place, byte in enumerate(payload):
            if enabled(place, len(payload), first, last):
                contents[address - base + place] = byte

    def read(self, address: int, length: int) -> Optional[bytes]:
        number = self.region_of(address, length)
        if number is None:
            return None
        base, contents = self.regions[number]
        return bytes(contents[address - base: address - base + length])


@dataclass
class WaitingRead:
    """A read that a port accepted, by its header, and the draw it came under."""

    header: bytes
    draw: int

    address = property(lambda self: int.from_bytes(self.header[8:], "big"))
    length = property(lambda self: 4 * (((self.header[2] & 3) << 8 | self.header[3]) or 1024))
    requester = property(lambda self: self.header[4] << 8 | self.header[5])

    def is_enabled(self, place: int) -> bool:
        return enabled(place, self.length, self.header[7] & 15, self.header[7] >> 4)

    def completion(self, contents: bytes, completer: int = 0) -> bytes:
        """One completion with all of the data (section 2.2.9), of which these are all bytes that the read names."""
        places = [place for place in range(self.length) if self.is_enabled(place)]
        first, last = (places[0], places[-1]) if places else (0, 0)
        count = (last - first + 1) % 4096
        header = bytes([0x4A, self.header[1], self.header[2] & 0x33, self.header[3]]) + completer.to_bytes(2, "big")
        header += count.to_bytes(2, "big")
        header += self.header[4:7] + bytes([(self.address + first) & 127])
        return header + bytes(byte if self.is_enabled(place) else 0 for place, byte in enumerate(contents))


def crosses(address: int, length: int) -> bool:
    return address // PAGE != (address + length - 1) // PAGE


def enabled(place: int, length: int, first: int, last: int) -> bool:
    """Whether byte enables name the byte at this place of a payload."""
    if place < 4:
        return bool(first >> place & 1)
    if place >= length - 4:
        return bool(last >> place % 4 & 1)
    return True
