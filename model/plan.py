"""A topology: its tables, read from and written as TOML (docs/FORMATS.md, Topologies)."""

import json
import tomllib
from dataclasses import dataclass, field
from typing import List, Optional, Tuple


@dataclass
class StreamPlan:
    id: int
    kind: str = "selective"
    mode: int = 1
    rid: Optional[Tuple[int, int]] = None
    ranges: List[Tuple[int, int]] = field(default_factory=list)
    default: bool = False
    tcs: List[int] = field(default_factory=list)
    closed: bool = False

    def rows(self) -> List[str]:
        rows = ["[[link.stream]]"] + pairs(id=self.id, kind=self.kind, mode=self.mode)
        if self.rid:
            rows += pairs(rid=list(self.rid))
        if self.ranges:
            rows += pairs(ranges=[list(r) for r in self.ranges])
        if self.tcs:
            rows += pairs(tcs=self.tcs)
        return rows + [f"{name} = true" for name in ("default", "closed") if getattr(self, name)]


@dataclass
class BarPlan:
    base: int
    pages: int
    attributes: int = 0


@dataclass
class InterfacePlan:
    rid: int
    stream: int
    flags: int = 0
    offset: int = 0
    command: int = 0
    msix: int = 0
    lnr: int = 0
    cacheline: int = 0
    tph: int = 0
    pasid: int = 0
    ats: int = 0
    reads: bool = False
    info: bytes = b""
    bars: List[BarPlan] = field(default_factory=list)

    def rows(self) -> List[str]:
        rows = ["[[link.interface]]"] + pairs(rid=self.rid, stream=self.stream)
        names = ["flags", "offset", "command", "msix", "lnr", "cacheline", "tph", "pasid", "ats"]
        rows += pairs(**{name: getattr(self, name) for name in names if getattr(self, name)})
        rows += ["reads = true"] if self.reads else []
        if self.info:
            rows += pairs(info=self.info.hex())
        bars = [f"{{ {', '.join(pairs(base=b.base, pages=b.pages, attributes=b.attributes))} }}" for b in self.bars]
        return rows + ([f"bars = [{', '.join(bars)}]"] if bars else [])


@dataclass
class LinkPlan:
    streams: List[StreamPlan]
    interfaces: List[InterfacePlan] = field(default_factory=list)
    nonces: List[bytes] = field(default_factory=list)
    hop: Optional[int] = None
    hop_tcs: List[int] = field(default_factory=list)


@dataclass
class RegionPlan:
    base: int
    size: int


@dataclass
class PeerPlan:
    """A stream between the devices of the links a and b."""

    id: int
    a: int
    b: int
    mode: int = 1


@dataclass
class Plan:
    pool: List[bytes]
    links: List[LinkPlan]
    portion: int = 64
    units_per_key: int = 4294967296
    memory: List[RegionPlan] = field(default_factory=list)
    p2p: List[PeerPlan] = field(default_factory=list)

    def version(self) -> int:
        interfaces = [interface for link in self.links for interface in link.interfaces]
        has_hop = any(link.hop is not None for link in self.links)
        return 2 if self.p2p or has_hop or any(table.pasid or table.ats or table.reads for table in interfaces) else 1

    def toml(self) -> str:
        rows = pairs(version=self.version(), portion=self.portion, units_per_key=self.units_per_key)
        rows += pairs(pool=[key.hex() for key in self.pool])
        for link in self.links:
            rows.append("[[link]]")
            if link.nonces:
                rows += pairs(nonces=[nonce.hex() for nonce in link.nonces])
            if link.hop is not None:
                rows += pairs(hop=link.hop) + (pairs(hop_tcs=link.hop_tcs) if link.hop_tcs else [])
            for table in link.streams + link.interfaces:
                rows += table.rows()
        for region in self.memory:
            rows += ["[[memory]]"] + pairs(base=region.base, size=region.size)
        for peer in self.p2p:
            rows += ["[[p2p]]"] + pairs(id=peer.id, a=peer.a, b=peer.b, mode=peer.mode)
        return "\n".join(rows) + "\n"


def pairs(**values) -> List[str]:
    """Keys with their values: numbers, texts without escapes, and lists of these are spelled alike in TOML and JSON."""
    return [f"{key} = {json.dumps(value)}" for key, value in values.items()]


def read_plan(text: str) -> Plan:
    """The plan of a topology that is well formed."""
    table = tomllib.loads(text)
    table.pop("version", None)
    pool = [bytes.fromhex(key) for key in table.pop("pool")]
    links = [read_link(link) for link in table.pop("link")]
    memory = [RegionPlan(**region) for region in table.pop("memory", [])]
    peers = [PeerPlan(**peer) for peer in table.pop("p2p", [])]
    return Plan(pool, links, memory=memory, p2p=peers, **table)


def read_link(table: dict) -> LinkPlan:
    streams = [StreamPlan(**stream) for stream in table["stream"]]
    interfaces = [read_interface(interface) for interface in table.get("interface", [])]
    nonces = [bytes.fromhex(nonce) for nonce in table.get("nonces", [])]
    return LinkPlan(streams, interfaces, nonces, table.get("hop"), table.get("hop_tcs", []))


def read_interface(table: dict) -> InterfacePlan:
    info = bytes.fromhex(table.pop("info", ""))
    bars = [BarPlan(**bar) for bar in table.pop("bars", [])]
    return InterfacePlan(info=info, bars=bars, **table)
