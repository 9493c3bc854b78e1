"""generated_topology.py TOPOLOGY: the topology is the one on which docs/FORMATS.md has generated events run."""

import sys
import tomllib

keys = [f"{n:064x}" for n in range(6144)]
stream = {
    "id": 5,
    "kind": "selective",
    "rid": [0x100, 0x100],
    "ranges": [[0x40000000, 0x400FFFFF]],
}
interface = {
    "rid": 0x100,
    "stream": 5,
    "command": 6,
    "cacheline": 16,
    "info": "00" * 64,
    "bars": [{"base": 0x40000000, "pages": 16}],
}
due = {
    "version": 1,
    "pool": keys,
    "link": [{"nonces": keys[:1024], "stream": [stream], "interface": [interface]}],
    "memory": [{"base": 0x10000000, "size": 0x10000}],
}
with open(sys.argv[1], "rb") as file:
    sys.exit(tomllib.load(file) != due)
