"""The words of a script line, or why it is refused (docs/FORMATS.md, Script lines)."""

import re
from typing import List, Optional

OPERATIONS = ["establish", "refresh", "stop", "hestablish", "hstop"]
PEER_OPERATIONS = ["pestablish", "pstop"]
ASKED = ["lock", "report", "start", "halt", "state"]
BINDINGS = ["bind", "unbind"]
LOSABLE = OPERATIONS + PEER_OPERATIONS + ASKED + BINDINGS
# of each event the kinds of its words; what may follow them is in `options`
KINDS = {
    **{event: ["number", "number"] for event in OPERATIONS + BINDINGS + ["status", "forward"]},
    **{event: ["number"] for event in ASKED + PEER_OPERATIONS},
    **{event: ["number"] for event in ["reset", "pass", "dump", "flr", "firmware", "view", "answer", "respond"]},
    "send": ["port", "bytes"],
    "psend": ["number", "end", "bytes"],
    "arrive": ["any port", "bytes"],
    "alter": ["number", "number", "byte"],
    "cut": ["number", "number"],
    "write": ["number", "register", "value"],
    "memory": ["number", "length"],
    "mmio": ["number", "number", "number", "length"],
}
WIDTHS = {"command": 16, "msix": 16, "lnr": 16, "pasid": 16, "ats": 16, "cacheline": 8, "tph": 32}
WIDTHS.update({f"bar{number}": 64 for number in range(6)})
LINE_LIMIT = 20000


class LineFault(Exception):
    """A line that is no event's, with its cause."""


def read_words(line: bytes) -> Optional[List[str]]:
    """The words of a line; None if it is no event."""
    if len(line) > LINE_LIMIT:
        raise LineFault("toolong")
    if not line.strip(b" ") or line.startswith(b"#"):
        return None
    if any(not 0x20 <= byte <= 0x7E for byte in line):
        raise LineFault("notascii")
    event, *rest = words = line.decode("ascii").split()
    if event not in KINDS:
        raise LineFault("word")
    kinds = KINDS[event]
    if len(rest) - len(kinds) not in option_counts(event):
        raise LineFault("count")
    for place, kind in enumerate(kinds):
        check(kind, rest[place], rest[place - 1] if kind == "value" else "")
    check_options(event, rest[0], rest[len(kinds):])
    return words


def option_counts(event: str) -> List[int]:
    if event in LOSABLE:
        return [0, 3]
    return {"send": [0, 1, 2], "psend": [0, 1]}.get(event, [0])


def check(kind: str, word: str, register: str):
    """Refuses a word that is not of its kind; a value is to have room in the register."""
    names = {"port": "[hd][0-7]", "any port": "[hduw][0-7]", "end": "[ab]", "register": "|".join(WIDTHS)}
    if not re.fullmatch(names.get(kind, ".*"), word):
        raise LineFault("word")
    spelling = {"bytes": "-|([0-9a-fA-F]{2})+", "byte": "[0-9a-fA-F]{2}"}.get(kind, ".*")
    if not re.fullmatch(spelling, word):
        raise LineFault("hex")
    if kind in ("number", "value", "length"):
        number = read_number(word)
        if kind == "value" and number >> WIDTHS[register] or kind == "length" and not 1 <= number <= 256:
            raise LineFault("number")


def read_number(word: str) -> int:
    if not re.fullmatch("[0-9]{1,20}|0x[0-9a-fA-F]{1,16}", word):
        raise LineFault("number")
    number = int(word, 16) if word.startswith("0x") else int(word)
    if number >> 64:
        raise LineFault("number")
    return number


def check_options(event: str, port: str, words: List[str]):
    if event in ("send", "psend"):
        allowed = [[], ["more"]] + ([["trusted"], ["more", "trusted"]] if port[0] == "h" else [])
        if words not in allowed:
            raise LineFault("word")
    elif words:
        if words[0] != "lose":
            raise LineFault("word")
        read_number(words[1])
        if words[2] not in ("request", "reply"):
            raise LineFault("word")
