#!/usr/bin/env python3
"""Tests of scoreboard.py where a session tells its messages: test_scoreboard.py DEVICE

The messages are written here by docs/FORMATS.md, so no program is needed; the second model gives the verdicts.
"""
import argparse
import os
import sys
import tempfile

import scoreboard

TOPOLOGY = os.path.join(os.path.dirname(os.path.abspath(__file__)), "..", "one_link.toml")
LANES = ["00", "10", "20", "02", "12", "22"]
KEYS = [f"{number:064x}" for number in range(6)]
ESTABLISH = [("00000000", "0001000000010000")]
ESTABLISH += [(f"000200000500{lane}00{key}0100000000000000", f"000300000500{lane}00") for lane, key in zip(LANES, KEYS)]
ESTABLISH += [(f"000400000500{lane}00", f"000600000500{lane}00") for lane in LANES]


def facts(exchanges, first=1):
    text = ""
    for number, (request, reply) in enumerate(exchanges, first):
        text += f" exchange {number} request {request}\n exchange {number} {reply}\n"
    return text


def told(exchanges):
    return [(request, f"reply {reply}") for request, reply in exchanges]


def judged(device, *events):
    """What the scoreboard says of a script, by its lines and what the session tells of each."""
    texts = [text for _, text in events]

    class Telling(scoreboard.Model):
        def why(self):
            return texts.pop(0).encode()

    kept, scoreboard.Model = scoreboard.Model, Telling
    words = {"topology": TOPOLOGY, "device": device, "model": True, "program": None, "library": None}
    try:
        with tempfile.NamedTemporaryFile("w", suffix=".script") as script:
            script.write("\n".join(line for line, _ in events))
            script.flush()
            return scoreboard.judged(argparse.Namespace(link=0, **words), script.name)
    finally:
        scoreboard.Model = kept


def with_exchange(number, request, said):
    exchanges = told(ESTABLISH)
    exchanges[number - 1] = (request, said)
    return facts(exchanges)


def tests(device):
    request, reply = ESTABLISH[7]
    status, text = judged(device, ("establish 0 5", facts(told(ESTABLISH))))
    assert (status, text.split(",")[0]) == (0, "agrees: 13 messages"), text
    # a loss, and the same operation again, which goes on with that exchange
    lost = told(ESTABLISH[:8]) + [(ESTABLISH[8][0], "lost reply")]
    status, text = judged(
        device,
        ("establish 0 5 lose 9 reply", facts(lost)),
        ("establish 0 5", facts(told(ESTABLISH[8:]), first=9)),
    )
    assert (status, text.split(",")[0]) == (0, "agrees: 14 messages"), text
    # another request, another reply, none
    for other, differs in (
        ((ESTABLISH[8][0], f"reply {reply}"), f"due    exchange 8 request {ESTABLISH[8][0]}"),
        ((request, f"reply {ESTABLISH[8][1]}"), f"due    exchange 8 reply {ESTABLISH[8][1]}"),
        ((request, "silent"), "due    exchange 8 silent"),
    ):
        status, text = judged(device, ("establish 0 5", with_exchange(8, *other) + " rule operations.begin\n"))
        assert status == 1 and differs in text and "rule   operations.begin" in text, text


if __name__ == "__main__":
    tests(sys.argv[1])
    print("scoreboard: 5 tests passed")
