#!/usr/bin/env python3
"""A device of your own beside a session of the program: what differs first, and by which rule.

    scoreboard.py TOPOLOGY SCRIPT.. --device PROGRAM [--library SO | --program IDE | --model]

The device stands at the end of link 0, or of `--link N`. It gets each message that the manager sends it, its own sends,
and each packet that arrives at it, line by line in the words of DEVICE.md. Compared are its replies, the bytes that it
seals, its verdicts and its registers' states. What it sealed arrives at the host by `arrive`, in its own bytes.
"""
import argparse
import os
import re
import subprocess
import sys
import tempfile
import tomllib

HERE = os.path.dirname(os.path.abspath(__file__))
TOP = os.path.join(HERE, "..", "..")
RECEIVERS, SENDERS = [(0, sub) for sub in range(3)], [(1, sub) for sub in range(3)]
SUBS = {"pr": 0, "npr": 1, "cpl": 2}
# the exchanges of an operation in order; of a stop the key set comes first
EXCHANGES = {
    "establish": [("query",)] + [(what, lane) for what in ("program", "go") for lane in RECEIVERS + SENDERS],
    "refresh": [(what, lane) for what in ("program", "go") for lane in RECEIVERS + SENDERS],
    "stop": [("stop", lane, key_set) for key_set in (0, 1) for lane in RECEIVERS + SENDERS],
}
OPERATIONS = {"lock": None, "report": None, "start": 0x86, "halt": 0x87, "state": 0x85}


class Differs(Exception):
    """What is due, and what the device gave."""


class Refused(Exception):
    """The session takes no such line."""


def number_of(word):
    return int(word, 16) if word.startswith("0x") else int(word)


def little(size, value):
    return value.to_bytes(size, "little")


# ---- the program, by the library or by a pipe, or the second model in its place


class Model:
    def __init__(self, topology):
        sys.path.insert(0, os.path.join(TOP, "model"))
        from plan import read_plan
        from words import LineFault, read_words
        from world import World

        with open(topology, encoding="utf-8") as file:
            self.world = World(read_plan(file.read()))
        self.read_words, self.refusal = read_words, LineFault

    def step(self, line):
        return b"0 " + self.world.verdict(" ".join(self.read_words(line))).encode()

    def close(self):
        """Nothing is open."""


class Stepped:
    """A session: `step` gives the verdict of a line without its number; `facts` are those of the last line, if the
    session tells them."""

    def __init__(self, arguments):
        self.topology, self.lines, self.facts = arguments.topology, [], []
        self.why = []
        if arguments.model:
            self.session, self.why = Model(self.topology), [os.path.join(TOP, "model", "why")]
            self.refusal = self.session.refusal
        elif arguments.program:
            from ide_pipe import Pipe

            self.session, self.why = Pipe(arguments.program, self.topology), [arguments.program, "why"]
            self.refusal = EOFError
        else:
            from ide_session import Refused as NotTaken, Session

            self.refusal = NotTaken
            with open(self.topology, "rb") as file:
                self.session = Session(file.read(), library=arguments.library)
            self.session.explain()

    def verdict(self, line):
        self.lines.append(line)
        try:
            return self.session.step(line.encode()).decode().strip().split(" ", 1)[1]
        except self.refusal as refusal:
            said = refusal.args[0]
            raise Refused(said.decode().strip() if isinstance(said, bytes) else said) from None

    def step(self, line):
        verdict = self.verdict(line)
        if hasattr(self.session, "why"):
            self.facts = [fact.strip() for fact in self.session.why().decode().split("\n")]
        return verdict

    def packet(self, number):
        """The bytes of a packet: without an event if the session can, else by `dump`."""
        if hasattr(self.session, "packet"):
            return bytes(self.session.packet(number))
        return bytes.fromhex(self.verdict(f"dump {number}").split()[2])

    def rules(self, count):
        """The rules that answer the line that was run as number `count`."""
        facts = self.facts
        if not facts and self.why:
            with tempfile.NamedTemporaryFile("w", suffix=".script") as script:
                script.write("\n".join(self.lines) + "\n")
                script.flush()
                command = [*self.why, self.topology, script.name, str(count)]
                run = subprocess.run(command, capture_output=True, text=True)
            facts = [fact.strip() for fact in run.stdout.split("\n")]
        rules = [fact.split()[1] for fact in facts if fact.startswith("rule ")]
        return " ".join(rules) or "not told"

    def close(self):
        self.session.close()


# ---- the device


class Device:
    def __init__(self, program, plan, link):
        self.run = subprocess.Popen([program], stdin=subprocess.PIPE, stdout=subprocess.PIPE, text=True)
        table = plan["link"][link]
        self.ask("keys", plan.get("units_per_key", 2**32))
        for s in table["stream"]:
            rid, ranges = s.get("rid", []), s.get("ranges", [])
            kinds = [s["id"], int(s["kind"] == "selective"), s.get("mode", 1), int(s.get("closed", False))]
            kinds += [int(s.get("default", False)), sum(1 << tc for tc in s.get("tcs", []))]
            bounds = [len(ranges), *(bound for pair in ranges for bound in pair)]
            self.ask("stream", *kinds, int(bool(rid)), *(rid or [0, 0]), *bounds)
        for i in table.get("interface", []):
            names = ["command", "msix", "lnr", "pasid", "ats", "cacheline", "tph"]
            bars = [(b["base"], b["pages"], b.get("attributes", 0)) for b in i.get("bars", [])]
            registers = [i["rid"], *(i.get(name, 0) for name in names), i.get("info") or "-", len(bars)]
            self.ask("interface", *registers, *(number for bar in bars for number in bar))
        for nonce in table.get("nonces", []):
            self.ask("nonce", nonce)

    def ask(self, *words):
        self.run.stdin.write(" ".join(map(str, words)) + "\n")
        self.run.stdin.flush()
        answer = self.run.stdout.readline().strip()
        if not answer:
            raise Differs("an answer", "none: the device has ended")
        return answer

    def close(self):
        self.run.stdin.close()
        self.run.wait()

    def message(self, request):
        """The reply, or None if there is none."""
        words = self.ask("message", request.hex()).split()
        return bytes.fromhex(words[1]) if words[0] == "reply" else None


# ---- what the manager asks, as FORMATS and RULES have it


class Keys:
    """How far the manager is with a stream."""

    def __init__(self):
        self.operation, self.next, self.key_set, self.draw = "idle", 1, 0, 0

    def begin(self, operation, draw):
        if operation != "stop":
            self.key_set, self.draw = (0 if operation == "establish" else 1 - self.key_set), draw
        self.operation, self.next = operation, 1


def lasts(verdict, last):
    """The last exchange of the event, and what became of it: done, request or reply lost, or a refusal's code."""
    said = verdict.split()
    if said[0] == "lost":
        return int(said[2]), said[1]
    if said[:2] == ["refused", "devicerefused"]:
        return int(said[2]), int(said[3])
    return last, "done"


def key_request(what, stream, pool, keys, lane=None, key_set=None):
    if what == "query":
        return bytes(4)
    direction, sub = lane
    key_set = keys.key_set if key_set is None else key_set
    head = bytes([0, {"program": 2, "go": 4, "stop": 5}[what], 0, 0, stream, 0, key_set | direction << 1 | sub << 4, 0])
    return head + (pool[6 * keys.draw + 3 * direction + sub] + little(8, 1) if what == "program" else b"")


def interface_request(kind, rid, body=b""):
    return bytes([1, 0x10, kind, 0, 0]) + little(4, rid) + bytes(8) + body


def plan_of(path, link):
    """The tables of a topology that the session takes."""
    with open(path, "rb") as file:
        plan = tomllib.load(file)
    if plan.get("p2p") or any("hop" in table for table in plan["link"]):
        sys.exit("scoreboard: it knows no hops and no streams between devices")
    if any(face.get("reads") for table in plan["link"] for face in table.get("interface", [])):
        sys.exit("scoreboard: it knows no device that answers reads")
    if not 0 <= link < len(plan["link"]):
        sys.exit(f"scoreboard: there is no link {link}")
    return plan


class Scoreboard:
    def __init__(self, arguments):
        self.session, self.plan = Stepped(arguments), plan_of(arguments.topology, arguments.link)
        self.device = Device(arguments.device, self.plan, arguments.link)
        self.link, self.counts = arguments.link, {"sent": 0, "taken": 0, "messages": 0}
        self.port, self.host = f"d{self.link}", f"h{self.link}"
        self.pool = [bytes.fromhex(key) for key in self.plan["pool"]]
        self.interfaces = [(n, i) for n, link in enumerate(self.plan["link"]) for i in link.get("interface", [])]
        self.first = sum(link < self.link for link, _ in self.interfaces)
        self.keys, self.draws, self.nonces = {}, 0, {}
        # the draw of each key that the device took, by stream and selector
        self.programmed = {}
        # packets by number: the port that sealed them, their bytes, and those that arrive
        self.packets = {}

    # -- messages

    def exchange(self, number, request, told):
        """Gives the device one request and compares its reply, where the session tells its messages."""
        due = told.get(number, {})
        if due.get("request", request) != request:
            raise Differs(f"exchange {number} request {due['request'].hex()}", f"by FORMATS {request.hex()}")
        self.counts["messages"] += 1
        reply = self.device.message(request)
        if "reply" in due and reply != due["reply"]:
            shown = "silent" if reply is None else f"reply {reply.hex()}"
            raise Differs(f"exchange {number} reply {due['reply'].hex()}", f"exchange {number} {shown}")
        if "silent" in due and reply is not None:
            raise Differs(f"exchange {number} silent", f"exchange {number} reply {reply.hex()}")
        return reply

    def told(self):
        """The messages of the last event by their numbers, as far as the session tells them."""
        messages = {}
        for words in (fact.split() for fact in self.session.facts):
            if words[:1] != ["exchange"] or not words[1].isdigit():
                continue
            kept = messages.setdefault(int(words[1]), {})
            if words[2] in ("request", "reply"):
                kept[words[2]] = bytes.fromhex(words[3]) if words[3] != "-" else b""
            elif words[2] == "silent":
                kept["silent"] = True
        return messages

    def key_operation(self, stream, keys, last, fate):
        """Gives the device the exchanges of this event, up to the last one."""
        told = self.told()
        for number in range(keys.next, last + (fate != "request")):
            what, *where = EXCHANGES[keys.operation][number - 1]
            request = key_request(what, stream, self.pool, keys, *where)
            reply = self.exchange(number, request, told)
            self.judge_key_reply(number, request, reply, fate if number == last else "done", keys)

    def judge_key_reply(self, number, request, reply, fate, keys):
        """An acknowledgement gives the stream, the selector and the port index back."""
        rid = next((i["rid"] for link, i in self.interfaces if link == self.link), 0)
        status = fate if isinstance(fate, int) else 0
        due = bytes([0, {0: 1, 2: 3}.get(request[1], 6), 0, 0])
        due += little(2, rid) + bytes(2) if request[1] == 0 else bytes([request[4], status, request[6], 0])
        if request[1] == 2 and reply and reply[5] == 0:
            self.programmed[request[4], request[6]] = keys.draw
        if fate != "reply" and reply != due:
            shown = "silent" if reply is None else f"reply {reply.hex()}"
            raise Differs(f"exchange {number} reply {due.hex()}", f"exchange {number} {shown}")

    def interface_operation(self, name, place, verdict):
        """Gives the device the exchanges of this event. A report is read until nothing follows its portion."""
        if verdict.startswith("refused") and "devicerefused" not in verdict:
            return
        told, report, exchange = self.told(), b"", 0
        last, fate = lasts(verdict, {"lock": 3, "report": None}.get(name, 1))
        while last is None or exchange + 1 < last + (fate != "request"):
            exchange += 1
            request = self.request_of(name, place, exchange, report)
            reply = self.exchange(exchange, request, told)
            if exchange == last and fate == "reply":
                return
            body = self.body_of(reply, verdict, exchange, fate if exchange == last else "done")
            report += body[4:] if name == "report" else b""
            if last is None and body[2:4] == bytes(2):
                break
        if fate == "done":
            self.judge_interface(name, place, verdict, body, report)

    def body_of(self, reply, verdict, exchange, fate):
        """The body of a reply that is an ERROR exactly if the event is refused here, with the code."""
        refusal = b"" if fate == "done" else little(4, fate) + bytes(4)
        is_error = reply is not None and reply[2:3] == b"\x7f"
        if reply is None or is_error != (fate != "done") or is_error and reply[17:] != refusal:
            raise Differs(verdict, f"exchange {exchange} " + ("silent" if reply is None else f"reply {reply.hex()}"))
        return reply[17:]

    def request_of(self, name, place, exchange, report):
        plan = self.interfaces[place][1]
        rid = plan["rid"]
        if name == "lock" and exchange < 3:
            return interface_request(0x80 + exchange, rid, bytes(4) if exchange == 2 else b"")
        if name == "lock":
            body = little(2, plan.get("flags", 0)) + bytes([plan["stream"], 0]) + little(8, plan.get("offset", 0))
            return interface_request(0x83, rid, body + bytes(8))
        if name == "report":
            return interface_request(0x84, rid, little(2, len(report)) + little(2, self.plan.get("portion", 64)))
        return interface_request(OPERATIONS[name], rid, self.nonces.get(place, bytes(32)) if name == "start" else b"")

    def judge_interface(self, name, place, verdict, body, report):
        if name == "lock":
            self.nonces[place] = bytes.fromhex(verdict.split()[2])
        gave = {"lock": f"locked {place} {body.hex()}", "report": f"reported {place} {report.hex()}"}
        gave["state"] = f"state {place} {body[0] if body else '-'}"
        if gave.get(name, verdict) != verdict:
            raise Differs(verdict, gave[name])

    # -- packets

    def sealed(self, verdict, gave):
        """The packets that the session sealed, with those of the device if it sent them."""
        parts = verdict.removeprefix("sealed ").split(" ; ")
        if gave is not None and len(gave) != len(parts):
            raise Differs(f"{len(parts)} packets", f"{len(gave)} packets")
        for index, part in enumerate(parts):
            number, port = int(part.split()[0]), part.split()[1]
            due = self.session.packet(number)
            mine = due if gave is None else bytes.fromhex(gave[index])
            self.packets[number] = (port, due, mine)
            if mine != due:
                raise Differs(f"packet {number} {due.hex()}", f"packet {number} {mine.hex()}")
            self.counts["sent"] += gave is not None

    def send(self, words, verdict):
        gave = self.device.ask("send", *words[2:])
        if gave.startswith("sealed") and verdict.startswith("sealed"):
            self.sealed(verdict, gave.split()[1:])
        else:
            self.compare(verdict, self.with_port(gave))

    def with_port(self, gave):
        first, *rest = gave.split()
        return gave if first in ("refused", "sealed") else " ".join([first, self.port, *rest])

    def take(self, data, verdict):
        gave = self.device.ask("take", data.hex() or "-")
        self.counts["taken"] += 1
        found = re.match(r"(accepted|held) (\d+) (\w+) k(\d) (.*)", gave)
        if found:
            word, stream, sub, key_set, rest = found.groups()
            draw = self.programmed.get((int(stream), int(key_set) | SUBS[sub] << 4), "-")
            gave = f"{word} {stream} {sub} draw {draw} {rest}"
        self.compare(verdict, self.with_port(gave))

    def compare(self, due, gave):
        if due != gave:
            raise Differs(due, gave)

    def arrival(self, words):
        """Where the bytes of an arrival go, and they themselves; None if the line names none, or is not spelled."""
        try:
            return self.arriving(words)
        except (IndexError, ValueError):
            return None

    def arriving(self, words):
        if words[0] not in ("pass", "alter", "cut", "arrive"):
            return None
        if words[0] == "arrive":
            return words[1], b"" if words[2] == "-" else bytes.fromhex(words[2])
        numbers = [number_of(word) for word in words[1:3]]
        if numbers[0] not in self.packets:
            return None
        port, _, data = self.packets[numbers[0]]
        if words[0] == "alter":
            at, change = numbers[1], int(words[3], 16)
            data = data[:at] + bytes([data[at] ^ change]) + data[at + 1:] if at < len(data) else None
        elif words[0] == "cut":
            data = data[: numbers[1]] if numbers[1] <= len(data) else None
        return None if data is None else (("h" if port[0] == "d" else "d") + port[1:], data)

    # -- lines

    def run(self, line):
        words = line.split()
        arrives = self.arrival(words)
        if arrives and arrives[0] == self.host:
            line = f"arrive {self.host} {arrives[1].hex() or '-'}"
        verdict = self.session.step(line)
        self.stepped = len(self.session.lines)
        if arrives and arrives[0] == self.port:
            self.take(arrives[1], verdict)
        elif words[:2] == ["send", self.port]:
            self.send(words, verdict)
        elif words[0] in ("send", "answer") and verdict.startswith("sealed"):
            self.sealed(verdict, None)
        elif words[0] in EXCHANGES and verdict != "none":
            self.on_stream(words, verdict)
        elif words[0] == "reset" and verdict != "none":
            self.reset(number_of(words[1]))
        elif words[0] == "status" and verdict != "none" and number_of(words[1]) == self.link:
            due = verdict.rsplit(" ", 1)
            self.compare(verdict, f"{due[0]} {self.device.ask('status', number_of(words[2]))}")
        elif words[0] in (*OPERATIONS, "write", "flr", "firmware", "mmio") and verdict != "none":
            self.on_interface(words, verdict)

    def reset(self, link):
        for stream in [stream for stream in self.keys if stream[0] == link]:
            del self.keys[stream]
        if link == self.link:
            self.device.ask("reset")

    def on_stream(self, words, verdict):
        link, stream = map(number_of, words[1:3])
        if verdict.startswith("refused") and "devicerefused" not in verdict:
            return
        keys = self.keys.setdefault((link, stream), Keys())
        if keys.operation != words[0]:
            keys.begin(words[0], self.draws)
            self.draws += words[0] != "stop"
        last, fate = lasts(verdict, len(EXCHANGES[words[0]]))
        if link == self.link:
            self.key_operation(stream, keys, last, fate)
        keys.next = last
        if fate == "done":
            keys.operation = "idle" if words[0] == "stop" else "up"

    def on_interface(self, words, verdict):
        place = number_of(words[1])
        if self.interfaces[place][0] != self.link:
            return
        here = place - self.first
        if words[0] in OPERATIONS:
            self.interface_operation(words[0], place, verdict)
        elif words[0] == "mmio":
            self.compare(verdict, self.device.ask("mmio", here, *map(number_of, words[2:])))
        elif words[0] == "write":
            state = self.device.ask("write", here, words[2], number_of(words[3]))
            self.compare(verdict, f"written {place} {state}")
        else:
            self.compare(verdict, f"{words[0]} {place} {self.device.ask(words[0], here)}")


def judged(arguments, path):
    """Runs one script: the status, and what is to be said."""
    board = Scoreboard(arguments)
    with open(path, encoding="ascii") as script:
        lines = [(place, line.strip()) for place, line in enumerate(script, 1)]
    try:
        for place, line in lines:
            if line and not line.startswith("#"):
                board.run(line)
    except Differs as difference:
        due, gave = difference.args
        rules = board.session.rules(board.stepped)
        return 1, f"differs at line {place}: {line}\n due    {due}\n device {gave}\n rule   {rules}"
    except Refused as refusal:
        return 4, f"refused at line {place}: {line}: {refusal}"
    finally:
        board.session.close()
        board.device.close()
    counts = board.counts
    return 0, f"agrees: {counts['messages']} messages, {counts['sent']} packets sealed, {counts['taken']} taken"


def main():
    parser = argparse.ArgumentParser(description=__doc__, formatter_class=argparse.RawDescriptionHelpFormatter)
    parser.add_argument("topology")
    parser.add_argument("scripts", nargs="+", metavar="script")
    parser.add_argument("--device", required=True)
    parser.add_argument("--link", type=int, default=0)
    parser.add_argument("--library", help="libide_session.so, else that of IDE_SESSION or beside this file")
    parser.add_argument("--program", help="the program, by a pipe")
    parser.add_argument("--model", action="store_true", help="the second model in the program's place")
    arguments = parser.parse_args()
    status = 0
    for script in arguments.scripts:
        try:
            ended, text = judged(arguments, script)
        except (OSError, tomllib.TOMLDecodeError) as fault:
            sys.exit(f"scoreboard: {fault}")
        status = max(status, ended)
        print(f"{script} {text}" if len(arguments.scripts) > 1 else text, flush=True)
    return status


if __name__ == "__main__":
    sys.exit(main())
