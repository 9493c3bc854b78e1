"""Tests of sessions, written as cocotb's are: under cocotb they are its tests, and by themselves they run without it.

A bench does the same with its own design in the place of the stored lines: it drives an event, steps the session by the
line of that event, and compares what the design did with the verdict.
"""
import asyncio
import ctypes
import glob
import os

from ide_session import ABSENT, CLOSED, DONE, SCRIPT, TOPOLOGY, Refused, Session

try:
    import cocotb

    test = cocotb.test()
except ImportError:
    test = None

EXAMPLES = os.path.join(os.path.dirname(os.path.abspath(__file__)), "..")
# packet 1 of the first example
PACKET = "92800500400000010100000f1000000020127a47f2346b475b1c358cb9878134"
TESTS = []


def bench_test(function):
    TESTS.append(function)
    return test(function) if test else function


def contents(name):
    with open(os.path.join(EXAMPLES, name), "rb") as file:
        return file.read()


def lines(name):
    return contents(name).split(b"\n")[:-1]


def refused(answer, call):
    """The line of a call that must be refused with this answer."""
    try:
        call()
    except Refused as e:
        assert e.answer == answer, e
        return e.text
    raise AssertionError("it was taken")


async def stepped(name, room):
    text = b""
    with Session(contents("one_link.toml"), room=room) as session:
        for line in lines(name + ".script"):
            text += session.step(line)
        return text + session.totals()


@bench_test
async def verdicts_are_those_of_the_examples(dut):
    for name in ("first", "interface"):
        for room in (4096, 1):
            assert await stepped(name, room) == contents(name + ".expected"), (name, room)


@bench_test
async def line_that_is_not_spelled_leaves_the_session(dut):
    text = b""
    with Session(contents("one_link.toml")) as session:
        for number, line in enumerate(lines("first.script"), 1):
            cause = refused(SCRIPT, lambda: session.step(b"jump 0"))
            assert cause.startswith(b"refused %d " % number), cause
            step = session.step(line)
            assert session.text() == step
            text += step
        assert text + session.totals() == contents("first.expected")


@bench_test
async def verdicts_come_from_what_the_gallery_tells(dut):
    told = glob.glob(os.path.join(EXAMPLES, "attacks", "*", "*.why"))
    assert told
    for name in told:
        topology = contents(os.path.join(os.path.dirname(name), "topology.toml"))
        why = contents(name)
        number = why.split(b" ")[0] + b" "
        with Session(topology) as session:
            session.explain()
            steps = (session.step(line) for line in lines(name.removesuffix("why") + "script"))
            step = next(step for step in steps if step.startswith(number))
            assert step + session.why() == why, name


@bench_test
async def what_is_not_kept_is_absent(dut):
    with Session(contents("one_link.toml"), room=1) as session:
        refused(ABSENT, session.why)
        session.step(b"establish 0 5")
        refused(ABSENT, session.why)
        session.explain()
        refused(ABSENT, session.why)
        session.step(b"send d0 400000010100000f1000000011223344")
        why = session.why()
        assert why.startswith(b" rule sending.sealed\n sends d0 5 pr\n"), why
        refused(SCRIPT, lambda: session.step(b"jump 0"))
        session.explain(False)
        assert session.why() == why
        session.explain()
        session.step(b"# nothing")
        assert session.why() == b""
        session.explain(False)
        session.step(b"pass 1")
        refused(ABSENT, session.why)


@bench_test
async def packets_are_told_without_an_event(dut):
    with Session(contents("one_link.toml"), room=1) as session:
        refused(ABSENT, lambda: session.packet(1))
        for line in lines("first.script"):
            session.step(line)
        assert session.packet(1).hex() == PACKET
        step = session.step(b"dump 2")
        assert step == b"11 packet 2 %s\n" % session.packet(2).hex().encode(), step
        for number in (0, 3, 2**64 - 1, 2**64, -1):
            refused(ABSENT, lambda: session.packet(number))
        assert session.text() == step
        assert session.totals() == lines("first.expected")[-1] + b"\n"


@bench_test
async def faulty_topology_has_the_line_of_check(dut):
    assert refused(TOPOLOGY, lambda: Session(b"version = 3\n")).startswith(b"topology ")
    assert refused(TOPOLOGY, lambda: Session(b"version = 3\n", room=1)).startswith(b"topology ")


@bench_test
async def closed_session_answers_nothing(dut):
    session = Session(contents("one_link.toml"))
    assert session.close() == DONE
    assert session.close() == CLOSED
    refused(CLOSED, lambda: session.step(b""))
    refused(CLOSED, session.totals)
    refused(CLOSED, session.explain)
    refused(CLOSED, session.why)
    refused(CLOSED, lambda: session.packet(1))


@bench_test
async def strings_for_systemverilog(dut):
    """What ide_session_pkg.sv imports, if ide_dpi.c is linked with the library."""
    library = ctypes.CDLL(os.environ.get("IDE_SESSION") or os.path.join(os.path.dirname(__file__), "libide_session.so"))
    if not hasattr(library, "ide_dpi_open"):
        return
    library.ide_dpi_open.restype = ctypes.c_void_p
    answer, text = ctypes.c_int(), ctypes.c_char_p()
    path = os.path.join(EXAMPLES, "one_link.toml").encode()
    handle = ctypes.c_void_p(library.ide_dpi_open(path, ctypes.byref(answer), ctypes.byref(text)))
    assert handle and answer.value == DONE, answer
    written = []
    for line in lines("first.script"):
        assert library.ide_dpi_step(handle, line, ctypes.byref(text)) == DONE, text.value
        if text.value:
            written.append(text.value)
    assert library.ide_dpi_step(handle, b"jump 0", ctypes.byref(text)) == SCRIPT
    assert text.value.startswith(b"refused "), text.value
    assert library.ide_dpi_totals(handle, ctypes.byref(text)) == DONE
    assert [*written, text.value] == lines("first.expected")
    assert library.ide_dpi_packet(handle, ctypes.c_uint64(1), ctypes.byref(text)) == DONE
    assert text.value.decode() == PACKET
    assert library.ide_dpi_packet(handle, ctypes.c_uint64(3), ctypes.byref(text)) == ABSENT and text.value == b""
    assert library.ide_dpi_why(handle, ctypes.byref(text)) == ABSENT and text.value == b""
    assert library.ide_dpi_explain(handle, 1) == DONE
    assert library.ide_dpi_step(handle, b"pass 9", ctypes.byref(text)) == DONE
    assert library.ide_dpi_why(handle, ctypes.byref(text)) == DONE
    assert text.value == b" rule lines.none\n packets 2", text.value
    library.ide_dpi_close(handle)
    assert library.ide_dpi_open(EXAMPLES.encode(), ctypes.byref(answer), ctypes.byref(text)) is None
    assert answer.value == 5, answer
    assert library.ide_dpi_step(None, b"", ctypes.byref(text)) == CLOSED
    assert library.ide_dpi_totals(None, ctypes.byref(text)) == CLOSED
    assert library.ide_dpi_explain(None, 1) == CLOSED
    assert library.ide_dpi_why(None, ctypes.byref(text)) == CLOSED
    assert library.ide_dpi_packet(None, ctypes.c_uint64(1), ctypes.byref(text)) == CLOSED


if __name__ == "__main__":
    for function in TESTS:
        asyncio.run(function(None))
    print(f"bench: {len(TESTS)} tests passed")
