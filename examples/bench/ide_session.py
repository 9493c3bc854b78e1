"""Sessions of `ide run` through ctypes: libide_session.so beside this file, or where IDE_SESSION says."""
import ctypes
import os

DONE, TOPOLOGY, SCRIPT, MEMORY, TOO_LONG, ROOM, CLOSED, OPEN, ABSENT = 0, 3, 4, 7, 8, 9, 10, 11, 12


class _Handle(ctypes.Structure):
    _fields_ = [("at", ctypes.c_void_p), ("live", ctypes.c_bool)]


class Refused(Exception):
    """A call that did not end in DONE: its answer, and the line that says why, if there is one."""

    def __init__(self, answer, text):
        super().__init__(f"answer {answer}: {text.decode(errors='replace').strip()}")
        self.answer, self.text = answer, text


def _library(path):
    beside = os.path.join(os.path.dirname(os.path.abspath(__file__)), "libide_session.so")
    library = ctypes.CDLL(path or os.environ.get("IDE_SESSION") or beside)
    handle, size = ctypes.POINTER(_Handle), ctypes.c_size_t
    out = [ctypes.c_char_p, size, ctypes.POINTER(size)]
    for name, arguments in (
        ("ide_open", [handle, ctypes.c_char_p, size, *out]),
        ("ide_step", [handle, ctypes.c_char_p, size, *out]),
        ("ide_text", [handle, *out]),
        ("ide_totals", [handle, *out]),
        ("ide_explain", [handle, ctypes.c_bool]),
        ("ide_why", [handle, *out]),
        ("ide_packet", [handle, ctypes.c_uint64, *out]),
        ("ide_close", [handle]),
    ):
        call = getattr(library, name)
        call.argtypes, call.restype = arguments, ctypes.c_uint32
    return library


class Session:
    """A session on the bytes of a topology. Raises Refused with TOPOLOGY if they are no plan."""

    def __init__(self, topology, library=None, room=4096):
        self._library, self._handle = _library(library), _Handle()
        self._buf = ctypes.create_string_buffer(room)
        read = bytes(topology), len(topology)
        answer, text = self._call("ide_open", *read)
        if text is None:
            answer, text = self._call("ide_open", *read)
        if answer != DONE:
            raise Refused(answer, text or b"")

    def _call(self, name, *read):
        """The answer of a call and its text; no text, and more room for the next call, if the text did not fit."""
        written, room = ctypes.c_size_t(), len(self._buf)
        answer = getattr(self._library, name)(
            ctypes.byref(self._handle), *read, self._buf, room, ctypes.byref(written)
        )
        if written.value > room:
            self._buf = ctypes.create_string_buffer(written.value)
            return answer, None
        return answer, self._buf.raw[: written.value]

    def _told(self, name, *read):
        answer, text = self._call(name, *read)
        if text is None:
            answer, text = self._call(name, *read)
        if answer != DONE:
            raise Refused(answer, text or b"")
        return text

    def step(self, line):
        """The verdict line of the next line of a script, which is given without its line feed."""
        read = bytes(line), len(line)
        answer, text = self._call("ide_step", *read)
        if answer == ROOM:
            return self._told("ide_text")
        if answer == SCRIPT and text is None:
            answer, text = self._call("ide_step", *read)
        if answer != DONE:
            raise Refused(answer, text or b"")
        return text

    def text(self):
        """The verdict line of the line that was run last."""
        return self._told("ide_text")

    def totals(self):
        """The line of the totals of all lines so far."""
        return self._told("ide_totals")

    def explain(self, on=True):
        """Keeps what verdicts come from, from the next line on, for `why`; or no more."""
        answer = self._library.ide_explain(ctypes.byref(self._handle), on)
        if answer != DONE:
            raise Refused(answer, b"")

    def why(self):
        """What the verdict of the line that was run last came from, one fact a line: `explain` was called before it."""
        return self._told("ide_why")

    def packet(self, number):
        """The bytes of a packet, from 1, among those that were sealed so far."""
        if number not in range(2**64):
            raise Refused(ABSENT, b"")
        return bytes.fromhex(self._told("ide_packet", number).decode())

    def close(self):
        return self._library.ide_close(ctypes.byref(self._handle))

    def __enter__(self):
        return self

    def __exit__(self, *_):
        self.close()
