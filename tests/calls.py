"""The proved calls for Python, as a caller in C has them: the reader of crate `parse_ffi`, the checker, reading off and run to values of
crate `foreign`, filing of crate `file_ffi`. What a call is lent, to read or to write, is the middle of a larger buffer; the bytes before
and behind it are known, and are looked at after every call."""
import ctypes
import os
import subprocess
import tempfile

import programs
import tables

# Around what is lent; no byte of it is 0. It begins and ends with LF: a reader that goes too far would find one more line there.
GUARD = b"\n~" + bytes(range(255, 0, -1)) * 4 + b"~\n"


class Answer(ctypes.Structure):
    """`accepted` is a byte here, so that a test sees more of it than true and false."""

    _fields_ = [("accepted", ctypes.c_uint8), ("number", ctypes.c_uint8), ("place", ctypes.c_size_t)]


class FormAnswer(ctypes.Structure):
    _fields_ = [*Answer._fields_, ("length", ctypes.c_size_t)]


class Reading(ctypes.Structure):
    """The table stands behind the answer, with its names."""

    _fields_ = Answer._fields_ + tables.PROGRAM + tables.SPELLINGS + tables.ROWS


def table(reading):
    """Every field of the table by its name, an array as its bytes."""
    fields = ((name, getattr(reading, name)) for name, _ in Reading._fields_[len(Answer._fields_) :])
    return {name: field if isinstance(field, int) else bytes(field) for name, field in fields}


NO_TABLE = table(Reading())   # of zeros
LENT = [ctypes.c_void_p, ctypes.c_size_t]


class Lent:
    """Bytes that are lent to a call."""

    def __init__(self, held):
        self.length = len(held)
        self.whole = ctypes.create_string_buffer(GUARD + held + GUARD, len(held) + 2 * len(GUARD))
        self.address = ctypes.addressof(self.whole) + len(GUARD)

    def held(self):
        """What they are after the call."""
        whole, size = self.whole.raw, len(GUARD)
        assert whole[:size] == GUARD, "a call wrote before what it was lent"
        assert whole[-size:] == GUARD, "a call wrote behind what it was lent"
        return whole[size:-size]


def answered(function, first, read, *written):
    """What the function answers, given `first`, bytes to read and buffers to write; then what the buffers hold."""
    lent = [Lent(held) for held in (read, *written)]
    answer = function(*first, *(word for one in lent for word in (one.address, one.length)))
    kept, *held = [one.held() for one in lent]
    assert kept == read, "a call changed what it was lent to read"
    return answer, *held


def number(answer):
    """The number of a refusal, 0 for acceptance: an answer that has a number is no acceptance, and one without is no refusal."""
    assert answer.accepted == (answer.number == 0), f"accepted is {answer.accepted} and the number {answer.number}"
    return answer.number


def shared(*words):
    """A shared library that cc makes by these words."""
    with tempfile.TemporaryDirectory() as folder:
        path = os.path.join(folder, "lib.so")
        subprocess.run(["cc", "-shared", "-o", path, *words], check=True)
        return ctypes.CDLL(path)


def proved(crate="foreign"):
    return shared("-Wl,--whole-archive", programs.library(crate), "-Wl,--no-whole-archive")


def call(library, name):
    """A call that takes a table, what it reads and the buffer that it writes; it gives number (0: none), place and the buffer."""
    function = getattr(library, name)
    function.argtypes = [tables.Table, *LENT, *LENT]
    function.restype = Answer

    def answer(table, read, buffer):
        a, held = answered(function, [table], read, buffer)
        return number(a), a.place, held

    return answer


def large(library, name, result, lent):
    """A function whose answer has more than 16 bytes. On x86-64 its caller says first where the answer goes: here to bytes that are not 0,
    so that a field is seen that the function did not write."""
    function = getattr(library, name)
    function.argtypes = [ctypes.c_void_p, *LENT * lent]
    function.restype = ctypes.c_void_p

    def answer(*words):
        room = Lent((GUARD * 20)[: ctypes.sizeof(result)])
        function(room.address, *words)
        return result.from_buffer_copy(room.held())

    return answer


def filing():
    """The call of C itself: a text and its length, a buffer and its length."""
    function = proved("file_ffi").file_job
    function.argtypes = [*LENT, *LENT]
    function.restype = FormAnswer
    return function


def filer():
    """Filing, which takes a text and the buffer that it writes; it gives number (0: none), place, length and the buffer."""
    function = large(proved("file_ffi"), "file_job", FormAnswer, 2)

    def answer(text, buffer):
        a, held = answered(function, [], text, buffer)
        return number(a), a.place, a.length, held

    return answer


def reader():
    """Reading, which takes a text; it gives number (0: none), place and the table."""
    function = large(proved("parse_ffi"), "read_job", Reading, 1)

    def answer(text):
        (a,) = answered(function, [], text)
        return number(a), a.place, table(a)

    return answer
