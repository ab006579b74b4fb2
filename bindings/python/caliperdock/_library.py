"""The shared library by ctypes. Lists cross as arrays."""
import ctypes
import os
import struct

_U16, _U32, _U64, _SIZE = ctypes.c_uint16, ctypes.c_uint32, ctypes.c_uint64, ctypes.c_size_t


class _Answer(ctypes.Structure):
    _fields_ = [("status", _U32), ("place", _U64)]


class RawToken(ctypes.Structure):
    _fields_ = [("kind", _U32), ("len", _U32), ("a", _U32), ("b", _U32), ("flags", _U32)]


class RawStatement(ctypes.Structure):
    _fields_ = [("kind", _U64), ("start", _U64), ("end", _U64)]


class RawStep(ctypes.Structure):
    _fields_ = [("tag", _U16), ("kind", _U16), ("start", _U32), ("end", _U32)]


class RawError(ctypes.Structure):
    _fields_ = [("start", _U32), ("end", _U32), ("message_start", _U64), ("message_end", _U64), ("hint_end", _U64)]


class _Counts(ctypes.Structure):
    _fields_ = [
        ("tokens", _U64),
        ("statements", _U64),
        ("steps", _U64),
        ("step_errors", _U64),
        ("errors", _U64),
        ("texts", _U64),
        ("whole", _U64),
    ]


class _PartCounts(ctypes.Structure):
    _fields_ = [
        ("bytes", _U64),
        ("place", _U32),
        ("statements", _U64),
        ("steps", _U64),
        ("step_errors", _U64),
        ("errors", _U64),
        ("texts", _U64),
        ("whole", _U64),
    ]


_ABI = 1
_NAME = f"libcaliperdock.so.{_ABI}"
_TOO_SMALL = 1

_REASONS = {
    2: "memory was refused",
    3: "the text isn't UTF-8 at byte {place}",
    5: "the text has more than 4294967295 bytes",
    8: "the text has too many nodes and tokens",
    13: "the text has too many errors",
}


class Refused(Exception):
    """Why the library did nothing: `status` is its number in caliperdock.h, `place` what that speaks of."""

    def __init__(self, status: int, place: int):
        self.status = status
        self.place = place
        super().__init__(_REASONS.get(status, "status {status} at {place}").format(status=status, place=place))


def _load():
    """The library beside this file, as a wheel has it, or in the folder where bindings/build leaves it."""
    here = os.path.dirname(os.path.abspath(__file__))
    for folder in (os.environ.get("CALIPERDOCK_LIB"), here, os.path.join(here, "..", "..", "out")):
        if folder is not None and os.path.exists(os.path.join(folder, _NAME)):
            return ctypes.CDLL(os.path.join(folder, _NAME))
    raise ImportError(f"{_NAME} isn't there: run bindings/build, or name its folder in CALIPERDOCK_LIB")


_library = _load()
_library.caliperdock_abi.restype = _U32
if _library.caliperdock_abi() != _ABI:
    raise ImportError(f"{_NAME} isn't of version {_ABI}")

_sql = _library.caliperdock_sql
_sql.restype = _Answer
_sql.argtypes = [
    ctypes.c_char_p,
    _SIZE,
    ctypes.POINTER(RawToken),
    _SIZE,
    ctypes.POINTER(RawStatement),
    _SIZE,
    ctypes.POINTER(RawStep),
    _SIZE,
    ctypes.POINTER(RawError),
    _SIZE,
    ctypes.c_char_p,
    _SIZE,
    ctypes.POINTER(_Counts),
]


_part = _library.caliperdock_part
_part.restype = _Answer
_part.argtypes = [
    ctypes.c_char_p,
    _SIZE,
    _U32,
    _U32,
    ctypes.POINTER(RawStatement),
    _SIZE,
    ctypes.POINTER(RawStep),
    _SIZE,
    ctypes.POINTER(RawError),
    _SIZE,
    ctypes.c_char_p,
    _SIZE,
    ctypes.POINTER(_PartCounts),
]

_statements = _library.caliperdock_statements
_statements.restype = _Answer
_statements.argtypes = [ctypes.c_char_p, _SIZE, ctypes.POINTER(RawStatement), _SIZE, ctypes.POINTER(_U64)]


def rows(records, layout: str, count: int):
    """The first records of an array, each as a tuple of its numbers."""
    return struct.iter_unpack(layout, memoryview(records).cast("B")[: count * struct.calcsize(layout)])


def statement_rows(data: bytes):
    """Each statement of a text: its kind, and the bytes where it starts and ends."""
    count = _U64()
    room = len(data) // 40 + 4
    while True:
        statements = (RawStatement * room)()
        answer = _statements(data, len(data), statements, room, ctypes.byref(count))
        if answer.status > _TOO_SMALL:
            raise Refused(answer.status, answer.place)
        if count.value <= room:
            return rows(statements, "=QQQ", count.value)
        room = count.value


def _rounded(count: int) -> int:
    """Room for so many or more. A few sizes are enough for short texts: ctypes makes a type for each."""
    return 1 << count.bit_length() if count < 65536 else count


class Written:
    """What the library wrote of a text: the lists that were wanted."""

    def __init__(self, data: bytes, tokens: bool = False, steps: bool = False, errors: bool = False):
        self.counts = _Counts()

        def call():
            return _sql(
                data, len(data), self.tokens, self._room["tokens"], self._statements, 0, *self._rooms(), ctypes.byref(self.counts)
            )

        guess = {"tokens": len(data) // 3 + 16, "steps": len(data) + 32, "errors": 4, "texts": 256}
        wanted = {"tokens": tokens, "steps": steps, "errors": errors, "texts": errors}
        self._write({name: guess[name] for name in guess if wanted[name]}, call)

    def _rooms(self):
        """The buffers of steps, errors and texts, as a call takes them."""
        room = self._room
        return self.steps, room["steps"], self.errors, room["errors"], self._texts, room["texts"]

    def _write(self, room, call):
        """Makes room for so many of what is wanted, and calls until there is room for all."""
        while True:
            room = {name: _rounded(count) for name, count in room.items()}
            self._room = {"tokens": 0, "statements": 0, "steps": 0, "errors": 0, "texts": 0, **room}
            self.tokens = (RawToken * max(self._room["tokens"], 1))()
            self._statements = (RawStatement * max(self._room["statements"], 1))()
            self.steps = (RawStep * max(self._room["steps"], 1))()
            self.errors = (RawError * max(self._room["errors"], 1))()
            self._texts = ctypes.create_string_buffer(max(self._room["texts"], 1))
            answer = call()
            if answer.status > _TOO_SMALL:
                raise Refused(answer.status, answer.place)
            there = {name: getattr(self.counts, name) for name in room}
            if all(there[name] <= room[name] for name in room):
                return
            room = there

    def text(self, start: int, end: int) -> str:
        """These bytes of the errors' texts."""
        return ctypes.string_at(ctypes.addressof(self._texts) + start, end - start).decode()


class WrittenPart(Written):
    """What the library wrote of the next statements of a script, which goes on from a place with a text."""

    def __init__(self, data: bytes, place: int, last: bool):
        self.counts = _PartCounts()

        def call():
            return _part(
                data, len(data), place, last, self._statements, self._room["statements"], *self._rooms(), ctypes.byref(self.counts)
            )

        self._write({"statements": len(data) // 40 + 4, "steps": len(data) + 32, "errors": 4, "texts": 256}, call)

    def statements(self):
        """Each statement: its kind, and the bytes where it starts and ends."""
        return rows(self._statements, "=QQQ", self.counts.statements)

    def kept(self) -> "KeptPart":
        """The same in no more room than it needs."""
        return KeptPart(self)


class KeptPart:
    """What the library wrote of a part, to be held for long."""

    def __init__(self, written: WrittenPart):
        counts = written.counts
        self.counts = counts
        self._statements = _bytes(written._statements, counts.statements * ctypes.sizeof(RawStatement))
        self._steps = _bytes(written.steps, counts.steps * ctypes.sizeof(RawStep))
        self._errors = _bytes(written.errors, counts.errors * ctypes.sizeof(RawError))
        self._texts = _bytes(written._texts, counts.texts)

    @property
    def steps(self):
        return (RawStep * self.counts.steps).from_buffer_copy(self._steps)

    @property
    def errors(self):
        return (RawError * self.counts.errors).from_buffer_copy(self._errors)

    def statements(self):
        """Each statement: its kind, and the bytes where it starts and ends."""
        return struct.iter_unpack("=QQQ", self._statements)

    def text(self, start: int, end: int) -> str:
        """These bytes of the errors' texts."""
        return self._texts[start:end].decode()


def _bytes(records, size: int) -> bytes:
    """The first bytes of an array."""
    return bytes(memoryview(records).cast("B")[:size])
