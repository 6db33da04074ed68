"""The library, its types and its calls, and what is handed to them."""

from __future__ import annotations

import ctypes
import enum
import math
import operator
import os
import sys
import time
from typing import Any, Callable, NoReturn, Optional, Union

Text = Union[str, bytes]

ABI = 1
_HERE = os.path.dirname(os.path.abspath(__file__))
_FILE = "libdomreth.so"


def _find() -> str:
    """The file that DOMRETH_SO names, or that of the wheel, or that of the checkout."""
    named = os.environ.get("DOMRETH_SO")
    if named:
        return named
    for folder in (_HERE, os.path.join(_HERE, "..", "..", "lib")):
        if os.path.exists(os.path.join(folder, _FILE)):
            return os.path.join(folder, _FILE)
    raise ImportError(
        f"domreth: there is no {_FILE}. Run scripts/build-domreth in the checkout, which proves the library, or "
        "scripts/build-domreth --unproved, which only compiles it; or name the file in DOMRETH_SO."
    )


def _load() -> ctypes.CDLL:
    path = _find()
    try:
        return ctypes.CDLL(path)
    except OSError as error:
        raise ImportError(f"domreth: {path} cannot be loaded: {error}") from error


_lib = _load()


class _Bytes(ctypes.Structure):
    _fields_ = [("at", ctypes.c_char_p), ("len", ctypes.c_size_t)]


class _Field(ctypes.Structure):
    _fields_ = [("name", _Bytes), ("value", _Bytes)]


class _Head(ctypes.Structure):
    _fields_ = [
        ("method", _Bytes), ("uri", _Bytes), ("headers", ctypes.POINTER(_Field)), ("headers_len", ctypes.c_size_t),
        ("version", ctypes.c_uint8),
    ]


class _Key(ctypes.Structure):
    _fields_ = [("access", _Bytes), ("secret", _Bytes), ("region", _Bytes), ("service", _Bytes)]


class _DerivedKey(ctypes.Structure):
    _fields_ = [("access", _Bytes), ("key", _Bytes), ("region", _Bytes), ("service", _Bytes)]


class _Moment(ctypes.Structure):
    _fields_ = [("second", ctypes.c_int64), ("nanos", ctypes.c_int32)]


class _Ticket(ctypes.Structure):
    _fields_ = [("number", ctypes.c_uint64), ("fresh", _Moment), ("lasts", _Moment)]


class _Reply(ctypes.Structure):
    _fields_ = [
        ("kind", ctypes.c_uint8), ("cause", ctypes.c_uint8), ("wakes", ctypes.c_bool), ("provider", ctypes.c_uint32),
        ("wake_handle", ctypes.c_uint32), ("wake_number", ctypes.c_uint64), ("number", ctypes.c_uint64), ("deadline", _Moment),
    ]


class _Desk(ctypes.Structure):
    _fields_ = [("at", ctypes.c_void_p)]


def _declare() -> None:
    text = [ctypes.c_char_p, ctypes.c_size_t]
    room = [ctypes.c_char_p, ctypes.c_size_t, ctypes.POINTER(ctypes.c_size_t)]
    asked = [ctypes.POINTER(_Head), ctypes.POINTER(_Key)]
    desk, number, reply = ctypes.POINTER(_Desk), ctypes.POINTER(ctypes.c_uint32), ctypes.POINTER(_Reply)
    call, moment, ticket = [desk, ctypes.c_uint32, ctypes.c_uint64], ctypes.POINTER(_Moment), ctypes.POINTER(_Ticket)
    calls: dict[str, list[Any]] = {
        "run": [*text, *text, *room],
        "sign": [*asked, *text, ctypes.c_int64, *room],
        "derive_key": [ctypes.POINTER(_Key), ctypes.c_int64, *room],
        "sign_with": [ctypes.POINTER(_Head), ctypes.POINTER(_DerivedKey), *text, ctypes.c_int64, *room],
        "presign": [*asked, ctypes.c_uint32, ctypes.c_int64, *room],
        "verify": [*asked, ctypes.c_int64],
        "desk_open": [desk],
        "desk_add_cache": [desk, ctypes.c_uint32, number],
        "desk_add_rule": [desk, ctypes.c_uint64, ctypes.c_uint32, number],
        "desk_add_handle": [desk, ctypes.c_uint32, ctypes.c_uint32, number],
        "desk_begin": [*call, ctypes.c_bool, ctypes.c_uint64, ctypes.c_uint32, reply],
        "desk_poll": [*call, moment, reply],
        "desk_found": [*call, moment, ticket, reply],
        "desk_missing": [*call, moment, reply],
        "desk_failed": [*call, moment, ctypes.c_uint64, reply],
        "desk_accept": [*call, reply],
        "desk_reject": [*call, ctypes.c_uint64, reply],
        "desk_cancel": [*call, reply],
        "desk_cached": [desk, ctypes.c_uint32, ticket],
    }
    for name, given in calls.items():
        function = getattr(_lib, f"domreth_{name}")
        function.argtypes, function.restype = given, ctypes.c_uint8
    _lib.domreth_desk_close.argtypes, _lib.domreth_desk_close.restype = [desk], None


def _ask(name: str, kind: Any) -> Any:
    """What a call without arguments answers, or None where the library is older than the call."""
    try:
        function = getattr(_lib, name)
    except AttributeError:
        return None
    function.argtypes, function.restype = [], kind
    return function()


def version() -> Optional[str]:
    """The library's version, a sum over its sources, and `proved` or `not-proved`. None where an older library does not say."""
    text = _ask("domreth_version", ctypes.c_char_p)
    return text.decode() if isinstance(text, bytes) else None


def is_proved() -> Optional[bool]:
    """Whether the library was proved before it was compiled. None where an older library does not say."""
    answer = _ask("domreth_is_proved", ctypes.c_int)
    return None if answer is None else answer != 0


def _look_at_the_library() -> None:
    abi = _ask("domreth_abi", ctypes.c_uint32)
    if abi not in (None, ABI):
        raise ImportError(f"domreth: the library has ABI {abi}, and this module is for ABI {ABI}")
    if is_proved() is False and sys.stderr is not None:
        print(f"domreth: this library is not proved: {version()}", file=sys.stderr)


_look_at_the_library()
_declare()


class Status(enum.IntEnum):
    """The status of a call, as bindings/c/domreth.h has it."""

    DONE = 0
    USAGE = 2
    BAD_LINE = 3
    NO_ROOM = 5
    OUT_OF_MEMORY = 6
    PAYLOAD = 10
    SECOND = 11
    VERSION = 12
    KEY = 13
    SCOPE = 14
    HEAD = 20
    AUTHORITY = 21
    PATH = 22
    MOMENT = 23
    ALREADY = 24
    EXPIRES = 25
    LINK = 26
    SHAPE = 30
    CREDENTIAL = 31
    EARLY = 32
    LATE = 33
    SIGNATURE = 34
    CLOSED = 40
    FULL = 41
    BEGUN = 42
    NO_CACHE = 43
    NO_RULE = 44
    OPEN = 45
    EMPTY = 46


def _status_of(status: int) -> tuple[Union[Status, int], str]:
    """A status and its name. A newer library may have further ones."""
    try:
        known = Status(status)
    except ValueError:
        return status, f"status {status}"
    return known, known.name.lower()


class DomrethError(ValueError):
    """Why a command has no text. `status` is the library's number for it."""

    def __init__(self, status: int) -> None:
        super().__init__("no such command" if status == Status.USAGE else f"status {status}")
        self.status = status


class SignError(ValueError):
    """Why a head is not signed, a link not made or not valid: the first cause that holds, as a `Status`."""

    def __init__(self, status: int) -> None:
        self.status, name = _status_of(status)
        super().__init__(name)


class BadLine(ValueError):
    """A line is bad, or the input too long. `text` is the output, which ends by saying so."""

    def __init__(self, text: bytes) -> None:
        super().__init__(text.decode("utf-8", "replace").splitlines()[-1])
        self.text = text


class DeskError(ValueError):
    """Why a call on a desk did nothing, as a `Status`."""

    def __init__(self, status: int) -> None:
        self.status, name = _status_of(status)
        super().__init__(name)


def as_bytes(text: Text) -> bytes:
    """The bytes of a text, which is a str or bytes and nothing else: `bytes` of a number would be so many zeros."""
    if isinstance(text, str):
        return text.encode()
    if isinstance(text, bytes):
        return text
    raise TypeError(f"text is str or bytes, and not {type(text).__name__}")


def lend(text: Text) -> _Bytes:
    it = as_bytes(text)
    return _Bytes(it, len(it))


def within(number: int, bits: int) -> int:
    """The number, where it has so many bits: ctypes would cut it off."""
    number = operator.index(number)
    if not 0 <= number < 2**bits:
        raise OverflowError(f"{number} is not in 0..2^{bits}")
    return number


NO_SECOND = 2**63 - 1
"""A second at which no moment lies: the library says so, where it says what holds before."""


def second_of(now: Optional[float]) -> int:
    """The second of a moment, which is by default the clock's. What is none is a second at which no moment lies."""
    try:
        second = math.floor(time.time() if now is None else now)
    except (OverflowError, ValueError):  # infinity, and what is no number
        return NO_SECOND
    return second if -(2**63) <= second < 2**63 else NO_SECOND


def answer(room: int, call: Callable[..., int]) -> tuple[int, bytes]:
    """The status of a call, and the text that it answers, if any. The room grows to what it needs."""
    needed = ctypes.c_size_t(0)
    while True:
        output = ctypes.create_string_buffer(room)
        status = call(output, room, ctypes.byref(needed))
        if status != Status.NO_ROOM:
            break
        room = needed.value
    if status == Status.OUT_OF_MEMORY:
        raise MemoryError
    return status, output.raw[: needed.value]


def refuse(status: int) -> NoReturn:
    if status == Status.OUT_OF_MEMORY:
        raise MemoryError
    raise SignError(status)


def signed(call: Callable[..., int]) -> str:
    status, text = answer(1024, call)
    if status != Status.DONE:
        refuse(status)
    return text.decode()
