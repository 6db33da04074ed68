"""A desk, and what it is told and replies."""

from __future__ import annotations

import ctypes
import dataclasses
import enum
import threading
from typing import Callable, NamedTuple, NoReturn, Optional

from ._library import DeskError, Status, _Desk, _lib, _Moment, _Reply, _Ticket, within


class Moment(NamedTuple):
    """So many seconds after the start of 1970, and so many nanoseconds."""

    second: int
    nanos: int = 0


class Ticket(NamedTuple):
    """A credential, by the number that the caller knows it by: it is handed out before `fresh`, and lasts to each moment
    before `lasts`."""

    number: int
    fresh: Moment
    lasts: Moment


class Kind(enum.IntEnum):
    """What a reply says of the call."""

    BEGUN = 0
    PENDING = 1
    NOT_NOW = 2
    OUT_OF_MEMORY = 3
    ASK = 4
    SIGN = 5
    REFUSED = 6
    DONE = 7
    CANCELLED = 8


class Cause(enum.IntEnum):
    """Why a call is refused."""

    MISSING = 1
    SHORT = 2
    RANGE = 3
    LOADER = 4
    SERVICE = 5


@dataclasses.dataclass(frozen=True)
class Reply:
    """A desk's reply. What its kind does not speak of is None."""

    kind: Kind
    provider: Optional[int] = None
    """ASK: the provider to ask."""
    number: Optional[int] = None
    """SIGN: the credential to sign with. REFUSED for LOADER or SERVICE: the failure."""
    cause: Optional[Cause] = None
    """REFUSED: why."""
    deadline: Optional[Moment] = None
    """REFUSED for SHORT: the moment that the credential does not last to."""
    wakes: Optional[tuple[int, int]] = None
    """The handle and the number of the call that is to be polled."""


class Desk:
    """A desk: many calls, one load at a time at each cache, in the order in which they came.

    It asks nobody and keeps no secret: each event is told to it, and it answers by a `Reply`. Whoever holds it asks the
    providers, signs, and polls the calls that a reply wakes. Everything is added before the first `begin`, and the numbers of
    the calls under one handle rise. Threads may share it: its calls come one after another. `with` closes it; so does `close`,
    twice too. It is not copied.

    A call raises DeskError where it does nothing, and MemoryError where an allocation fails; then the desk is as it was.
    """

    def __init__(self) -> None:
        # Two threads in one desk would each take it for their own. What runs between two bytecodes may come back here: RLock.
        self._lock = threading.RLock()
        self._at = _Desk(None)
        _done(_lib.domreth_desk_open(self._at))

    def __enter__(self) -> Desk:
        return self

    def __exit__(self, *_: object) -> None:
        self.close()

    def __del__(self) -> None:
        if hasattr(self, "_at"):
            self.close()

    def __reduce__(self) -> NoReturn:
        raise TypeError("a desk is not copied")

    def close(self) -> None:
        """Closes the desk, and frees what it owns."""
        with self._lock:
            _lib.domreth_desk_close(self._at)

    def add_cache(self, providers: int = 0) -> int:
        """Adds a cache with one provider, or with a chain of so many that are asked in order; returns its number."""
        return self._added(_lib.domreth_desk_add_cache, within(providers, 32))

    def add_rule(self, margin: int = 0) -> int:
        """Adds a rule by which a credential lasts so many nanoseconds longer than to the end of the operation."""
        return self._added(_lib.domreth_desk_add_rule, *_time(margin))

    def add_handle(self, cache: int, rule: int) -> int:
        """Adds a handle on this cache with this rule, under which calls are begun."""
        return self._added(_lib.domreth_desk_add_handle, within(cache, 32), within(rule, 32))

    def begin(self, handle: int, number: int, duration: Optional[int] = None) -> Reply:
        """Begins a call, whose operation takes so many nanoseconds where it says so: BEGUN or NOT_NOW."""
        reply = self._told(_lib.domreth_desk_begin, handle, number, duration is not None, *_time(duration or 0))
        if reply.kind is Kind.OUT_OF_MEMORY:
            raise MemoryError
        return reply

    def poll(self, handle: int, number: int, now: Moment) -> Reply:
        """Asks for the next step of a call: PENDING, ASK, SIGN, REFUSED or NOT_NOW."""
        return self._told(_lib.domreth_desk_poll, handle, number, _moment_to(now))

    def found(self, handle: int, number: int, now: Moment, ticket: Ticket) -> Reply:
        """The provider that the call was told to ask has this credential."""
        given = _Ticket(within(ticket.number, 64), _moment_to(ticket.fresh), _moment_to(ticket.lasts))
        return self._told(_lib.domreth_desk_found, handle, number, _moment_to(now), given)

    def missing(self, handle: int, number: int, now: Moment) -> Reply:
        """The provider that the call was told to ask has no credential."""
        return self._told(_lib.domreth_desk_missing, handle, number, _moment_to(now))

    def failed(self, handle: int, number: int, now: Moment, failure: int) -> Reply:
        """The provider that the call was told to ask failed, by the caller's number for it."""
        return self._told(_lib.domreth_desk_failed, handle, number, _moment_to(now), within(failure, 64))

    def accept(self, handle: int, number: int) -> Reply:
        """The call that was told to sign is signed: DONE or NOT_NOW."""
        return self._told(_lib.domreth_desk_accept, handle, number)

    def reject(self, handle: int, number: int, failure: int) -> Reply:
        """The service failed, by the caller's number for it: REFUSED or NOT_NOW."""
        return self._told(_lib.domreth_desk_reject, handle, number, within(failure, 64))

    def cancel(self, handle: int, number: int) -> Reply:
        """The call is given up: CANCELLED or NOT_NOW."""
        return self._told(_lib.domreth_desk_cancel, handle, number)

    def cached(self, cache: int) -> Optional[Ticket]:
        """The credential that the cache holds, fresh or not, or None."""
        held = _Ticket()
        number = within(cache, 32)
        with self._lock:
            status = _lib.domreth_desk_cached(self._at, number, held)
        if status == Status.EMPTY:
            return None
        _done(status)
        return Ticket(held.number, _moment_of(held.fresh), _moment_of(held.lasts))

    def _added(self, call: Callable[..., int], *given: object) -> int:
        number = ctypes.c_uint32(0)
        with self._lock:
            status = call(self._at, *given, number)
        _done(status)
        return number.value

    def _told(self, call: Callable[..., int], handle: int, number: int, *given: object) -> Reply:
        reply = _Reply()
        with self._lock:
            status = call(self._at, within(handle, 32), within(number, 64), *given, reply)
        _done(status)
        return _reply_of(reply)


def _done(status: int) -> None:
    if status == Status.OUT_OF_MEMORY:
        raise MemoryError
    if status != Status.DONE:
        raise DeskError(status)


def _time(nanos: int) -> tuple[int, int]:
    seconds, nanos = divmod(nanos, 10**9)
    return within(seconds, 64), nanos


def _moment_to(it: Moment) -> _Moment:
    """The moment; one that does not fit is one that is none."""
    fits = -(2**63) <= it.second < 2**63 and -(2**31) <= it.nanos < 2**31
    return _Moment(it.second, it.nanos) if fits else _Moment(2**63 - 1, 0)


def _moment_of(it: _Moment) -> Moment:
    return Moment(it.second, it.nanos)


def _reply_of(it: _Reply) -> Reply:
    kind = Kind(it.kind)
    cause = Cause(it.cause) if kind is Kind.REFUSED else None
    has_number = kind is Kind.SIGN or cause in (Cause.LOADER, Cause.SERVICE)
    return Reply(
        kind,
        provider=it.provider if kind is Kind.ASK else None,
        number=it.number if has_number else None,
        cause=cause,
        deadline=_moment_of(it.deadline) if cause is Cause.SHORT else None,
        wakes=(it.wake_handle, it.wake_number) if it.wakes else None,
    )
