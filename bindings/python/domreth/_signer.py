"""Signers whose calls share the loads of credentials that expire: one for threads, and one for asyncio.

Both stand on a desk of one cache, which says who asks for credentials, who waits, and who is next.
"""

from __future__ import annotations

import asyncio
import functools
import math
import threading
import time
from collections.abc import Awaitable, Sequence
from typing import Callable, Generic, NamedTuple, Optional, TypeVar, Union

from ._desk import Cause, Desk, Kind, Moment, Reply, Ticket
from ._library import Text
from ._sigv4 import Credentials, Headers, presign, sign

Clock = Callable[[], float]
Answer = Union[Optional[Credentials], Exception]
Provider = Callable[[], Optional[Credentials]]
AsyncProvider = Callable[[], Awaitable[Optional[Credentials]]]
_P = TypeVar("_P")
_T = TypeVar("_T")

_LAST = Moment(253402207200, 999999999)
"""The last moment that a desk has, near the end of the year 9999."""


class CredentialError(Exception):
    """Why a signer has no credentials for a call.

    `cause` is MISSING where no provider has any, LOADER where the only one failed, SHORT where those that were loaded do not last
    to the end of the link, or not at all, and RANGE where that end would be no moment. `errors` are those of the providers.
    """

    def __init__(self, cause: Cause, errors: tuple[Exception, ...] = ()) -> None:
        super().__init__(f"no credentials: {cause.name.lower()}")
        self.cause = cause
        self.errors = errors
        self.__cause__ = errors[-1] if errors else None


class _Ask(NamedTuple):
    """Ask the provider of this place."""

    place: int


class _Use(NamedTuple):
    """Sign with these."""

    credentials: Credentials


_Step = Union[_Ask, _Use]


class _Load(NamedTuple):
    """What the providers answered to a call that got no credentials by them, and the last call that had begun by then."""

    answers: tuple[Answer, ...]
    last_call: int


class _Line:
    """A desk of one cache, and those that wait at it. No provider, service or clock is called under its lock."""

    def __init__(self, providers: int, early: float) -> None:
        self._lock = threading.RLock()
        self._desk = Desk()
        self._cache = self._desk.add_cache(0 if providers == 1 else providers)
        self._handle = self._desk.add_handle(self._cache, self._desk.add_rule())
        self._early = early
        self._last_call = 0
        self._last_credentials = 0
        self._held: Optional[tuple[int, Credentials]] = None
        self._wakers: dict[int, Callable[[], object]] = {}
        self._asking: dict[int, tuple[Answer, ...]] = {}
        self._failed = _Load((), 0)

    def begin(self, lasts: float) -> int:
        """Begins a call, for which credentials have to last so many seconds."""
        with self._lock:
            call = self._last_call + 1
            self._desk.begin(self._handle, call, _nanos(lasts))
            self._last_call = call
            return call

    def poll(self, call: int, now: float, waker: Callable[[], object]) -> Optional[_Step]:
        """Asks for the next step of a call: None where it waits, until it is woken."""
        moment = _moment(now)

        def event() -> Reply:
            reply = self._desk.poll(self._handle, call, moment)
            if reply.kind is Kind.PENDING:
                self._wakers[call] = waker
            return reply

        return self._tell(call, moment, event)

    def told(self, call: int, now: float, answer: Answer) -> _Step:
        """Tells what the provider that the call was told to ask answered."""
        moment = _moment(now)
        step = self._tell(call, moment, lambda: self._told(call, moment, answer))
        if step is None:
            raise RuntimeError("a call that was told an answer waits")
        return step

    def accept(self, call: int) -> None:
        """Ends a call that has signed."""
        with self._lock:
            waker = self._waker_of(self._desk.accept(self._handle, call))
        waker()

    def leave(self, call: int) -> None:
        """Gives a call up, where it is not over."""
        with self._lock:
            self._wakers.pop(call, None)
            self._asking.pop(call, None)
            waker = self._waker_of(self._desk.cancel(self._handle, call))
        waker()

    def _tell(self, call: int, now: Moment, event: Callable[[], Reply]) -> Optional[_Step]:
        """Has the event happen, and wakes the call whose turn comes by it."""
        with self._lock:
            reply = event()
            while reply.kind is Kind.ASK and self._has_answer(call):
                reply = self._told(call, now, self._failed.answers[len(self._asking.get(call, ()))])
            errors = self._end_of_load(call, reply)
            waker, held = self._waker_of(reply), self._held
        waker()
        if reply.kind is Kind.REFUSED and reply.cause is not None:
            raise CredentialError(reply.cause, errors)
        if reply.kind is Kind.ASK and reply.provider is not None:
            return _Ask(reply.provider)
        if reply.kind is Kind.SIGN and held is not None and held[0] == reply.number:
            return _Use(held[1])
        if reply.kind is Kind.PENDING:
            return None
        raise RuntimeError(f"a desk replied {reply.kind.name}")

    def _told(self, call: int, now: Moment, answer: Answer) -> Reply:
        self._asking[call] = (*self._asking.get(call, ()), answer)
        if answer is None:
            return self._desk.missing(self._handle, call, now)
        if isinstance(answer, Exception):
            return self._desk.failed(self._handle, call, now, 0)
        return self._found(call, now, answer)

    def _found(self, call: int, now: Moment, credentials: Credentials) -> Reply:
        number = self._last_credentials + 1
        reply = self._desk.found(self._handle, call, now, self._ticket(number, credentials))
        self._last_credentials = number
        cached = self._desk.cached(self._cache)
        if cached is not None and cached.number == number:
            self._held = number, credentials
        return reply

    def _ticket(self, number: int, credentials: Credentials) -> Ticket:
        if credentials.expires is None:
            return Ticket(number, _LAST, _LAST)
        return Ticket(number, _moment(credentials.expires - self._early), _moment(credentials.expires))

    def _has_answer(self, call: int) -> bool:
        """Whether the call began before a load failed, and is told what that load answered."""
        return call <= self._failed.last_call and len(self._asking.get(call, ())) < len(self._failed.answers)

    def _end_of_load(self, call: int, reply: Reply) -> tuple[Exception, ...]:
        """Where the call asks no more: the errors that it was told. All that wait at a load that failed are told them."""
        if reply.kind in (Kind.ASK, Kind.PENDING):
            return ()
        answers = self._asking.pop(call, ())
        if reply.cause in (Cause.MISSING, Cause.LOADER) and call > self._failed.last_call:
            self._failed = _Load(answers, self._last_call)
        return tuple(answer for answer in answers if isinstance(answer, Exception))

    def _waker_of(self, reply: Reply) -> Callable[[], object]:
        woken = None if reply.wakes is None else self._wakers.pop(reply.wakes[1], None)
        return (lambda: None) if woken is None else woken


class _Base(Generic[_P]):
    """What both signers are made of."""

    def __init__(
        self,
        providers: Union[_P, Sequence[_P]],
        region: Text,
        service: Text,
        *,
        early: float = 60.0,
        clock: Clock = time.time,
    ) -> None:
        self._providers: list[_P] = list(providers) if isinstance(providers, Sequence) else [providers]
        if not self._providers:
            raise ValueError("there is no provider")
        self._line = _Line(len(self._providers), early)
        self._region, self._service, self._clock = region, service, clock

    def __repr__(self) -> str:
        return f"{type(self).__name__}(***)"

    def _signing(
        self, method: Text, url: Text, headers: Headers, payload: Optional[Text]
    ) -> Callable[[Credentials, float], dict[str, str]]:
        return lambda keys, now: sign(method, url, headers, keys, self._region, self._service, payload=payload, now=now)

    def _presigning(self, method: Text, url: Text, expires: int) -> Callable[[Credentials, float], str]:
        return lambda keys, now: presign(method, url, keys, self._region, self._service, expires=expires, now=now)


class Signer(_Base[Provider]):
    """Signs requests with credentials that it loads, caches and refreshes, for threads, which share it.

    A provider is a function that returns `Credentials`, or None where it has none; several are asked in order. The thread that
    finds no fresh credentials loads them, and the others wait for it. Where its load fails, all that wait at it are told so; a
    later call loads anew. From `early` seconds before they expire, others are loaded.

    `timeout` is how many seconds a call waits for others. It does not end a load: a provider has a time limit of its own.
    """

    def sign(
        self,
        method: Text,
        url: Text,
        headers: Headers,
        *,
        payload: Optional[Text] = None,
        timeout: Optional[float] = None,
    ) -> dict[str, str]:
        """The headers that the function `sign` adds. Raises CredentialError, SignError, and TimeoutError."""
        return self._use(0, timeout, self._signing(method, url, headers, payload))

    def presign(self, method: Text, url: Text, *, expires: int = 3600, timeout: Optional[float] = None) -> str:
        """The link that the function `presign` makes, by credentials that last as long. Raises what `sign` raises."""
        return self._use(expires, timeout, self._presigning(method, url, expires))

    def _use(self, lasts: float, timeout: Optional[float], use: Callable[[Credentials, float], _T]) -> _T:
        call = self._line.begin(lasts)
        try:
            result = use(*self._credentials(call, timeout))
            self._line.accept(call)
            return result
        except BaseException:
            self._line.leave(call)
            raise

    def _credentials(self, call: int, timeout: Optional[float]) -> tuple[Credentials, float]:
        """The call's credentials, and the moment at which they were found to serve it."""
        step, now = self._turn(call, timeout)
        while isinstance(step, _Ask):
            answer = self._ask(step.place)
            now = self._clock()
            step = self._line.told(call, now, answer)
        return step.credentials, now

    def _turn(self, call: int, timeout: Optional[float]) -> tuple[_Step, float]:
        until = None if timeout is None else time.monotonic() + timeout
        while True:
            now, woken = self._clock(), threading.Event()
            step = self._line.poll(call, now, woken.set)
            if step is not None:
                return step, now
            if not woken.wait(None if until is None else max(0.0, until - time.monotonic())):
                raise TimeoutError("others load credentials")

    def _ask(self, place: int) -> Answer:
        try:
            return _checked(self._providers[place]())
        except Exception as error:
            return error


class AsyncSigner(_Base[AsyncProvider]):
    """Signs requests with credentials that it loads, caches and refreshes, for the tasks of one event loop.

    It is what `Signer` is, but that providers are async functions. A load is a task of its own: where the task that began it
    is cancelled, it goes on, and those that wait get its credentials. Limit the time of a call by `asyncio.wait_for`.
    """

    def __init__(
        self,
        providers: Union[AsyncProvider, Sequence[AsyncProvider]],
        region: Text,
        service: Text,
        *,
        early: float = 60.0,
        clock: Clock = time.time,
    ) -> None:
        super().__init__(providers, region, service, early=early, clock=clock)
        self._loads: dict[int, asyncio.Task[tuple[Credentials, float]]] = {}

    async def sign(
        self, method: Text, url: Text, headers: Headers, *, payload: Optional[Text] = None
    ) -> dict[str, str]:
        """The headers that the function `sign` adds. Raises CredentialError and SignError."""
        return await self._use(0, self._signing(method, url, headers, payload))

    async def presign(self, method: Text, url: Text, *, expires: int = 3600) -> str:
        """The link that the function `presign` makes, by credentials that last as long. Raises what `sign` raises."""
        return await self._use(expires, self._presigning(method, url, expires))

    async def _use(self, lasts: float, use: Callable[[Credentials, float], _T]) -> _T:
        call = self._line.begin(lasts)
        try:
            result = use(*await self._credentials(call))
            self._line.accept(call)
            return result
        except BaseException:
            if call not in self._loads:
                self._line.leave(call)
            raise

    async def _credentials(self, call: int) -> tuple[Credentials, float]:
        step, now = await self._turn(call)
        if isinstance(step, _Use):
            return step.credentials, now
        load = self._loads[call] = asyncio.ensure_future(self._load(call, step))
        try:
            return await asyncio.shield(load)
        finally:
            if load.done():
                del self._loads[call]
            else:
                # The task is cancelled. Its call is over once the load is.
                load.add_done_callback(functools.partial(self._abandoned, call))

    def _abandoned(self, call: int, load: asyncio.Task[tuple[Credentials, float]]) -> None:
        del self._loads[call]
        if not load.cancelled():
            load.exception()  # It is told to those that wait, and asyncio is not to log it.
        self._line.leave(call)

    async def _load(self, call: int, step: _Step) -> tuple[Credentials, float]:
        now = self._clock()
        while isinstance(step, _Ask):
            answer = await self._ask(step.place)
            now = self._clock()
            step = self._line.told(call, now, answer)
        return step.credentials, now

    async def _turn(self, call: int) -> tuple[_Step, float]:
        while True:
            now, woken = self._clock(), asyncio.get_running_loop().create_future()
            step = self._line.poll(call, now, functools.partial(_wake, woken))
            if step is not None:
                return step, now
            await woken

    async def _ask(self, place: int) -> Answer:
        try:
            return _checked(await self._providers[place]())
        except Exception as error:
            return error


def _wake(woken: asyncio.Future[None]) -> None:
    if not woken.done():
        woken.set_result(None)


def _checked(answer: Optional[Credentials]) -> Optional[Credentials]:
    if answer is not None and not isinstance(answer, Credentials):
        raise TypeError(f"a provider returns Credentials or None, and not {type(answer).__name__}")
    return answer


def _moment(seconds: float) -> Moment:
    """The moment; one past the last is the last, and one before the first is the first of 1970."""
    if seconds >= _LAST.second:
        return _LAST
    second = math.floor(max(seconds, 0))
    return Moment(second, min(int((max(seconds, 0) - second) * 10**9), 10**9 - 1))


def _nanos(seconds: float) -> int:
    """So many seconds in nanoseconds. A sum past the longest time ends past the last moment in either case."""
    return math.ceil(min(max(seconds, 0), 2**40)) * 10**9
