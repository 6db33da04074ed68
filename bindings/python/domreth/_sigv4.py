"""Requests that are signed, links that are made and checked, and commands over lines."""

from __future__ import annotations

import dataclasses
import math
import operator
from collections.abc import Iterable, Mapping
from typing import Callable, Optional, Tuple, Union
from urllib.parse import quote, unquote

from ._library import BadLine, DomrethError, SignError, Status, Text, answer, as_bytes, lend, refuse, second_of, signed
from ._library import _DerivedKey, _Field, _Head, _Key, _lib

Headers = Union[Mapping[str, Text], Iterable[Tuple[Text, Text]]]


@dataclasses.dataclass(frozen=True, repr=False)
class Credentials:
    """An access key with its secret, the token of its session where it has one, and the moment in seconds since 1970 at which
    it ends, if it does. An empty token is none. Its text shows nothing of them.

    A `Signer` goes by `expires`. The functions do not look at it.
    """

    access_key: Text
    secret_key: Text
    token: Optional[Text] = None
    expires: Optional[float] = None

    def __post_init__(self) -> None:
        _check_texts(self.access_key, self.secret_key)
        object.__setattr__(self, "token", _token(self.token))
        if self.expires is not None and math.isnan(self.expires):
            raise ValueError("expires is no number")

    def __repr__(self) -> str:
        return "Credentials(***)"


@dataclasses.dataclass(frozen=True, repr=False)
class DerivedKey:
    """The signing key of an access key for one day in UTC, one region and one service, and the token of its session where it
    has one. Its text shows nothing of them.

    `key` is 32 bytes, which may cross to a machine that has no secret: who has them can sign for that day, region and
    service, and for nothing else. `day` is the moment at which it was derived, or any other one of that day, in seconds since
    1970.
    """

    access_key: Text
    key: bytes
    region: Text
    service: Text
    day: float
    token: Optional[Text] = None

    def __post_init__(self) -> None:
        _check_texts(self.access_key, self.key, self.region, self.service)
        object.__setattr__(self, "token", _token(self.token))

    def __repr__(self) -> str:
        return "DerivedKey(***)"

    def is_for_day_of(self, now: float) -> bool:
        """Whether the moment is of the key's day. Where it is not, derive another key."""
        return second_of(self.day) // 86400 == second_of(now) // 86400

    def sign(
        self,
        method: Text,
        url: Text,
        headers: Headers,
        *,
        payload: Optional[Text] = None,
        now: Optional[float] = None,
    ) -> dict[str, str]:
        """The headers that the function `sign` adds to a request under the secret.

        Raises SignError, for MOMENT where the moment is of another day than the key, and else with the first cause that
        holds; and MemoryError where an allocation fails.
        """
        second = second_of(now)
        if not self.is_for_day_of(second):
            raise SignError(Status.MOMENT)
        key = _DerivedKey(lend(self.access_key), lend(self.key), lend(self.region), lend(self.service))
        return _added(
            method, url, headers, self.token, self.service, payload,
            lambda head, word, *room: _lib.domreth_sign_with(head, key, word, len(word), second, *room),
        )


def run(command: Text, lines: Text) -> bytes:
    """What `signctl` writes to these lines under the command `script`, `hmac`, `view`, `grant`, `sigv4` or `audit`.

    Raises BadLine where a line is bad or the input too long, DomrethError where no such command reads lines, and
    MemoryError where an allocation fails.

    >>> run("hmac", b"base64_encode 666f6f626172\\n")
    b'Zm9vYmFy\\n'
    """
    name, given = as_bytes(command), as_bytes(lines)
    status, text = answer(2 * len(given) + 1024, lambda *room: _lib.domreth_run(name, len(name), given, len(given), *room))
    if status == Status.BAD_LINE:
        raise BadLine(text)
    if status != Status.DONE:
        raise DomrethError(status)
    return text


def sign(
    method: Text,
    url: Text,
    headers: Headers,
    credentials: Credentials,
    region: Text,
    service: Text,
    *,
    payload: Optional[Text] = None,
    now: Optional[float] = None,
) -> dict[str, str]:
    """The headers that a signature adds to a request, by AWS Signature Version 4. Send them in the place of those of the
    same names.

    The method is signed as it is: `get` is another one than `GET`, which most clients send for both. `payload` is the SHA-256 of
    the content in lower-case hexadecimal, and None where the content is not signed; for S3 it is among the headers that are
    added, as `x-amz-content-sha256`, and so is the token of a session. `now` is in seconds since 1970, by default the clock's.
    Path and query are percent-encoded, once. Each header is signed, so those that agents on the way change are added after
    signing. Text is str or bytes; a number is a TypeError.

    Raises SignError with the first cause that holds, and MemoryError where an allocation fails.
    """
    key, second = _key(credentials, region, service), second_of(now)
    return _added(
        method, url, headers, credentials.token, service, payload,
        lambda head, word, *room: _lib.domreth_sign(head, key, word, len(word), second, *room),
    )


def derive_key(credentials: Credentials, region: Text, service: Text, *, now: Optional[float] = None) -> DerivedKey:
    """The signing key of these credentials for the day of the moment in UTC, which is by default the clock's.

    Raises SignError with the first cause that holds of SECOND, KEY, SCOPE and MOMENT, and MemoryError where an allocation
    fails.

    >>> keys = Credentials("AKIDEXAMPLE", "wJalrXUtnFEMI/K7MDENG+bPxRfiCYEXAMPLEKEY")
    >>> derive_key(keys, "us-east-1", "iam", now=1440938160).key.hex()
    'c4afb1cc5771d871763a393e44b703571b55cc28424d1a5e86da6ed3c154a4b9'
    """
    key, second = _key(credentials, region, service), second_of(now)
    status, bytes_of_key = answer(32, lambda *room: _lib.domreth_derive_key(key, second, *room))
    if status != Status.DONE:
        refuse(status)
    return DerivedKey(credentials.access_key, bytes_of_key, region, service, second, credentials.token)


def presign(
    method: Text,
    url: Text,
    credentials: Credentials,
    region: Text,
    service: Text,
    *,
    expires: int = 3600,
    now: Optional[float] = None,
) -> str:
    """The link by which whoever has it can send this request for so many seconds, any number of times. The method is signed
    as it is.

    Raises SignError with the first cause that holds, and MemoryError where an allocation fails.
    """
    if credentials.token is not None:
        url = _with_token(as_bytes(url).decode(), credentials.token)
    head, key, second = _head(method, url, []), _key(credentials, region, service), second_of(now)
    most, seconds = 2**32 - 1, operator.index(expires)
    fitting = seconds if 0 <= seconds <= most else most
    return signed(lambda *room: _lib.domreth_presign(head, key, fitting, second, *room))


def verify(
    method: Text,
    url: Text,
    credentials: Credentials,
    region: Text,
    service: Text,
    *,
    headers: Headers = (),
    now: Optional[float] = None,
) -> None:
    """Returns where the URL, which names the authority, is a link of these credentials that is valid at the moment.

    Raises SignError with what is found at it, and MemoryError where an allocation fails.
    """
    status = _lib.domreth_verify(_head(method, url, _pairs(headers)), _key(credentials, region, service), second_of(now))
    if status != Status.DONE:
        refuse(status)


def _added(
    method: Text,
    url: Text,
    headers: Headers,
    token: Optional[Text],
    service: Text,
    payload: Optional[Text],
    call: Callable[..., int],
) -> dict[str, str]:
    """The headers that a call adds to a head, which has the token of a session, and for S3 the word of its content."""
    word = b"UNSIGNED-PAYLOAD" if payload is None else as_bytes(payload)
    own = {b"x-amz-content-sha256": word} if as_bytes(service) == b"s3" else {}
    if token is not None:
        own[b"x-amz-security-token"] = as_bytes(token)
    head = _head(method, url, [*(pair for pair in _pairs(headers) if pair[0].lower() not in own), *own.items()])
    lines = signed(lambda *room: call(head, word, *room))
    added = {name.decode(): value.decode() for name, value in own.items()}
    return {**added, **dict(line.split(": ", 1) for line in lines.split("\r\n") if line)}


def _check_texts(*texts: Text) -> None:
    for text in texts:
        as_bytes(text)


def _token(token: Optional[Text]) -> Optional[Text]:
    """The token of a session. An empty one is none, as that of an environment without one."""
    return token if token is not None and as_bytes(token) else None


def _pairs(headers: Headers) -> list[tuple[bytes, bytes]]:
    pairs = headers.items() if isinstance(headers, Mapping) else headers
    return [_pair(pair) for pair in pairs]


def _pair(pair: Tuple[Text, Text]) -> tuple[bytes, bytes]:
    if isinstance(pair, (str, bytes)):
        raise TypeError("headers are a mapping, or pairs of a name and a value")
    name, value = pair
    return as_bytes(name), as_bytes(value)


def _head(method: Text, url: Text, headers: list[tuple[bytes, bytes]]) -> _Head:
    fields = (_Field * max(len(headers), 1))(*(_Field(lend(name), lend(value)) for name, value in headers))
    return _Head(lend(method), lend(url), fields, len(headers), 11)


def _key(credentials: Credentials, region: Text, service: Text) -> _Key:
    return _Key(lend(credentials.access_key), lend(credentials.secret_key), lend(region), lend(service))


def _with_token(url: str, token: Text) -> str:
    """The URL with the token as the last pair of its query. A fragment goes."""
    url = url.partition("#")[0]
    before, _, query = url.partition("?")
    if any(unquote(pair.partition("=")[0]) == "X-Amz-Security-Token" for pair in query.split("&")):
        raise SignError(Status.ALREADY)
    pair = "X-Amz-Security-Token=" + quote(as_bytes(token), safe="-._~")
    return f"{before}?{query}&{pair}" if query else f"{before}?{pair}"
