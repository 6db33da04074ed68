"""The words and lines of `script` and `grant`, as docs/FORMATS.md spells them."""

import re

LAST_SECOND = 253_402_207_200
NANOSECONDS = 10**9
U32_MAX = 2**32 - 1
U64_MAX = 2**64 - 1
VERSIONS = (b"0.9", b"1.0", b"1.1", b"2", b"3")


class NotUnderstood(Exception):
    """The line has none of the forms."""


def number(word, limit):
    if not re.fullmatch(rb"0|[1-9][0-9]*", word) or int(word) > limit:
        raise NotUnderstood
    return int(word)


def nanoseconds(word, version, limit):
    """A moment or a duration, in nanoseconds; `limit` is one of whole seconds."""
    if version == 2 and b"." in word:
        seconds, fraction = word.split(b".", 1)
        if not re.fullmatch(rb"[0-9]{0,8}[1-9]", fraction):
            raise NotUnderstood
        return number(seconds, limit) * NANOSECONDS + int(fraction.ljust(9, b"0"))
    return number(word, limit) * NANOSECONDS


def moment(word, version):
    return nanoseconds(word, version, LAST_SECOND)


def duration(word, version):
    return None if word == b"-" else nanoseconds(word, version, U64_MAX)


def visible(word):
    if not re.fullmatch(rb"[\x21-\x7e]+", word):
        raise NotUnderstood
    return word


def header(word):
    if b":" not in word:
        raise NotUnderstood
    name, value = word.split(b":", 1)
    visible(name)
    if not re.fullmatch(rb"([\x21-\x24\x26-\x7e]|%[0-9A-F]{2})*", value):
        raise NotUnderstood
    raw = re.sub(rb"%(..)", lambda m: bytes([int(m[1], 16)]), value)
    if escaped(raw) != value:
        raise NotUnderstood
    return name, raw


def escaped(raw):
    plain = (bytes([b]) if 0x21 <= b <= 0x7E and b != 0x25 else b"%%%02X" % b for b in raw)
    return b"".join(plain)


def head(words):
    if len(words) < 3 or words[2] not in VERSIONS:
        raise NotUnderstood
    return visible(words[0]), visible(words[1]), words[2], [header(w) for w in words[3:]]


def head_text(value):
    method, uri, version, headers = value
    return b" ".join([method, uri, version] + [n + b":" + escaped(v) for n, v in headers])


def moment_text(at, version):
    seconds, fraction = divmod(at, NANOSECONDS)
    if version == 1 or fraction == 0:
        return b"%d" % seconds
    return (b"%d.%09d" % (seconds, fraction)).rstrip(b"0")


def read(line, version, command):
    """What a line says, that is not silent: its kind, then its parts."""
    kind, *words = line.split(b" ")

    def call():
        return number(words[0], U32_MAX), number(words[1], U64_MAX)

    def credential(first):
        return (number(words[first], U64_MAX), *(moment(w, version) for w in words[first + 1 :]))

    def error(at):
        return number(words[at], U64_MAX)

    def cache():
        if words == [b"single"]:
            return (None,)
        if len(words) == 2 and words[0] == b"chain":
            return (number(words[1], U32_MAX),)
        raise NotUnderstood

    def handle():
        if words[1] not in (b"now", b"cred"):
            raise NotUnderstood
        return number(words[0], U32_MAX), words[1]

    # For each kind: how many words stand behind it, and what they say.
    forms = {
        b"cache": (None, cache),
        b"handle": (2, handle),
        b"poll": (3, lambda: (call(), moment(words[2], version))),
        b"found": (7, lambda: (call(), moment(words[2], version), credential(3))),
        b"missing": (3, lambda: (call(), moment(words[2], version))),
        b"failed": (4, lambda: (call(), moment(words[2], version), error(3))),
        b"cancel": (2, lambda: (call(),)),
    }
    if command == "script":
        forms[b"begin"] = (None, lambda: (call(), duration(words[2], version), head(words[3:])))
        forms[b"accept"] = (None, lambda: (call(), head(words[2:])))
        forms[b"reject"] = (3, lambda: (call(), error(2)))
    else:
        forms[b"begin"] = (3, lambda: (call(), duration(words[2], version), None))
        forms[b"made"] = (7, lambda: (call(), moment(words[2], version), credential(3)))
        forms[b"fail"] = (3, lambda: (call(), error(2)))
    if kind not in forms:
        raise NotUnderstood
    count, parts = forms[kind]
    if count is not None and len(words) != count:
        raise NotUnderstood
    try:
        return (kind.decode(), *parts())
    except IndexError:
        raise NotUnderstood from None
