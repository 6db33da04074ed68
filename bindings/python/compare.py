#!/usr/bin/env python3
"""Compares the library in this process with the program: random lines of each command that reads lines, and heads that are
signed, links that are made and checked, without a line.

usage: bindings/python/compare.py PROGRAM COUNT SEED

At least COUNT lines of each command are answered by both. An input on which they differ is written to the current folder,
and the exit status is then 1.
"""

import random
import subprocess
import sys
from urllib.parse import unquote_to_bytes

import domreth
from domreth import _library
from random_lines import COMMANDS, lines

VERSIONS = {b"0.9": 9, b"1.0": 10, b"1.1": 11, b"2": 20, b"3": 30}


def by_program(program, command, data):
    run = subprocess.run([program, command], input=data, capture_output=True, check=False)
    return run.returncode, run.stdout


def in_process(command, data):
    try:
        return 0, domreth.run(command, data)
    except domreth.BadLine as bad:
        return 3, bad.text


def compare(program, command, count, seed):
    seen = differ = place = 0
    while seen < count:
        source = random.Random(f"{seed} {command} {place}")
        data = lines(source, command, lambda name, text: in_process(name, text)[1])
        if by_program(program, command, data) != in_process(command, data):
            differ += 1
            name = f"differs-{seed}-{place}.{command}"
            with open(name, "wb") as file:
                file.write(data)
            print(name)
        seen, place = seen + data.count(b"\n") + 1, place + 1
    print(f"{command}: {seen} lines, {differ} inputs differ")
    return differ


def under_derived_key(head, key, word, second):
    """What is signed under the key that is derived of the secret."""
    _, derived = _library.answer(32, lambda *room: _library._lib.domreth_derive_key(key, second, *room))
    under = _library._DerivedKey(key.access, _library.lend(derived), key.region, key.service)
    return _library.signed(lambda *room: _library._lib.domreth_sign_with(head, under, word, len(word), second, *room))


def field_word(line):
    """The word of a header of HTTP/1.1, whose value is escaped as a line of `sigv4` has it."""
    return line.replace(b": ", b":", 1).replace(b"%", b"%25").replace(b" ", b"%20")


def without_a_line(words):
    """What the call of a line of `sigv4` answers, in the words of its answer."""
    form, access, secret, region, service, second, *rest = words
    more = 0 if form == b"verify" else 1
    method, uri, version, *headers = rest[more:]
    pairs = [(name, unquote_to_bytes(value)) for name, _, value in (it.partition(b":") for it in headers)]
    fields = (_library._Field * max(len(pairs), 1))(*(_library._Field(_library.lend(n), _library.lend(v)) for n, v in pairs))
    head = _library._Head(_library.lend(method), _library.lend(uri), fields, len(pairs), VERSIONS[version])
    key = _library._Key(*map(_library.lend, (access, unquote_to_bytes(secret), region, service)))
    try:
        if form == b"verify":
            status = _library._lib.domreth_verify(head, key, int(second))
            return b"valid" if status == 0 else domreth.Status(status).name.lower().encode()
        if form == b"presign":
            text = _library.signed(lambda *room: _library._lib.domreth_presign(head, key, int(rest[0]), int(second), *room))
            return b" ".join([b"done", method, text.encode(), version, *headers])
        word = rest[0]
        text = _library.signed(lambda *room: _library._lib.domreth_sign(head, key, word, len(word), int(second), *room))
        if under_derived_key(head, key, word, int(second)) != text:
            return b"another text under the derived key"
        kept = [it for it in headers if it.partition(b":")[0].lower() not in (b"authorization", b"x-amz-date")]
        added = [field_word(line.encode()) for line in text.split("\r\n") if line]
        return b" ".join([b"done", method, uri, version, *kept, *added])
    except domreth.SignError as error:
        return b"refused " + error.status.name.lower().encode()


def compare_heads(count, seed):
    """The calls without a line, beside the line."""
    seen = differ = place = 0
    while seen < count:
        source = random.Random(f"{seed} heads {place}")
        place += 1
        asked = [line for line in lines(source, "sigv4", lambda name, text: in_process(name, text)[1]).split(b"\n") if line]
        asked = [line for line in asked if not line.startswith(b"#")]
        for line, answer in zip(asked, in_process("sigv4", b"\n".join(asked))[1].split(b"\n")):
            if answer.startswith(b"line "):
                break
            seen += 1
            found = without_a_line(line.split(b" "))
            if found != answer:
                differ += 1
                print(line, answer, found, sep="\n")
    print(f"heads without a line: {seen}, {differ} differ")
    return differ


def main():
    program, count, seed = sys.argv[1], int(sys.argv[2]), int(sys.argv[3])
    differ = sum(compare(program, command, count, seed) for command in COMMANDS)
    return 1 if differ + compare_heads(count, seed) else 0


if __name__ == "__main__":
    if len(sys.argv) != 4:
        print("usage: bindings/python/compare.py PROGRAM COUNT SEED", file=sys.stderr)
        sys.exit(2)
    sys.exit(main())
