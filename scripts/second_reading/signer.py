"""A signer and a granter that keep each cache's calls in one list, and the output of a whole input."""

from formats import LAST_SECOND, NANOSECONDS, NotUnderstood, head_text, moment_text, read

LINE_LIMIT = 65_536
INPUT_LIMIT = 67_108_864
LAST_MOMENT = LAST_SECOND * NANOSECONDS + NANOSECONDS - 1


class Cache:
    def __init__(self, providers, chain):
        self.providers, self.chain = providers, chain
        self.held = None
        self.line = []  # the calls that were polled and whose hold is not over, by first polls


class Call:
    def __init__(self, name, cache, rule, duration, head):
        self.name, self.cache, self.rule = name, cache, rule
        self.duration, self.head = duration or 0, head
        self.stage, self.asked = "begun", 0

    def deadline(self, now, credential):
        if self.rule == b"cred":
            return credential[3]
        return now + self.duration if now + self.duration <= LAST_MOMENT else None


class Signer:
    """Answers the events of `script`, and those of `grant` where no call waits for another."""

    def __init__(self, waits):
        self.waits = waits
        self.caches, self.handles, self.calls, self.greatest = [], [], {}, {}

    def add_cache(self, chain):
        self.caches.append(Cache(1 if chain is None else chain, chain is not None))
        return b"cache %d" % (len(self.caches) - 1)

    def add_handle(self, cache, rule):
        self.handles.append((self.caches[cache], rule))
        return b"handle %d" % (len(self.handles) - 1)

    def answer(self, kind, name, *parts):
        if kind == "begin":
            return self.begin(name, *parts)
        call = self.calls.get(name)
        if call is None or call.stage == "over":
            return b"not now"
        return getattr(self, kind)(call, *parts)

    def begin(self, name, duration, head):
        handle, number = name
        if handle >= len(self.handles) or number <= self.greatest.get(handle, -1):
            return b"not now"
        self.greatest[handle] = number
        self.calls[name] = Call(name, *self.handles[handle], duration, head)
        return b"begun"

    def poll(self, call, now):
        if call.stage in ("loading", "signing"):
            return b"pending"
        line = call.cache.line
        if self.waits and call.stage == "begun":
            call.stage = "queued"
            line.append(call)
        if self.waits and line[0] is not call:
            return b"pending"
        held = call.cache.held
        if held is not None and now < held[1]:
            deadline = call.deadline(now, held)
            if deadline is None:
                return self.refuse(call, b"range")
            if held[2] > deadline:
                return self.hand_out(call, held)
        return self.ask(call, 0)

    def ask(self, call, provider):
        if provider >= call.cache.providers:
            return self.refuse(call, b"missing")
        call.stage, call.asked = "loading", provider
        return b"ask %d" % provider

    def found(self, call, now, credential):
        if call.stage != "loading":
            return b"not now"
        deadline = call.deadline(now, credential)
        if deadline is None:
            return self.refuse(call, b"range")
        if credential[2] <= deadline:
            return self.refuse(call, b"short")
        call.cache.held = credential
        return self.hand_out(call, credential)

    def missing(self, call, _now):
        return self.without(call, b"missing")

    def failed(self, call, _now, error):
        return self.without(call, b"loader %d" % error)

    def without(self, call, why):
        if call.stage != "loading":
            return b"not now"
        if call.cache.chain:
            return self.ask(call, call.asked + 1)
        return self.refuse(call, why)

    def accept(self, call, candidate):
        if call.stage != "signing":
            return b"not now"
        call.stage = "over"
        method, _, version, _ = call.head
        return b"done " + head_text((method, candidate[1], version, candidate[3]))

    def made(self, call, now, credential):
        if call.stage != "signing":
            return b"not now"
        call.stage = "over"
        return b"given %d" % credential[0] if credential[2] > now else b"refused stale"

    def reject(self, call, error):
        if call.stage != "signing":
            return b"not now"
        call.stage = "over"
        return b"refused service %d" % error

    fail = reject

    def cancel(self, call):
        wake = self.leave(call)
        call.stage = "over"
        return b"cancelled" + wake

    def refuse(self, call, why):
        wake = self.leave(call)
        call.stage = "over"
        return b"refused " + why + wake

    def hand_out(self, call, credential):
        wake = self.leave(call)
        call.stage = "signing"
        return b"%s %d" % (b"sign" if self.waits else b"grant", credential[0]) + wake

    def leave(self, call):
        """Takes the call out of its cache's line, and names the one that has its turn by this."""
        line = call.cache.line
        if call not in line:
            return b""
        had_turn = line[0] is call
        line.remove(call)
        return b" wake %d %d" % line[0].name if had_turn and line else b""


def lines_of(data):
    """The lines that are looked at, and whether there is too much input."""
    too_much = len(data) > INPUT_LIMIT
    *lines, last = data[:INPUT_LIMIT].split(b"\n")
    if last and (not too_much or len(last) > LINE_LIMIT):
        lines.append(last)
    return lines, too_much


def output(data, command):
    """What the program writes, and its exit status."""
    lines, too_much = lines_of(data)
    signer, answers, version, had_event = Signer(command == "script"), [], 1, False

    def ended(answer):
        return b"".join(a + b"\n" for a in answers + [answer]), 3

    for place, line in enumerate(lines, 1):
        if len(line) > LINE_LIMIT:
            return ended(b"line %d: too long" % place)
        if not line or line.startswith(b"#"):
            continue
        if command == "script" and place == 1 and line == b"signctl 2":
            version = 2
            continue
        try:
            kind, *parts = read(line, version, command)
        except NotUnderstood:
            return ended(b"line %d: not understood" % place)
        if kind in ("cache", "handle"):
            if had_event:
                return ended(b"line %d: late" % place)
            if kind == "handle" and parts[0] >= len(signer.caches):
                return ended(b"line %d: no such cache" % place)
            add = signer.add_cache if kind == "cache" else signer.add_handle
            answers.append(add(*parts))
        else:
            had_event = True
            answers.append(signer.answer(kind, *parts))
    if too_much:
        return ended(b"input too long")
    for place, cache in enumerate(signer.caches):
        held = b"empty"
        if cache.held is not None:
            generation, *moments = cache.held
            held = b" ".join([b"%d" % generation] + [moment_text(m, version) for m in moments])
        answers.append(b"final %d " % place + held)
    return b"".join(a + b"\n" for a in answers), 0
