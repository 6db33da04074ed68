"""Random inputs of `script` and `grant`: most events fit where their call is, some lines are spoilt."""

from formats import LAST_SECOND, U32_MAX, U64_MAX

SPOILT_WORDS = [
    b"%d" % U32_MAX, b"%d" % (U32_MAX + 1), b"%d" % U64_MAX, b"%d" % (U64_MAX + 1),
    b"%d" % LAST_SECOND, b"%d" % (LAST_SECOND + 1),
    b"00", b"", b"-", b"-0", b"+1", b"1.5", b"5.", b"1.50", b".5", b"signctl",
]
BYTES = b" \n09.-:%aZ#\x00\xff"


class Inputs:
    def __init__(self, random, command):
        self.random, self.command = random, command
        self.version = random.choice([1, 1, 2]) if command == "script" else 1
        self.start = random.choice([0, 100, 10**9, LAST_SECOND - 20])

    def pick(self, *choices):
        return self.random.choice(choices)

    def fraction(self):
        if self.version == 1 or self.random.random() < 0.5:
            return ""
        digits = ("%09d" % self.random.randint(1, 10**9 - 1))[: self.random.randint(1, 9)]
        return ("." + digits.rstrip("0")).rstrip(".")

    def moment(self):
        return str(min(self.start + self.random.randint(0, 20), LAST_SECOND)) + self.fraction()

    def duration(self):
        seconds = self.pick(0, 1, 5, 20, LAST_SECOND, U64_MAX, self.random.randint(0, 30))
        return self.pick("-", str(seconds) + self.fraction())

    def credential(self):
        return f"{self.pick(0, 1, 7, U64_MAX)} {self.moment()} {self.moment()} {self.moment()}"

    def head(self):
        method = self.pick("GET", "POST", "!~")
        uri = self.pick("https://e.x/", "/a?b=c", "*", "https://e.x/" + "a" * self.random.randint(0, 40))
        version = self.pick("0.9", "1.0", "1.1", "2", "3")
        return " ".join([method, uri, version] + [self.header() for _ in range(self.pick(0, 0, 1, 3))])

    def header(self):
        pieces = ["a", "Z", ":", "!", "%25", "%00", "%20", "%FF", "%0A"]
        value = "".join(self.pick(*pieces) for _ in range(self.random.randint(0, 12)))
        return self.pick("a", "x-b", "~" * 20) + ":" + value

    def lines(self):
        caches, handles = self.pick(1, 1, 2, 3), self.pick(1, 2, 2, 4)
        lines = ["signctl 2"] if self.version == 2 else []
        lines += [f"cache {self.pick('single', f'chain {self.pick(0, 1, 2, 3)}')}" for _ in range(caches)]
        lines += [f"handle {self.random.randrange(caches)} {self.pick('now', 'cred')}" for _ in range(handles)]
        begun, greatest = [], [-1] * handles
        for _ in range(self.pick(5, 20, 60, 120)):
            if not begun or self.random.random() < 0.22:
                handle = self.random.randrange(handles)
                greatest[handle] = max(0, greatest[handle] + self.pick(1, 1, 1, 2, 0))
                begun.append(f"{handle} {greatest[handle]}")
                head = " " + self.head() if self.command == "script" else ""
                lines.append(f"begin {begun[-1]} {self.duration()}{head}")
            else:
                unknown = f"{self.random.randrange(handles + 1)} {self.random.randrange(12)}"
                lines.append(self.event(self.pick(*begun[-6:], unknown)))
            if self.random.random() < 0.03:
                lines.append(self.pick("", "#", "# a remark"))
        return "\n".join(lines).encode() + self.pick(b"\n", b"\n", b"")

    def event(self, call):
        script = self.command == "script"
        error = self.pick(0, 42, U64_MAX)
        ended = f"accept {call} {self.head()}" if script else f"made {call} {self.moment()} {self.credential()}"
        kinds = {
            f"poll {call} {self.moment()}": 40,
            f"found {call} {self.moment()} {self.credential()}": 18,
            f"missing {call} {self.moment()}": 8,
            f"failed {call} {self.moment()} {error}": 8,
            f"cancel {call}": 8,
            ended: 14,
            f"{'reject' if script else 'fail'} {call} {error}": 4,
        }
        return self.random.choices(list(kinds), list(kinds.values()))[0]

    def spoilt(self, data):
        for _ in range(self.pick(1, 1, 2)):
            lines = data.split(b"\n")
            place = self.random.randrange(len(lines))
            words = lines[place].split(b" ")
            change = self.pick("word", "byte", "move", "drop")
            if change == "word":
                words[self.random.randrange(len(words))] = self.pick(*SPOILT_WORDS)
                lines[place] = b" ".join(words)
            elif change == "byte":
                at = self.random.randint(0, len(lines[place]))
                byte = bytes([self.pick(*BYTES)])
                lines[place] = lines[place][:at] + byte + lines[place][at + self.pick(0, 1) :]
            elif change == "move":
                lines.insert(self.random.randint(0, len(lines) - 1), lines.pop(place))
            else:
                del lines[place]
            data = b"\n".join(lines)
        return data
