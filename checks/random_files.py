"""Event files made at random: lines that are accepted, with odd ones among them."""
import random

PLAIN = [b"", b"a", b"b", b"a!", b"ab", b"\x80", b"\xff\xfe", b" ", b"\x00", b"inf", b"10", b"9"]
ALL = PLAIN + [b"a,b", b",", b'"', b'x"y', b'","']
WRONG = [b"", b"x", b"-1", b"+1", b" 1", b"1.0", b"INF", b"inf", b"4611686018427387904", b"18446744073709551616",
         b"9" * 30]
BYTES = [b'"', b",", b"\r", b"\n", b"+", b"-", b"=", b"~", b"0", b" ", b"\x00", b"\xef\xbb\xbf"]
FOREVER = 2**62
REVISED = 0.3


class RandomFile:
    """Makes the lines of one file, and knows the events and the guarantee that they leave if none is faulty."""

    def __init__(self, rng: random.Random, span: int) -> None:
        self.rng = rng
        self.span = span
        self.values, self.quoting = rng.choice([(PLAIN, 0)] * 3 + [(PLAIN, 0.1), (ALL, 0), (ALL, 0.1), (ALL, 0.9)])
        self.returning = rng.choice([0, 0, 0.5, 1])
        self.base = rng.choice([0, 0, 0, FOREVER - 2 * span])
        self.events = {}
        self.mark = 0

    def lines(self, count: int, odd: float) -> bytes:
        lines = [self.odd_line() if self.rng.random() < odd else self.good_line() for _ in range(count)]
        text = b"".join(lines)
        return text.removesuffix(b"\n") if self.rng.random() < 0.2 else text

    def good_line(self) -> bytes:
        """About a quarter are revisions, where there is an event that may be revised."""
        kind = self.rng.random()
        if kind < 0.05:
            return self.rng.choice([b"\n", b"\r\n"])
        if kind < 0.1:
            return self.guarantee()
        if self.rng.random() < REVISED and (revisable := self.ids(passed=False)):
            return self.revision(self.rng.choice(revisable))
        if kind < 0.4 and self.events:
            return self.retraction(self.rng.choice(list(self.events)))
        return self.insertion()

    def guarantee(self) -> bytes:
        time = self.base + self.rng.randrange(self.span // 4)
        self.mark = max(self.mark, time)
        return self.text([b"=", self.number(time)])

    def insertion(self) -> bytes:
        identity = self.rng.choice([len(self.events), 2**64 - 1 - len(self.events)])
        begin = self.begin()
        return self.event(b"+", identity, begin, self.end(begin), self.payload())

    def begin(self) -> int:
        return max(self.mark, self.base + self.rng.randrange(self.span))

    def end(self, begin: int) -> int:
        return self.rng.choice([begin + 1 + self.rng.randrange(self.span), FOREVER, begin + 1])

    def event(self, kind: bytes, identity: int, begin: int, end: int, payload: list) -> bytes:
        """An insertion or a revision, after which the event is this one."""
        self.events[identity] = begin, end, payload
        return self.text([kind, self.number(identity), self.number(begin), self.number(end), *payload])

    def ids(self, passed: bool) -> list:
        """The events that begin before the guarantee and aren't withdrawn, or all others, which may be revised."""
        return [identity for identity, (begin, end, _) in self.events.items()
                if (begin < self.mark and begin < end) == passed]

    def revision(self, identity: int) -> bytes:
        """The event becomes as it is or as any other one, but mostly with another begin, end or payload."""
        like = self.rng.choice([identity, identity, self.rng.choice(list(self.events))])
        begin, end, payload = self.events[like]
        if begin < self.mark or self.rng.random() < 0.5:
            begin = self.begin()
        if end <= begin or self.rng.random() < 0.5:
            end = self.end(begin)
        return self.event(b"~", identity, begin, end, self.rng.choice([payload, self.payload()]))

    def retraction(self, identity: int) -> bytes:
        begin, end, payload = self.events[identity]
        least = max(begin, self.mark)
        if least >= end:
            return b"\n"
        new_end = self.rng.choice([least, least + self.rng.randrange(end - least)])
        self.events[identity] = begin, new_end, payload
        return self.text([b"-", self.number(identity), self.number(new_end)])

    def payload(self) -> list:
        return [self.rng.choice(self.values) for _ in range(self.rng.choice([0, 1, 1, 2, 2, 16]))]

    def number(self, value: int) -> bytes:
        if value == FOREVER:
            return b"inf"
        return b"0" * self.rng.choice([0] * 20 + [1, 3]) + str(value).encode()

    def text(self, fields: list) -> bytes:
        end = b"\r\n" if self.rng.random() < self.returning else b"\n"
        return b",".join(self.field(field) for field in fields) + end

    def field(self, field: bytes) -> bytes:
        if b"," in field or b'"' in field or self.rng.random() < self.quoting:
            return b'"' + field.replace(b'"', b'""') + b'"'
        return field

    def odd_line(self) -> bytes:
        rng = self.rng
        passed = self.ids(passed=True)
        if passed and rng.random() < 0.3:
            return self.late_revision(rng.choice(passed))
        identity = rng.choice(list(self.events) or [7])
        time, other = (self.base + rng.randrange(self.span) for _ in range(2))
        fields = rng.choice([
            [b"+", identity, time, FOREVER],
            [b"+", 5000, time, min(time, other)],
            [b"+", 5000, 0, 1],
            [b"~", identity, time, FOREVER, *self.payload()],
            [b"~", identity, time, min(time, other), *self.payload()],
            [b"~", identity, 0, 1, *self.payload()],
            [b"~", 5000, time, FOREVER, *self.payload()],
            [b"-", identity, time],
            [b"-", identity, FOREVER],
            [b"-", 5000, time],
            [b"=", time, time],
            [rng.choice([b"+", b"~"]), 5000, time],
            [rng.choice([b"+", b"~"]), 5000, time, FOREVER] + [b"f"] * 17,
            [rng.choice([b"", b"*", b"+-", b"a"]), 5000, time],
        ])
        fields = [field if isinstance(field, bytes) else self.number(field) for field in fields]
        if rng.random() < 0.3:
            fields[rng.randrange(1, len(fields))] = rng.choice(WRONG)
        line = self.text(fields) if rng.random() < 0.6 else self.good_line()
        return self.spoilt(line) if rng.random() < 0.3 else line

    def late_revision(self, identity: int) -> bytes:
        """One of an event that begins before the guarantee, which begins there itself or not."""
        begin = self.rng.choice([self.begin(), self.rng.randrange(self.mark)])
        return self.text([b"~", *map(self.number, [identity, begin, FOREVER]), *self.payload()])

    def spoilt(self, line: bytes) -> bytes:
        """The line with one byte left out, put in or put in place of another."""
        at = self.rng.randrange(len(line))
        left_out = self.rng.randrange(2)
        put_in = self.rng.choice(BYTES + [b""] * 3)
        return line[:at] + put_in + line[at + left_out :]


def small_file(rng: random.Random) -> bytes:
    odd = rng.choice([0, 0.03, 0.1, 0.3])
    return RandomFile(rng, rng.choice([8, 40])).lines(rng.randrange(41), odd)


def long_file(rng: random.Random) -> bytes:
    made = RandomFile(rng, 100_000)
    return made.lines(4_900, 0) + b"\n" + made.lines(100, rng.choice([0, 0.05]))


def shuffled_pair(rng: random.Random) -> tuple[bytes, bytes]:
    """Two files that differ only in the order in which the lines of different events arrive."""
    made = RandomFile(rng, 40)
    groups = []
    for _ in range(rng.randrange(1, 20)):
        insertion = made.insertion()
        identity = list(made.events)[-1]
        changes = [made.revision if rng.random() < REVISED else made.retraction for _ in range(rng.randrange(4))]
        groups.append([insertion] + [change(identity) for change in changes])
    return merged(rng, groups), merged(rng, groups)


def merged(rng: random.Random, groups: list) -> bytes:
    """The lines of all groups, mixed at random, with those of each group in their order."""
    places = [place for place, group in enumerate(groups) for _ in group]
    rng.shuffle(places)
    left = [iter(group) for group in groups]
    return b"".join(next(left[place]) for place in places)
