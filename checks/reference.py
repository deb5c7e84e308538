"""What the lines of event files say, and what `cedr history` answers, plainly and apart from the program."""
from messages import FOREVER, Add, Cut, Mark, Row, sync

LINE_LIMIT = 65_536
FILE_LIMIT = 67_108_864
QUOTE, COMMA = b'"', b","


class Fault(Exception):
    """The fault of a line: its number, and the text of the numbers that it carries."""

    def __init__(self, number: int, carried: str = "") -> None:
        super().__init__(number, carried)
        self.number, self.carried = number, carried


def history(name: str, data: bytes) -> tuple[int, bytes, bytes]:
    """The exit status, standard output and standard error for the file of this name."""
    judge = Judge()
    _, told = judged(data, judge.take)
    if told:
        return 3, b"", f"events {name} {told}\n".encode()
    return 0, b"".join(row_text(row) for row in sorted(judge.rows_left())), b""


def judged(data: bytes, take) -> tuple[list, str]:
    """What `take` answers for each good line, and what is told of the first faulty one, if there is one."""
    *lines, rest = data[:FILE_LIMIT].split(b"\n")
    too_large = len(data) > FILE_LIMIT
    if rest and not too_large:
        lines.append(rest)
    answers, number = [], 0
    try:
        for number, line in enumerate(lines, 1):
            answers.append(take(line))
        if too_large:
            number += 1
            raise Fault(1 if len(rest) > LINE_LIMIT else 10)
    except Fault as fault:
        return answers, f"line {number} fault {fault.number}{fault.carried}"
    return answers, ""


def followed(data: bytes, take) -> tuple[list, list]:
    """What `take` answers for each good line of a script of any size, and what is told of each faulty one."""
    *lines, rest = data.split(b"\n")
    answers, told = [], []
    for number, line in enumerate([*lines, rest] if rest else lines, 1):
        try:
            answers.append(take(line))
        except Fault as fault:
            told.append(f"line {number} fault {fault.number}{fault.carried}")
    return answers, told


class Judge:
    """The events, which are by id, and the guarantee that the lines of a source leave.

    Without types an event may have any texts as its payload, and with types it has one field of each.
    """

    def __init__(self, types: list = None) -> None:
        self.types = types
        self.events = {}
        self.mark = 0

    def take(self, line: bytes) -> list:
        """The messages of a line, of which it has up to two. Raises its least fault."""
        line = without_return(line)
        return self.take_event(line) if line else []

    def take_event(self, line: bytes) -> list:
        """The same of a line that isn't empty and whose carriage return was dropped."""
        if b"\r" in line:
            raise Fault(2)
        kind, *fields = fields_of(line)
        if kind == b"+" and self.may_have(len(fields) - 3):
            return self.insert(*self.event_of(fields))
        if kind == b"~" and self.may_have(len(fields) - 3):
            return self.revise(*self.event_of(fields))
        if kind == b"-" and len(fields) == 2:
            return self.retract(fields)
        if kind == b"=" and len(fields) == 1:
            return self.promise(time_of(fields[0]))
        raise Fault(2)

    def may_have(self, count: int) -> bool:
        """Whether the payload of an event may have so many fields."""
        return 0 <= count <= 16 if self.types is None else count == len(self.types)

    def event_of(self, fields: list) -> tuple[int, Row]:
        """The id and the row of an insertion or a revision."""
        identity, begin = number_of(fields[0], 2**64), number_of(fields[1], FOREVER)
        end = time_of(fields[2])
        if end <= begin:
            raise Fault(4)
        types = self.types or ["text"] * len(fields[3:])
        return identity, Row(end, begin, tuple(value_of(field, one) for field, one in zip(fields[3:], types)))

    def insert(self, identity: int, row: Row) -> list:
        if identity in self.events:
            raise Fault(6)
        self.check_sync(row.begin)
        self.events[identity] = row
        return [Add(row)]

    def revise(self, identity: int, row: Row) -> list:
        """The event's row as it is goes, where there is still one, and the new one comes."""
        if identity not in self.events:
            raise Fault(7)
        before = self.events[identity]
        messages = [Cut(before, before.begin)] if before.begin < before.end else []
        messages.append(Add(row))
        self.check_sync(min(map(sync, messages)))
        self.events[identity] = row
        return messages

    def retract(self, fields: list) -> list:
        identity, new_end = number_of(fields[0], 2**64), time_of(fields[1])
        if identity not in self.events:
            raise Fault(7)
        row = self.events[identity]
        if not row.begin <= new_end < row.end:
            raise Fault(8, f" begin {time_text(row.begin)} end {time_text(row.end)}")
        self.check_sync(new_end)
        self.events[identity] = row._replace(end=new_end)
        return [Cut(row, new_end)]

    def promise(self, time: int) -> list:
        if time <= self.mark:
            return []
        self.mark = time
        return [Mark(time)]

    def check_sync(self, time: int) -> None:
        if time < self.mark:
            raise Fault(9, f" sync {time_text(time)} mark {time_text(self.mark)}")

    def rows_left(self) -> list:
        return [row for row in self.events.values() if row.begin < row.end]


class OpenJudge(Judge):
    """A judge that forgets the events that are over: after a guarantee that rose, those that end below it."""

    @classmethod
    def behind(cls, judge: Judge) -> "OpenJudge":
        """One that goes on from what another one has come to."""
        made = cls(judge.types)
        made.events, made.mark = dict(judge.events), judge.mark
        made.forget()
        return made

    def promise(self, time: int) -> list:
        messages = super().promise(time)
        self.forget()
        return messages

    def forget(self) -> None:
        self.events = {identity: row for identity, row in self.events.items() if row.end >= self.mark}


def without_return(line: bytes) -> bytes:
    if len(line) > LINE_LIMIT:
        raise Fault(1)
    return line.removesuffix(b"\r")


def fields_of(line: bytes) -> list:
    """The values of a line's fields. A quoted one may have commas and doubled quotes; a bare one has no quote."""
    fields, at = [], 0
    while True:
        if line[at : at + 1] == QUOTE:
            field, at = quoted_field(line, at + 1)
        else:
            end = line.find(COMMA, at)
            end = len(line) if end < 0 else end
            field, at = line[at:end], end
            if QUOTE in field:
                raise Fault(2)
        fields.append(field)
        if at == len(line):
            return fields
        if line[at : at + 1] != COMMA:
            raise Fault(2)
        at += 1


def quoted_field(line: bytes, at: int) -> tuple[bytes, int]:
    """The value of the quoted field whose text begins here, and the place behind its closing quote."""
    value = b""
    while True:
        end = line.find(QUOTE, at)
        if end < 0:
            raise Fault(2)
        value += line[at:end]
        if line[end + 1 : end + 2] != QUOTE:
            return value, end + 1
        value, at = value + QUOTE, end + 2


def number_of(field: bytes, limit: int) -> int:
    digits = field.lstrip(b"0") or b"0"
    if not field.isdigit() or len(digits) > 20 or int(digits) >= limit:
        raise Fault(3)
    return int(digits)


def time_of(field: bytes) -> int:
    return FOREVER if field == b"inf" else number_of(field, FOREVER)


def value_of(field: bytes, kind: str):
    """A number column has digits, perhaps behind a minus, and a value of 64 bits with sign."""
    if kind == "text":
        return field
    digits = field.removeprefix(b"-")
    shown = digits.lstrip(b"0") or b"0"
    value = int(shown) if digits.isdigit() and len(shown) <= 20 else 2**64
    value = -value if field.startswith(b"-") else value
    if not -(2**63) <= value < 2**63:
        raise Fault(5)
    return value


def time_text(time: int) -> str:
    return "inf" if time == FOREVER else str(time)


def row_text(row: Row) -> bytes:
    times = [time_text(row.begin).encode(), time_text(row.end).encode()]
    return COMMA.join(times + [field_text(field) for field in row.payload]) + b"\n"


def change_text(change) -> bytes:
    if isinstance(change, Add):
        return b"+," + row_text(change.row)
    return b"-,%s,%s" % (time_text(change.end).encode(), row_text(change.row))


def field_text(field) -> bytes:
    if isinstance(field, int):
        return str(field).encode()
    if any(special in field for special in (COMMA, QUOTE, b"\r", b"\n")):
        return QUOTE + field.replace(QUOTE, QUOTE * 2) + QUOTE
    return field
