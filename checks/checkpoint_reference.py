"""The text of a checkpoint, and the line at which bytes aren't one, plainly and apart from the program.

A checkpoint has the line `checkpoint,1`; for each source of a plan, in its order, `source,NAME,MARK` and then a line for each of
its events, with ascending ids; and the line `end`. The line of an event is `ID,BEGIN,END,FIELD..` with a field for each type, or
`ID,BEGIN,BEGIN` where it is withdrawn. Numbers have no zeros in front, and a text has quotes exactly where it has a comma or a
quote. It has neither a carriage return nor a line feed.
"""
import math
import re
from typing import NamedTuple

from messages import FOREVER, Row
from reference import Judge, field_text, time_text

LIMIT = 2**26 + 2**16
HEAD, END, INF, QUOTE = b"checkpoint,1", b"end", b"inf", b'"'
IDS = 2**64
WHOLE = re.compile(rb"0|[1-9][0-9]{0,19}")
INT = re.compile(rb"0|-?[1-9][0-9]{0,18}")


class Source(NamedTuple):
    """A source of a plan. Its types are `int` and `text`."""

    name: bytes
    types: list


def sources_of(plan: list) -> list:
    return [Source(node.name.encode(), node.types) for node in plan if node.op == "source"]


def first_unsaved(plan: list) -> int:
    """The number of the first node with a finite memory, or with a block that is neither 0 nor without limit; else 0."""
    return next((number for number, node in enumerate(plan, 1)
                 if node.inputs and (node.memory < math.inf or 0 < node.block < math.inf)), 0)


def text(sources: list, judges: list) -> bytes:
    """The checkpoint of the states that the judges of the sources have come to."""
    lines = [HEAD]
    for source, judge in zip(sources, judges):
        lines.append(source_line(source, judge.mark))
        lines += [event_line(identity, row) for identity, row in sorted(judge.events.items())]
    return b"".join(line + b"\n" for line in [*lines, END])


def source_line(source: Source, mark: int) -> bytes:
    return b"source,%s,%s" % (source.name, time_text(mark).encode())


def event_line(identity: int, row: Row) -> bytes:
    fields = [field_text(field) for field in row.payload] if row.begin < row.end else []
    times = [time_text(time).encode() for time in (row.begin, row.end)]
    return b",".join([b"%d" % identity, *times, *fields])


def read(sources: list, data: bytes) -> tuple:
    """The line at which the bytes aren't a checkpoint, and a judge of each source with its state. The line is none where they
    are one."""
    spot = Spot(sources)
    return bad_line(spot, data), spot.judges


def bad_line(spot, data: bytes):
    if len(data) > LIMIT:
        return 0
    *lines, rest = data.split(b"\n")
    for number, line in enumerate(lines, 1):
        if not spot.take(line):
            return number
    if not rest:
        return None if spot.has_ended else len(lines) + 1
    return len(lines) + (2 if spot.may_begin(rest) else 1)


class Spot:
    """A place in a text: which line was the last one, and so which may come next."""

    def __init__(self, sources: list) -> None:
        self.left = list(sources)
        self.judges = []
        self.has_begun = self.has_ended = False
        self.last = -1

    def take(self, line: bytes) -> bool:
        """Whether this may be the next line. What it says counts from then on."""
        if not self.has_begun or self.has_ended:
            self.has_begun = True
            return not self.has_ended and line == HEAD
        return self.take_event(line) or self.take_source(line) or self.take_end(line)

    def take_event(self, line: bytes) -> bool:
        if not self.judges:
            return False
        identity, row = event_of(line, self.judges[-1].types) or (self.last, None)
        if identity <= self.last:
            return False
        self.judges[-1].events[identity] = row
        self.last = identity
        return True

    def take_source(self, line: bytes) -> bool:
        begin, comma, mark = line.rpartition(b",")
        if not self.left or begin + comma != source_begin(self.left[0]) or time_of(mark) is None:
            return False
        self.judges.append(Judge(self.left.pop(0).types))
        self.judges[-1].mark, self.last = time_of(mark), -1
        return True

    def take_end(self, line: bytes) -> bool:
        self.has_ended = not self.left and line == END
        return self.has_ended

    def may_begin(self, front: bytes) -> bool:
        """Whether the next line may begin with these bytes, of which there are some."""
        if not self.has_begun or self.has_ended:
            return not self.has_ended and HEAD.startswith(front)
        if self.judges and begins_event(front, self.judges[-1].types, self.last):
            return True
        return begins_source(front, self.left[0]) if self.left else END.startswith(front)


def source_begin(source: Source) -> bytes:
    return b"source," + source.name + b","


def begins_source(front: bytes, source: Source) -> bool:
    begin = source_begin(source)
    return begin.startswith(front) or front.startswith(begin) and begins_time(front[len(begin):], 0)


def cut(line: bytes) -> tuple:
    """What stands between the commas that no quotes enclose, and whether a quote is still open."""
    parts = line.split(QUOTE)
    # a line has no line feed, which stands here for a comma between quotes
    parts[1::2] = [part.replace(b",", b"\n") for part in parts[1::2]]
    fields = QUOTE.join(parts).split(b",")
    return [field.replace(b"\n", b",") for field in fields], len(parts) % 2 == 0


def event_of(line: bytes, types: list):
    """The id and the row of an event's line, or none where it is no such line."""
    (identity, begin, end, *fields), is_open = padded(*cut(line))
    times = number_of(identity, IDS), number_of(begin, FOREVER), time_of(end)
    if None in times or is_open or times[2] < times[1]:
        return None
    wanted = types if times[1] < times[2] else []
    if len(fields) != len(wanted) or not all(map(is_field, fields, wanted)):
        return None
    return times[0], Row(times[2], times[1], tuple(map(value_of, fields, wanted)))


def padded(fields: list, is_open: bool) -> tuple:
    """At least three fields. An empty one is no number."""
    return fields + [b""] * (3 - len(fields)), is_open


def begins_event(front: bytes, types: list, last: int) -> bool:
    """Whether the line of an event with an id above the last one may begin so."""
    (*whole, rest), is_open = cut(front)
    if not whole:
        return begins_number(rest, IDS, last + 1)
    identity = number_of(whole[0], IDS)
    if identity is None or identity <= last:
        return False
    if len(whole) == 1:
        return begins_number(rest, FOREVER, 0)
    begin = number_of(whole[1], FOREVER)
    if begin is None or len(whole) == 2:
        return begin is not None and begins_time(rest, begin)
    end, fields = time_of(whole[2]), whole[3:]
    if end is None or end <= begin or len(fields) >= len(types):
        return False
    return all(map(is_field, fields, types)) and begins_field(rest, is_open, types[len(fields)])


# Numbers, times and fields: what they are, and what they may begin with.


def number_of(digits: bytes, limit: int):
    """The number below the limit, or none."""
    return int(digits) if WHOLE.fullmatch(digits) and int(digits) < limit else None


def time_of(word: bytes):
    return FOREVER if word == INF else number_of(word, FOREVER)


def begins_number(front: bytes, limit: int, least: int) -> bool:
    """Whether a number from the least on and below the limit begins with these digits. With none all begin."""
    if not front:
        return least < limit
    first = last = number_of(front, limit)
    while first is not None and first < limit:
        if least <= min(last, limit - 1):
            return True
        first, last = (10 * first, 10 * last + 9) if first else (limit, limit)
    return False


def begins_time(front: bytes, least: int) -> bool:
    return INF.startswith(front) or begins_number(front, FOREVER, least)


def is_field(field: bytes, kind: str) -> bool:
    if kind == "int":
        return INT.fullmatch(field) is not None and -(2**63) <= int(field) < 2**63
    return b"\r" not in field and field_text(value_of(field, kind)) == field


def value_of(field: bytes, kind: str):
    if kind == "int":
        return int(field)
    return field[1:-1].replace(QUOTE * 2, QUOTE) if field[:1] == QUOTE else field


def begins_field(front: bytes, is_open: bool, kind: str) -> bool:
    """Whether a field may begin so. A text behind a quote may always go on: a quote at its end is the first one of two."""
    if kind == "int":
        return front in (b"", b"-") or is_field(front, kind)
    if front[:1] != QUOTE:
        return is_field(front, kind)
    inside = front[1:] if is_open else front[1:-1]
    return b"\r" not in inside and QUOTE not in inside.replace(QUOTE * 2, b"")
