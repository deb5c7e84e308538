"""The lines of an answer read again: rows, changes and forgotten changes."""
import functools

from aligner import Forgotten
from messages import Add, Cut, Row
from reference import Fault, fields_of, time_of

LIST_MARK = b"--\n"
REACH_MARK = b". "
PROMISE = b"=,"


class Unlawful(Exception):
    """Something in an answer that no run of the plan gives."""


def reading(read):
    """Whatever goes wrong in reading a line makes the answer unlawful."""

    @functools.wraps(read)
    def read_line(line: bytes, *more):
        try:
            return read(line, *more)
        except (Fault, ValueError, IndexError):
            raise Unlawful(f"this line is in no form: {line}") from None

    return read_line


def lines_of(text: bytes) -> list:
    return text.splitlines(keepends=True)


def values(line: bytes) -> list:
    return fields_of(line.removesuffix(b"\n"))


@reading
def row_of(line: bytes, types: list) -> Row:
    return row_in(values(line), types)


@reading
def change_of(line: bytes, types: list):
    return change_in(values(line), types)


@reading
def mark_of(line: bytes) -> int:
    if not line.startswith(REACH_MARK):
        raise ValueError
    return time_of(line.removeprefix(REACH_MARK).removesuffix(b"\n"))


@reading
def promise_of(line: bytes) -> int:
    return time_of(line.removeprefix(PROMISE).removesuffix(b"\n"))


@reading
def forgotten_of(line: bytes, plan: list) -> tuple[int, int, Forgotten]:
    """The place of the node in the plan, the port, and what it forgot."""
    name, port, cause, high, *change = values(line)
    place, port = [node.name.encode() for node in plan].index(name), int(port)
    types = plan[plan[place].inputs[port]].types
    return place, port, Forgotten(cause.decode(), time_of(high), change_in(change, types))


def row_in(fields: list, types: list) -> Row:
    begin, end, *payload = fields
    if len(payload) != len(types):
        raise ValueError
    row = Row(time_of(end), time_of(begin), tuple(int(field) if one == "int" else field
                                                  for field, one in zip(payload, types)))
    if row.begin >= row.end:
        raise ValueError
    return row


def change_in(fields: list, types: list):
    kind, *rest = fields
    if kind == b"+":
        return Add(row_in(rest, types))
    row, end = row_in(rest[1:], types), time_of(rest[0])
    if kind != b"-" or not row.begin <= end < row.end:
        raise ValueError
    return Cut(row, end)
