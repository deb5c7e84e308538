"""Rows, the changes and messages that bring them, and the tables that changes make."""
from collections import Counter
from typing import NamedTuple

FOREVER = 2**62


class Row(NamedTuple):
    """Rows are sorted by their members in this order."""

    end: int
    begin: int
    payload: tuple


class Add(NamedTuple):
    row: Row


class Cut(NamedTuple):
    """One copy of the row gets this earlier end, or goes where that is its begin."""

    row: Row
    end: int


class Mark(NamedTuple):
    """The guarantee that no later change has a sync below this time."""

    time: int


class End(NamedTuple):
    pass


def later(time: int, span: int) -> int:
    return min(time + span, FOREVER)


def is_change(message) -> bool:
    return isinstance(message, (Add, Cut))


def sync(change) -> int:
    return change.row.begin if isinstance(change, Add) else change.end


def delta(change) -> list:
    """Which rows a change brings and takes, each with 1 or -1."""
    if isinstance(change, Add):
        return [(change.row, 1)]
    remnant = change.row._replace(end=change.end)
    return [(change.row, -1)] + ([(remnant, 1)] if remnant.begin < remnant.end else [])


def apply(table: Counter, change, times: int = 1) -> None:
    """Adds the delta of a change to a table so many times; -1 leaves the change out again."""
    for row, count in delta(change):
        table[row] += times * count
        if not table[row]:
            del table[row]


def in_one_list(lines: list) -> list:
    """The messages of all lines, each of which has a list of its own."""
    return [message for messages in lines for message in messages]


def table_of(messages: list) -> Counter:
    table = Counter()
    for message in messages:
        if is_change(message):
            apply(table, message)
    return table


def mark_of(messages: list) -> int:
    return max([message.time for message in messages if isinstance(message, Mark)], default=0)


def in_order(table: Counter) -> list:
    """The rows of a table, in canonical order."""
    return sorted(table.elements())
