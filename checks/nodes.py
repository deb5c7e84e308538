"""The nodes of an accepted plan, and what each makes of whole tables, by definition and not by speed."""
import itertools
import math
import operator
from collections import Counter
from typing import NamedTuple

import plan_reference
from messages import FOREVER, Row, later

COMPARISONS = {"=": operator.eq, "!=": operator.ne, "<": operator.lt, "<=": operator.le, ">": operator.gt,
               ">=": operator.ge}
LEVELS = {"strong": {"block": "inf", "memory": "inf"}, "middle": {"block": 0, "memory": "inf"}}


class Node(NamedTuple):
    """A node of a plan: its inputs are the places of the nodes that it reads, and its members those of its operator."""

    name: str
    op: str
    inputs: list
    block: float
    memory: float
    types: list
    members: dict

    @property
    def forgets(self) -> bool:
        return self.memory < math.inf


def read_nodes(data: bytes) -> list:
    """The nodes of an accepted plan. Raises the fault of any other one."""
    document = plan_reference.read_json(data)
    rows = plan_reference.read_plan(document)
    operators = plan_reference.operators_of(document)
    places = {row[0]: place for place, row in enumerate(rows)}
    nodes = []
    for members, (name, op, *types) in zip(document["nodes"], rows):
        is_source = op == "source"
        level = level_of("middle" if is_source else members.get("level", "middle"))
        inputs = [] if is_source else [places[one] for one in members["from"]]
        nodes.append(Node(name, op, inputs, *level, types, plan_reference.own_members(operators, members)))
    return nodes


def level_of(level: object) -> list:
    """The block and the memory that a plan's level says."""
    words = LEVELS[level] if isinstance(level, str) else level
    return [math.inf if words[one] == "inf" else words[one] for one in ("block", "memory")]


def result(node: Node, tables: list) -> Counter:
    """The rows that a node makes of the tables of its ports."""
    rows = Counter()
    for begin, end, payload, count in RESULTS[node.op](node.members, *tables):
        if begin < end:
            rows[Row(end, begin, payload)] += count
    return rows


def bound(node: Node, tables: list, marks: list) -> int:
    """The guarantee that a node may hand on at these tables and guarantees of its ports."""
    least = min(marks)
    if node.op == "shift" and least > 0:
        return later(least, node.members["by"])
    if node.op == "hop" and least < FOREVER:
        return multiple_below(node.members["every"], least)
    if node.op == "group":
        return min([least] + open_begins(node.members, tables[0], least))
    if node.op == "except":
        return min([least] + open_parts(node, tables, least))
    return least


def passes(members: dict, payload: tuple) -> bool:
    for left, comparison, side in members["where"]:
        if not COMPARISONS[comparison](payload[left], right_value(side, payload)):
            return False
    return True


def right_value(side: dict, payload: tuple):
    which, value = plan_reference.right_side(side)
    if which == "column":
        return payload[value]
    return value if which == "int" else value.encode()


def all_rows(members: dict, *tables):
    for table in tables:
        for (end, begin, payload), count in table.items():
            yield begin, end, payload, count


def selected(members: dict, table):
    return (one for one in all_rows(members, table) if passes(members, one[2]))


def projected(members: dict, table):
    for begin, end, payload, count in all_rows(members, table):
        yield begin, end, tuple(payload[column] for column in members["keep"]), count


def joined(members: dict, left_table, right_table):
    for left, left_count in left_table.items():
        for right, right_count in right_table.items():
            payload = left.payload + right.payload
            if passes(members, payload):
                yield max(left.begin, right.begin), min(left.end, right.end), payload, left_count * right_count


def windowed(members: dict, table):
    for begin, end, payload, count in all_rows(members, table):
        yield begin, min(end, later(begin, members["width"])), payload, count


def shifted(members: dict, table):
    for begin, end, payload, count in all_rows(members, table):
        yield later(begin, members["by"]), later(end, members["by"]), payload, count


def hopped(members: dict, table):
    for begin, _, payload, count in all_rows(members, table):
        first = multiple_below(members["every"], begin)
        yield first, later(first, members["width"]), payload, count


def multiple_below(every: int, time: int) -> int:
    return time - time % every


def started(members: dict, table):
    return ((begin, FOREVER, payload, count) for begin, _, payload, count in all_rows(members, table))


def ended(members: dict, table):
    return ((end, FOREVER, payload, count) for _, end, payload, count in all_rows(members, table))


def groups(members: dict, table) -> dict:
    """The rows of each group with their counts, by their keys."""
    found = {}
    for row, count in table.items():
        found.setdefault(tuple(row.payload[column] for column in members["keys"]), []).append((row, count))
    return found


def cut_points(rows: list) -> list:
    return sorted({time for row, _ in rows for time in (row.begin, row.end)})


def grouped(members: dict, table):
    for keys, rows in groups(members, table).items():
        points = cut_points(rows)
        for begin, end in zip(points, points[1:]):
            inside = [(row, count) for row, count in rows if row.begin <= begin and end <= row.end]
            counted = [sum(count for _, count in inside)] if members["count"] else []
            sums = [sum(row.payload[column] * count for row, count in inside) for column in members["sum"]]
            if inside:
                payloads = [row.payload for row, _ in inside]
                found = extremes(min, members.get("least", []), payloads)
                found += extremes(max, members.get("greatest", []), payloads)
                yield begin, end, keys + tuple(wrapped(one) for one in counted + sums) + tuple(found), 1


def extremes(choose, columns: list, payloads: list) -> list:
    """The least or the greatest field of each column, and none of a column that no payload has."""
    found = [[payload[column] for payload in payloads if column < len(payload)] for column in columns]
    return [choose(fields, key=in_order) for fields in found if fields]


def in_order(field) -> tuple:
    """Numbers stand before texts."""
    return isinstance(field, bytes), field


def wrapped(number: int) -> int:
    """A number of 128 bits with sign."""
    return (number + 2**127) % 2**128 - 2**127


def open_begins(members: dict, table, mark: int) -> list:
    """For each group whose last cut point below the mark begins a row of the result, that cut point."""
    begins = []
    for rows in groups(members, table).values():
        last = max([point for point in cut_points(rows) if point < mark], default=None)
        if last is not None and any(row.begin <= last < row.end for row, _ in rows):
            begins.append(last)
    return begins


def sequenced(members: dict, *tables):
    """Rows one from each port whose begins rise and are within the scope of the first one's."""
    choices = [([], (), 1)]
    for table in tables:
        choices = [(begins + [row.begin], payload + row.payload, times * count)
                   for begins, payload, times in choices for row, count in table.items()
                   if not begins or begins[-1] < row.begin < later(begins[0], members["scope"])]
    for begins, payload, count in choices:
        if passes(members, payload):
            yield begins[-1], later(begins[0], members["scope"]), payload, count


def at_least(members: dict, *tables):
    """Rows one from each of so many different ports whose begins all differ and are within the scope of the least one."""
    for chosen in itertools.combinations(tables, members["number"]):
        for choice in itertools.product(*(table.items() for table in chosen)):
            rows = in_turn(row for row, _ in choice)
            begins = {row.begin for row in rows}
            until = later(min(begins), members["scope"])
            payload = sum((row.payload for row in rows), ())
            if len(begins) == len(rows) and max(begins) < until and passes(members, payload):
                yield max(begins), until, payload, math.prod(count for _, count in choice)


def in_turn(rows) -> list:
    return sorted(rows, key=lambda row: row.begin)


def excepted(members: dict, table, others):
    """The longest parts of each row's life that meet the life of no row of the other port that passes with it."""
    for row, count in table.items():
        begin = row.begin
        for other in sorted(others, key=lambda other: other.begin):
            if passes(members, row.payload + other.payload):
                yield begin, min(other.begin, row.end), row.payload, count
                begin = max(begin, other.end)
        yield begin, row.end, row.payload, count


def open_parts(node: Node, tables: list, mark: int) -> list:
    """The begins of the rows of the result that begin below the mark and end at it or after it."""
    return [row.begin for row in result(node, tables) if row.begin < mark <= row.end]


def unblocked(members: dict, table, blockers):
    for row, count in table.items():
        until = later(row.begin, members["scope"])
        if not any(row.begin < other.begin < until and passes(members, row.payload + other.payload)
                   for other in blockers):
            yield until, later(until, members["hold"]), row.payload, count


RESULTS = {"select": selected, "project": projected, "union": all_rows, "join": joined, "window": windowed,
           "shift": shifted, "hop": hopped, "starts": started, "ends": ended, "group": grouped,
           "sequence": sequenced, "unless": unblocked, "atleast": at_least, "except": excepted, "output": all_rows}
