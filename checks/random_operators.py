"""Operators and histories of changes and marks on their ports, made at random, with what must come of each.

Both are written as crates/op_cases reads and writes them: a history is the lines that go in, each with what must come
of it, indented, below it. That is worked out by the definitions in nodes.py, over the whole tables of the ports.
"""
import math
import random
from collections import Counter

import nodes
import odd_payloads
import random_plans
from messages import FOREVER, Add, Cut, Row, apply, delta
from odd_payloads import Number, Payload, Text

STEPS = 24
NEAR = 1_000
SPANS = [1, 2, 3, 5, 8, 13, 20, random_plans.LONGEST]
TYPES = [["text"], ["int"], ["text", "int"], ["text", "int"], ["int", "int", "text"]]
TEXTS = [b"a", b"a", b"b", b"", b"9", "\u00e9".encode()]
NUMBERS = [0, 1, -1, 5, 9, 2**127 - 1, -(2**127)]
CONSTANTS = [0, 1, -1, 5, 2**63 - 1, -(2**63)]
PORTS = {"union": (2, 4), "join": (2, 2), "sequence": (2, 4), "unless": (2, 2), "atleast": (2, 4), "except": (2, 2)}
OF_ONE_TYPE = ["union", "atleast"]
OPERATORS = random_plans.OPERATORS + random_plans.NEWER


class History:
    """A history of one operator, and its lines so far."""

    def __init__(self, seed: int, op: str) -> None:
        self.rng = random.Random(seed)
        self.odd = self.rng.random() < 0.25
        ports = self.rng.randint(*PORTS.get(op, (1, 1)))
        first = self.rng.choice(TYPES)
        self.types = [first] + [self.rng.choice(TYPES) if op not in OF_ONE_TYPE else first for _ in range(ports - 1)]
        members = self.members(op)
        self.node = nodes.Node("it", op, list(range(ports)), 0, math.inf, [], members)
        self.tables = [Counter() for _ in range(ports)]
        self.marks = [0] * ports
        self.base = self.rng.choice([0] * 5 + [FOREVER - 30])
        self.lines = [f"# {op}, seed {seed}", head(op, members, self.types)]
        self.kinds = Counter()

    def members(self, op: str) -> dict:
        """The members of such an operator, as a plan's node has them."""
        rng, columns = self.rng, sum(self.types, [])
        numbers = [column for column, one in enumerate(columns) if one == "int"]
        number = rng.choice([1] + 2 * [*range(2, len(self.types) + 1)])
        made = {
            "project": {"keep": rng.choices(range(len(columns)), k=rng.randint(0, 3))},
            "window": {"width": rng.choice(SPANS)},
            "shift": {"by": rng.choice(SPANS)},
            "hop": {"every": rng.choice(SPANS), "width": rng.choice(SPANS)},
            "group": {"keys": rng.sample(range(len(columns)), k=rng.choice([0, 1, 1, len(columns)])),
                      "count": rng.random() < 0.7,
                      "sum": rng.choices(numbers, k=rng.randint(0, 2)) if numbers else [],
                      **self.extremes(range(len(columns)))},
            "sequence": {"scope": rng.choice(SPANS)},
            "unless": {"scope": rng.choice(SPANS), "hold": rng.choice(SPANS)},
            "atleast": {"number": number, "scope": rng.choice(SPANS[number:])},
        }.get(op, {})
        if op in ("select", "join", "sequence", "unless"):
            made["where"] = [self.test(columns) for _ in range(rng.choice([0, 1, 1, 2]))]
        if op in random_plans.NEWER:
            seen = self.types[:made.get("number", 2)]
            made["where"] = rng.choice([[], self.equalities(seen), self.equalities(seen[:2]), [self.test(sum(seen, []))]])
        return made

    def equalities(self, types: list) -> list:
        """That a field of the first payload is equal to one of each other payload, where some are of one type."""
        left, kind = self.rng.choice([*enumerate(types[0])])
        first, tests = len(types[0]), []
        for others in types[1:]:
            alike = [first + column for column, one in enumerate(others) if one == kind]
            tests += [[left, "=", {"column": column}] for column in self.rng.sample(alike, k=min(1, len(alike)))]
            first += len(others)
        return tests

    def extremes(self, columns: range) -> dict:
        """The columns whose least and whose greatest fields a group tells, where it tells any."""
        if self.rng.random() < 0.3:
            return {}
        return {name: self.rng.choices(columns, k=self.rng.randint(0, 2)) for name in ("least", "greatest")}

    def test(self, columns: list) -> list:
        rng = self.rng
        left = rng.randrange(len(columns))
        kind = columns[left]
        constant = {"text": rng.choice(TEXTS).decode()} if kind == "text" else {"int": rng.choice(CONSTANTS)}
        others = [{"column": column} for column, one in enumerate(columns) if one == kind and column != left]
        return [left, rng.choice(["=", "=", *random_plans.COMPARISONS]), rng.choice(others * 3 + [constant])]

    def go_on(self) -> None:
        """Something comes on a port, and then the rows are asked for, and the bound at some marks."""
        port = self.rng.randrange(len(self.tables))
        kind = self.rng.random()
        if kind < 0.2 or self.marks[port] == FOREVER:
            self.rise(port)
        else:
            self.take(port, (kind < 0.6 and self.cut(port)) or self.addition(port))
        self.ask_rows()
        self.ask_bound(self.marks)
        self.ask_bound([self.later(mark, 9) for mark in self.marks])

    def rise(self, port: int) -> None:
        self.marks[port] = FOREVER if self.rng.random() < 0.03 else self.later(self.marks[port], 6)
        self.kinds["marks"] += 1
        self.lines.append(f"mark {port} {time_text(self.marks[port])}")

    def later(self, mark: int, most: int) -> int:
        return min(max(mark, self.base) + self.rng.randint(0, most), FOREVER) if self.rng.random() < 0.9 else mark

    def take(self, port: int, change) -> None:
        self.kinds[kind_of(change)] += 1
        apply(self.tables[port], change)
        self.lines.append(change_text(port, change))

    def cut(self, port: int):
        """A cut of a row of the port, where one may be cut."""
        row = self.rng.choice(list(self.tables[port]) or [None])
        if not row or max(row.begin, self.marks[port]) >= row.end:
            return None
        first = max(row.begin, self.marks[port])
        return Cut(row, self.rng.choice([first, self.rng.randint(first, min(row.end - 1, first + 8)), row.end - 1]))

    def addition(self, port: int) -> Add:
        """A new row, or one more of the port's."""
        mark = self.marks[port]
        before = [row for row in self.tables[port] if row.begin >= mark]
        if before and self.rng.random() < 0.2:
            return Add(self.rng.choice(before))
        begin = min(max(mark, self.base) + self.rng.randint(0, 9), FOREVER - 1)
        end = FOREVER if self.rng.random() < 0.1 else min(begin + self.rng.randint(1, 9), FOREVER)
        return Add(Row(end, begin, self.payload(self.types[port])))

    def payload(self, types: list) -> Payload:
        if self.odd:
            types = self.rng.choice([types, types[:-1], types[::-1], [*types, "int"]])
        return Payload(map(self.field, types))

    def field(self, kind: str):
        return Text(self.rng.choice(TEXTS)) if kind == "text" else Number(self.rng.choice(NUMBERS))

    def ask_rows(self) -> None:
        found = Counter()
        for row, count in nodes.result(self.node, self.tables).items():
            found[row._replace(payload=odd_payloads.without_missing(row.payload))] += count
        self.kinds["rows"] += found.total()
        self.lines.append("rows")
        self.lines += [f"  {time_text(row.begin)} {time_text(row.end)}{fields_text(row.payload)}"
                       for row in odd_payloads.in_order(found)]

    def ask_bound(self, marks: list) -> None:
        self.kinds["bounds"] += 1
        self.lines.append("bound " + " ".join(map(time_text, marks)))
        self.lines.append("  " + time_text(nodes.bound(self.node, self.tables, marks)))

    def out(self) -> bytes:
        """What must come."""
        return "".join(line + "\n" for line in self.lines).encode()

    def given(self) -> bytes:
        """What goes in: the lines that aren't indented."""
        return "".join(line + "\n" for line in self.lines if not line.startswith("  ")).encode()


def random_history(seed: int) -> History:
    """The history of a seed. Seeds that follow one another take all operators in turn."""
    history = History(seed, OPERATORS[seed % len(OPERATORS)])
    for _ in range(STEPS):
        history.go_on()
    return history


def kind_of(change) -> str:
    if isinstance(change, Add):
        return "additions"
    return "withdrawals" if len(delta(change)) == 1 else "cuts"


def head(op: str, members: dict, types: list) -> str:
    """The line that says which operator it is."""
    tests = "".join(f" {left},{comparison},{side_text(side)}" for left, comparison, side in members.get("where", []))
    each, joined = " ".join(map(",".join, types)), ",".join(sum(types, []))
    numbers = " ".join(str(members[name]) for name in ("scope", "hold", "width", "by", "every") if name in members)
    if op == "hop":
        numbers = f"{members['every']} {members['width']}"
    return {
        "select": f"select {each} where{tests}",
        "project": f"project {each} keep {columns_text(members.get('keep'))}",
        "union": f"union {len(types)}",
        "join": f"join {each} where{tests}",
        "group": f"group {each} by {columns_text(members.get('keys'))} {'count ' * members.get('count', False)}"
                 f"sums {columns_text(members.get('sum'))}{extremes_text(members)}",
        "sequence": f"sequence {len(types)} {numbers} {joined} where{tests}",
        "unless": f"unless {numbers} {each} where{tests}",
        "atleast": f"atleast {len(types)} {members.get('number')} {numbers} "
                   f"{','.join(types[0] * members.get('number', 0))} where{tests}",
        "except": f"except {each} where{tests}",
    }.get(op, f"{op} {numbers}".strip())


def side_text(side: dict) -> str:
    (kind, value), = side.items()
    return {"column": f"#{value}", "int": str(value), "text": f"'{value}"}[kind]


def columns_text(columns) -> str:
    return ",".join(map(str, columns)) if columns else "-"


def extremes_text(members: dict) -> str:
    return "".join(f" {name} {columns_text(members[name])}" for name in ("least", "greatest") if name in members)


def change_text(port: int, change) -> str:
    end, begin, payload = change.row
    sign, to = ("+", "") if isinstance(change, Add) else ("-", f" to {time_text(change.end)}")
    return f"{sign} {port} {time_text(begin)} {time_text(end)}{to}{fields_text(payload)}"


def fields_text(payload: tuple) -> str:
    return "".join(f" '{one.decode()}" if isinstance(one, bytes) else f" {one}" for one in payload)


def time_text(time: int) -> str:
    """A time, which is told as so much before `inf` where it is near to that."""
    if time == FOREVER:
        return "inf"
    return f"inf-{FOREVER - time}" if FOREVER - time <= NEAR else str(time)
