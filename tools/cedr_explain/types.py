"""The columns of what a node reads, with their types, and the faults of a node's width, columns and types."""
from __future__ import annotations

from itertools import groupby
from typing import Iterator, NamedTuple

from cedr_explain.json_text import Value
from cedr_explain.language import BAD_COLUMN, JOINING, MOST_FIELDS, TOO_WIDE, TYPE_DIFFERS
from cedr_explain.values import Finding, right_side

KEPT = {"project": "keep", "group": "keys"}
EXTREMES = ("least", "greatest")


class Column(NamedTuple):
    """A column that a node counts: the node that it comes from, its place there, and its type."""
    node: str
    place: int
    type: str


class Columns:
    """What the tests and the lists of columns of a node count through.

    `inputs` has for each port the name of the node that it reads and the types of that node's result. `members` are
    those that the node's operator knows.
    """

    def __init__(self, op: str, node: Value, members: dict, inputs: list) -> None:
        self.op, self.node, self.members, self.inputs = op, node, members, inputs
        counted = inputs[:1] * self.held("number", 1) if op == "atleast" else inputs
        self.all = [Column(name, place, one) for name, types in counted for place, one in enumerate(types)]

    def held(self, name: str, default):
        value = self.node.member(name) if name in self.members else None
        return default if value is None else value.held

    def listed(self, name: str) -> list:
        return self.held(name, [])

    def told(self) -> str:
        """All columns, as in: Its columns are 0 (text), 1 (int) of `orders`; 2 (text) of `payments`."""
        if not self.all:
            return "What it reads has no columns."
        parts = []
        # Two ports in a row may read one node: how far a column is from its place in the node tells them apart.
        for (name, _), run in groupby(enumerate(self.all), lambda one: (one[1].node, one[0] - one[1].place)):
            columns = ", ".join(f"{at} ({one.type})" for at, one in run)
            parts.append(f"{columns} of `{name}`")
        return "Its columns are " + "; ".join(parts) + "."

    def result(self) -> list:
        """The types of the node's result, where it has no fault."""
        if self.op in KEPT:
            numbers = ["int"] * (self.is_counted() + len(self.listed("sum")))
            return self.listed_types(KEPT[self.op]) + numbers + self.listed_types(*EXTREMES)
        if self.op in JOINING:
            return [one.type for one in self.all]
        return list(self.inputs[0][1])

    def listed_types(self, *names: str) -> list:
        """The types of the columns that these members list."""
        return [self.all[one.held].type for name in names for one in self.listed(name)]

    def is_counted(self) -> bool:
        """Whether the result has a count; a group alone may have one."""
        return self.held("count", False)

    def faults(self) -> Iterator[Finding]:
        yield from self.width()
        yield from self.past_the_end()
        yield from self.sides_differ()
        yield from self.texts_summed()
        yield from self.inputs_differ()

    def width(self) -> Iterator[Finding]:
        if self.op in JOINING:
            count = len(self.all)
            why = " and ".join(f"{len(types)} of `{name}`" for name, types in self.inputs)
            if self.op == "atleast":
                why = f"{self.held('number', 1)} times {len(self.inputs[0][1])}"
        elif self.op in KEPT:
            names = [name for name in (KEPT[self.op], "sum", *EXTREMES) if self.listed(name)]
            count = sum(len(self.listed(name)) for name in names) + self.is_counted()
            why = ", ".join(f"{len(self.listed(name))} by `{name}`" for name in names)
            why += ", and the count" * self.is_counted()
        else:
            return
        if count > MOST_FIELDS:
            yield Finding(TOO_WIDE, self.node.begin,
                          f"Its result would have {count} fields: {why}. It may have {MOST_FIELDS}. Put a `project` in "
                          "front of it that keeps the fields that are needed.")

    def past_the_end(self) -> Iterator[Finding]:
        for what, value in self.named():
            if value.held >= len(self.all):
                yield Finding(BAD_COLUMN, value.begin, f"{what} is {value.held}, which is past the end. {self.told()}")

    def named(self) -> Iterator[tuple[str, Value]]:
        """Each column that the node names, with what it is."""
        for name in ("keep", "keys", "sum", *EXTREMES):
            for place, value in enumerate(self.listed(name)):
                yield f"Entry {place} of `{name}`", value
        for place, test in enumerate(self.listed("where"), 1):
            yield f"The column of test {place} of `where`", test.held[0]
            which, side = right_side(test.held[2])
            if which == "column":
                yield f"The column that test {place} of `where` compares with", side

    def sides_differ(self) -> Iterator[Finding]:
        for place, test in enumerate(self.listed("where"), 1):
            left, (which, side) = test.held[0].held, right_side(test.held[2])
            if left >= len(self.all) or which == "column" and side.held >= len(self.all):
                continue
            own = self.all[left].type
            other = self.all[side.held].type if which == "column" else which
            if own != other:
                what = f"column {side.held}, which is {a_type(other)}" if which == "column" else a_type(other)
                yield Finding(TYPE_DIFFERS, test.begin,
                              f"Test {place} of `where` compares column {left}, which is {a_type(own)}, with {what}. "
                              f"{self.told()}")

    def texts_summed(self) -> Iterator[Finding]:
        for place, value in enumerate(self.listed("sum")):
            if value.held < len(self.all) and self.all[value.held].type == "text":
                yield Finding(TYPE_DIFFERS, value.begin,
                              f"Entry {place} of `sum` is column {value.held}, which is a text. Numbers alone are "
                              f"summed. {self.told()}")

    def inputs_differ(self) -> Iterator[Finding]:
        if self.op not in ("union", "atleast"):
            return
        if any(types != self.inputs[0][1] for _, types in self.inputs):
            told = "; ".join(f"`{name}` has {', '.join(types) or 'none'}" for name, types in self.inputs)
            yield Finding(TYPE_DIFFERS, self.node.member("from").begin,
                          f"The inputs of {a_word(self.op)} must have the same types of fields: {told}. A `project` in "
                          "front of one can put its fields in order.")


def a_type(name: str) -> str:
    return {"int": "an int", "text": "a text"}[name]


def a_word(word: str) -> str:
    return f"{'an' if word[0] in 'aeiou' else 'a'} `{word}`"
