"""The plan language: its operators, their members, and the kinds and ranges of values."""
from __future__ import annotations

from typing import NamedTuple

PLAN_BYTES = 1_048_576
MOST_NODES = 64
MOST_FIELDS = 16
MOST_TESTS = 16
LONGEST = 2**40
COMPARISONS = ("=", "!=", "<", "<=", ">", ">=")
TYPES = ("int", "text")
LEVELS = ("strong", "middle")
VERSIONS = (1, 2)

# The faults of a plan by number.
TOO_LONG, BAD_JSON, MISSING_PART, UNKNOWN_OP, TOO_MANY, BAD_NUMBER, BAD_LEVEL = range(1, 8)
TWICE_NAMED, UNKNOWN_NODE, TOO_WIDE, BAD_COLUMN, TYPE_DIFFERS, NOT_ONE_OUTPUT, UNUSED = range(8, 15)
# An accepted plan has this one for `save`, `resume` and `follow`.
UNSAVED = 15

# What a fault is where more can't be said, since the plan can't be read again.
FAULTS = {
    TOO_LONG: f"The plan has over {PLAN_BYTES:,} bytes.",
    BAD_JSON: "The plan isn't a JSON text.",
    MISSING_PART: "A member that must be there is missing, or its value isn't of the right kind.",
    UNKNOWN_OP: "There is no such operator in the plan's version.",
    TOO_MANY: f"There are over {MOST_NODES} nodes, over {MOST_FIELDS} fields or tests, or too many names in `from`.",
    BAD_NUMBER: "A number isn't whole or isn't in its range.",
    BAD_LEVEL: "A level isn't known, or its block is over its memory.",
    TWICE_NAMED: "An earlier node has the same name.",
    UNKNOWN_NODE: "A name in `from` is no earlier node's, or it is an output's.",
    TOO_WIDE: f"The result has over {MOST_FIELDS} fields.",
    BAD_COLUMN: "A column is past the end of the payload.",
    TYPE_DIFFERS: "Two types differ that must be the same, or a sum is over a text.",
    NOT_ONE_OUTPUT: "There is no output, or more than one.",
    UNUSED: "No node reads this one.",
    UNSAVED: "A memory is finite, or a block is neither 0 nor without limit, so the plan can't be saved.",
}


class Member(NamedTuple):
    """A member of a node: which kind of value it has, and an example of it as it stands in a plan."""
    kind: str
    example: str
    optional: bool = False


class Operator(NamedTuple):
    """An operator: from which version on it is there, how many nodes it reads, its own members, and what it does."""
    version: int
    least: int
    most: int
    members: dict
    does: str


WHERE = {"where": Member("tests", '"where":[[0,"=",{"column":1}]]')}
SCOPE = {"scope": Member("span", '"scope":3600')}
GROUPED = {"keys": Member("columns", '"keys":[0]'), "count": Member("flag", '"count":true'),
           "sum": Member("columns", '"sum":[]')}
EXTREMES = {"least": Member("columns", '"least":[1]', True), "greatest": Member("columns", '"greatest":[1]', True)}

OPERATORS = {
    "source": Operator(1, 0, 0, {"file": Member("file", '"file":"orders.csv"'),
                                 "fields": Member("types", '"fields":["text","int"]')}, "reads an event file"),
    "select": Operator(1, 1, 1, WHERE, "keeps the rows that pass tests"),
    "project": Operator(1, 1, 1, {"keep": Member("columns", '"keep":[0,2]')}, "keeps some columns"),
    "union": Operator(1, 2, 4, {}, "has all rows of its inputs"),
    "join": Operator(1, 2, 2, WHERE, "pairs rows that are valid at one time"),
    "window": Operator(1, 1, 1, {"width": Member("span", '"width":300')}, "ends each row after a span at the latest"),
    "shift": Operator(1, 1, 1, {"by": Member("span", '"by":60')}, "has each row later"),
    "hop": Operator(1, 1, 1, {"every": Member("span", '"every":3600'), "width": Member("span", '"width":3600')},
                    "puts each row into its frame of time"),
    "starts": Operator(1, 1, 1, {}, "has each row from its begin on"),
    "ends": Operator(1, 1, 1, {}, "has each row from its end on"),
    "group": Operator(1, 1, 1, {**GROUPED, **EXTREMES}, "counts and sums rows by keys"),
    "sequence": Operator(1, 2, 4, {**SCOPE, **WHERE}, "finds rows that follow each other"),
    "unless": Operator(1, 2, 2, {**SCOPE, "hold": Member("span", '"hold":1'), **WHERE},
                       "finds rows that nothing follows"),
    "output": Operator(1, 1, 1, {}, "hands out the answer"),
    "atleast": Operator(2, 2, 4, {"number": Member("number", '"number":2'), **SCOPE, **WHERE},
                        "finds so many of its inputs within a span"),
    "except": Operator(2, 2, 2, WHERE, "has the times of rows at which nothing of the other input is valid"),
}
JOINING = ("join", "sequence", "atleast")


def operators_of(version: int) -> dict:
    """The operators of a version of the plan language. In version 1 a group has no least and greatest fields."""
    there = {name: one for name, one in OPERATORS.items() if one.version <= version}
    if version == 1:
        there["group"] = there["group"]._replace(members=GROUPED)
    return there
