#!/usr/bin/env python3
"""Writes the plans that are timed into a folder: each reads a.csv, and all but the chain, the sums and the peaks b.csv too.
That of the atleast reads c.csv besides. That for growth reads a.csv to d.csv as its left side, and e.csv to h.csv as its right
one. The wide one has as many nodes as a plan may have, 64: it joins each of a.csv to d.csv with one of e.csv to h.csv, each join
goes through selects to counts and sums, and all four come together. Those of the peaks, the atleast and the except are of
version 2.

usage: plans.py FOLDER
"""
import json
import sys
from pathlib import Path

SELECTS = 40
LANES = ["ae", "bf", "cg", "dh"]
LANE_SELECTS = 11
SAME_MACHINE = [[0, "=", {"column": 2}]]


def source(name: str) -> dict:
    return {"name": name, "op": "source", "file": f"{name}.csv", "fields": ["text", "int"]}


def on_all(sources: str, op: str, **members) -> list:
    last = {"name": op, "op": op, "from": list(sources), "where": SAME_MACHINE, **members}
    return [source(each) for each in sources] + [last]


def on_both(op: str, **members) -> list:
    return on_all("ab", op, **members)


def group(before: str, name: str = "group", **members) -> dict:
    return {"name": name, "op": "group", "from": [before], "keys": [0], "count": True, "sum": [1], **members}


def selects(first: str, count: int) -> list:
    """So many selects, one after the other, behind a node."""
    names = [first, *(f"{first}_select{place}" for place in range(count))]
    return [{"name": name, "op": "select", "from": [before], "where": [[1, ">=", {"int": 0}]]}
            for before, name in zip(names, names[1:])]


def union(name: str, sources: str) -> list:
    return [source(each) for each in sources] + [{"name": name, "op": "union", "from": list(sources)}]


def grouped(sides: list) -> list:
    return sides + [{"name": "join", "op": "join", "from": ["left", "right"], "where": SAME_MACHINE}, group("join")]


def lane(sources: str) -> list:
    joined = f"join_{sources}"
    nodes = [{"name": joined, "op": "join", "from": list(sources), "where": SAME_MACHINE}, *selects(joined, LANE_SELECTS)]
    return nodes + [group(nodes[-1]["name"], f"group_{sources}")]


def wide() -> list:
    lanes = [lane(sources) for sources in LANES]
    together = {"name": "union", "op": "union", "from": [nodes[-1]["name"] for nodes in lanes]}
    return [source(each) for each in "abcdefgh"] + sum(lanes, []) + [together, *selects("union", 2)]


PLANS = {
    "join": on_both("join"),
    "join_group": on_both("join") + [group("join")],
    "sequence": on_both("sequence", scope=100),
    "unless": on_both("unless", scope=100, hold=1),
    "growth": grouped(union("left", "abcd") + union("right", "efgh")),
    "chain": [source("a")] + selects("a", SELECTS),
    "wide": wide(),
    "sums": [source("a"), group("a")],
    "peaks": [source("a"), group("a", least=[1], greatest=[1])],
    "followed": on_both("sequence", scope=10),
    "atleast": on_all("abc", "atleast", number=2, scope=10),
    "except": on_both("except"),
}
VERSIONS = {"peaks": 2, "atleast": 2, "except": 2}


def main() -> None:
    for name, nodes in PLANS.items():
        output = {"name": "out", "op": "output", "from": [nodes[-1]["name"]]}
        plan = {"version": VERSIONS.get(name, 1), "nodes": nodes + [output]}
        (Path(sys.argv[1]) / f"{name}.json").write_text(json.dumps(plan))


main()
