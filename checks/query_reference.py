"""A plan's query over whole tables, and what its nodes' lists have come to while sources go on, apart from any run."""
import math
from collections import Counter

import nodes
from aligner import aligned
from answer_lines import Unlawful
from messages import apply, mark_of, table_of


def query(plan: list, tables: list, left_out: dict) -> Counter:
    """The output's table, from a table for each source, where each port is without what is left out there.

    What is left out is a list of forgotten changes for each port, by its node's place and its number.
    """
    so_far, sources = [], iter(tables)
    for place, node in enumerate(plan):
        if node.op == "source":
            so_far.append(next(sources))
            continue
        ports = [without(so_far[one], left_out.get((place, port), [])) for port, one in enumerate(node.inputs)]
        so_far.append(nodes.result(node, ports))
    return so_far[output_place(plan)]


def without(table: Counter, left_out: list) -> Counter:
    kept = Counter(table)
    for one in left_out:
        apply(kept, one.change, -1)
    if any(count < 0 for count in kept.values()):
        raise Unlawful("a port would have less than no copy of a row once what it forgot is left out")
    return kept


def output_place(plan: list) -> int:
    return next(place for place, node in enumerate(plan) if node.op == "output")


def by_place(plan: list, lists: list) -> dict:
    """The list of each source, by its place in the plan."""
    return dict(zip([place for place, node in enumerate(plan) if node.op == "source"], lists))


def standing(plan: list, lists: list) -> list:
    """The table and the mark that each node's list has come to, or none where the definitions leave them free.

    Where all levels are middle these are the tables of the query and how far each of them reaches.
    """
    states, sources = [], by_place(plan, lists)
    for place, node in enumerate(plan):
        if place in sources:
            states.append((table_of(sources[place]), mark_of(sources[place])))
            continue
        ports = [port_standing(node, one, sources, states) for one in node.inputs]
        if None in ports:
            states.append(None)
            continue
        tables, fronts = [port[0] for port in ports], [port[1] for port in ports]
        states.append((nodes.result(node, tables), nodes.bound(node, tables, fronts)))
    return states


def port_standing(node: nodes.Node, place: int, sources: dict, states: list):
    """The passed table and the front of a node's port that reads this place, or none where they are free.

    An operator's own list is free, but not its table and its mark. A port without memory and with a block of 0 or
    without limit goes by these two alone.
    """
    if place in sources:
        aligner, _ = aligned(node.block, node.memory, sources[place])
        return aligner.passed, aligner.front
    if states[place] is None or node.forgets or 0 < node.block < math.inf:
        return None
    table, mark = states[place]
    held = [row for row in table if node.block and row.end >= mark]
    passed = Counter({row: count for row, count in table.items() if row not in held})
    return passed, min([mark] + [row.begin for row in held])
