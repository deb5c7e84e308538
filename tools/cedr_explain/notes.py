"""What a plan says that means nothing: members that no operator looks at, and members that stand twice."""
from __future__ import annotations

from typing import Callable, Iterator

import cedr_explain.advice as advice
from cedr_explain.json_text import Value
from cedr_explain.language import UNSAVED, operators_of
from cedr_explain.plan import Plan
from cedr_explain.values import SIDES, Finding, right_side

OF_DOCUMENT = ("version", "nodes", "edge")
OF_LEVEL = ("block", "memory")
# What a block and a memory must be so that a plan can be saved.
UNSAVED_BOUNDS = [("memory", 'In a plan that is saved each memory is "inf".', ("inf",)),
                  ("block", 'In a plan that is saved each block is 0 or "inf".', (0, "inf"))]
WHY_UNSAVED = 'So it is for "middle" and "strong". docs/levels.md says in "What can be saved" why.'


def of_plan(plan: Plan) -> Iterator[Finding]:
    """All that means nothing in an accepted plan."""
    yield from unread(plan.document, OF_DOCUMENT, "the plan")
    yield from twice(plan.document, "the plan")
    for place, node in enumerate(plan.nodes, 1):
        yield from of_node(plan, node, f"node {place}, {plan.label(place)},")


def of_node(plan: Plan, node: Value, label: str) -> Iterator[Finding]:
    """The same in one node, whose operator is known."""
    yield from of_members(plan, node, label)
    yield from twice(node, label)
    level = node.member("level")
    if plan.op_of(node) != "source" and level is not None and type(level.held) is dict:
        yield from unread(level, OF_LEVEL, f"the level of {label}")
        yield from twice(level, f"the level of {label}")
    if "where" in plan.operators[plan.op_of(node)].members:
        yield from of_tests(node, label)


def of_members(plan: Plan, node: Value, label: str) -> Iterator[Finding]:
    """The members of a node that say nothing to its operator, which is known."""
    op = plan.op_of(node)
    operator = plan.operators[op]
    ports = ["from", "level"] if operator.most else []
    known = ["name", "op", *ports, *operator.members]
    yield from unread(node, known, label, lambda name: why_unread(name, op))


def why_unread(name: str, op: str) -> str:
    """Why a member that there is says nothing here."""
    if name in operators_of(2)[op].members:
        return ' In a plan of version 2 it does: write "version":2.'
    if op == "source" and name == "level":
        return " A level is that of a node's ports, and a source has none: write it in the nodes that read the source."
    return " A source reads a file, and no node." if op == "source" and name == "from" else ""


def unread(value: Value, known, label: str, why: Callable[[str], str] = lambda name: "") -> Iterator[Finding]:
    """The members that aren't among the known ones, and why one of that name says nothing."""
    for name, one in value.held.items():
        if name not in known:
            near = advice.near(name, [other for other in known if other not in value.held])
            hint = f" Perhaps `{near}` is meant." if near else ""
            yield Finding(0, one.begin, f"The member `{name}` of {label} says nothing.{hint}{why(name)}")


def unsaved(plan: Plan) -> tuple[int, list]:
    """The number of the first node whose level keeps an accepted plan from being saved, and what of it does; or 0 and nothing."""
    for number, node in enumerate([] if plan.fault else plan.nodes, 1):
        level = node.member("level")
        if plan.op_of(node) == "source" or level is None or type(level.held) is not dict:
            continue
        found = [Finding(UNSAVED, level.member(name).begin, f"The level's `{name}` is {level.member(name).held}. {right} {WHY_UNSAVED}")
                 for name, right, may_be in UNSAVED_BOUNDS if level.member(name).held not in may_be]
        if found:
            return number, found
    return 0, []


def twice(value: Value, label: str) -> Iterator[Finding]:
    for name in dict.fromkeys(value.twice):
        yield Finding(0, value.held[name].begin, f"The member `{name}` of {label} stands twice. This last one counts.")


def of_tests(node: Value, label: str) -> Iterator[Finding]:
    """Members of what a test compares with, of which one counts."""
    for place, test in enumerate(node.member("where").held, 1):
        side = test.held[2]
        counts = right_side(side)[0]
        for name, one in side.held.items():
            if name != counts:
                why = f"`{counts}` counts" if name in SIDES else "It says nothing"
                yield Finding(0, one.begin,
                              f"Test {place} of {label} has the member `{name}` beside `{counts}`. {why}.")
        yield from twice(side, f"test {place} of {label}")
