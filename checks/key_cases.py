"""Plans whose key columns are written out by hand: the name of the case, the plan's bytes and what must come."""
from plan_cases import S, W, node, output, plan, source, tests
from program import Case

WIDE = [source(f"w{number}", *["int"] * 16) for number in range(16)]
A, B, C = source("a", "text", "int"), source("b", "text", "int"), source("c", "text", "int")
ROUNDS = 19
TWICE = [node("project", '"keep":[0,1,2,3]', "w", name) for name in "pq"]
MONDAY = [
    source("rides", "text", "int"), source("stops", "int", "text"),
    node("select", tests('[1,">",{"int":0}]'), "rides", "paid"),
    node("join", tests('[0,"=",{"column":3}]', '[1,"<",{"column":2}]'), "paid stops", "met"),
    node("group", '"keys":[3],"count":true,"sum":[1]', "met", "sums"),
    node("window", '"width":60', "sums", "hour"), output("hour"),
]


def keyed(name: str, data: bytes, lines: str) -> Case:
    """A case whose lines are told with spaces between them."""
    return Case(name, data, 0, "".join(line + "\n" for line in lines.split()).encode(), b"")


def unkeyed(name: str, data: bytes, at: str) -> Case:
    return Case(name, data, 1, b"", f"no column of the output is kept by all nodes: it ends at {at}\n".encode())


def wide_union(last: str) -> bytes:
    """Sixteen sources of sixteen columns, united by fours and as a whole, and a node over that."""
    ports = [" ".join(f"w{number}" for number in range(first, first + 4)) for first in range(0, 16, 4)]
    return plan(*WIDE, *(node("union", "", four, f"u{number}") for number, four in enumerate(ports)),
                node("union", "", "u0 u1 u2 u3", "all"), last, output())


def all_ties(first: int, second: int, count: int) -> str:
    """The first sixteen of the tests that tie each of so many columns from one on to each of as many from another on."""
    pairs = [(one, other) for one in range(count) for other in range(count)][:16]
    return tests(*(f'[{first + one},"=",{{"column":{second + other}}}]' for one, other in pairs))


def joined(last: str) -> bytes:
    """Twenty sources of eight columns, joined one after the other over sixteen ties, each time with a projection, and a node over all."""
    nodes = [source("s0", *["int"] * 8)]
    for number in range(1, ROUNDS + 1):
        before = "s0" if number == 1 else f"p{number - 1}"
        nodes += [source(f"s{number}", *["int"] * 8), node("join", all_ties(0, 8, 8), f"{before} s{number}", f"j{number}"),
                  node("project", '"keep":[0,1,2,3,4,5,6,15]', f"j{number}", f"p{number}")]
    return plan(*nodes, last, output("all"))


def excepted(ties: str) -> bytes:
    """Thirty sources of sixteen columns, taken off from another one after the other over sixteen ties, but for the first one."""
    nodes = [source("s0", *["int"] * 16)]
    for number in range(1, 31):
        before = "s0" if number == 1 else f"x{number - 1}"
        nodes += [source(f"s{number}", *["int"] * 16), node("except", ties if number == 1 else all_ties(0, 16, 16), f"{before} s{number}", f"x{number}")]
    return plan(*nodes, output("x30"), version=2)


def apart(edges: list) -> bytes:
    """Sources of sixteen columns of which only the first three can be key columns, and an except for each edge whose ties ask that the
    two sources have different ones: the plan is keyed where the graph has three colours."""
    places = sorted({place for edge in edges for place in edge})
    differ = tests(*(f'[{one},"=",{{"column":{16 + other}}}]' for one in range(3) for other in range(3) if one != other))
    same = tests(*(f'[{one},"=",{{"column":{16 + other}}}]' for one in range(3) for other in range(3)))
    nodes = [source(f"s{place}", *["int"] * 16) for place in places]
    nodes += [node("except", differ, f"s{one} s{other}", f"e{one}_{other}") for one, other in edges]
    before = "e{}_{}".format(*edges[0])
    for number, (one, other) in enumerate(edges[1:]):
        nodes.append(node("except", same, f"{before} e{one}_{other}", f"x{number}"))
        before = f"x{number}"
    return plan(*nodes, output(before), version=2)


def hard_plans() -> list:
    """Plans of as many nodes, columns and ties as there may be: the name, the plan's bytes, and whether it is keyed, or None where
    that can't be found."""
    ring = [(place, (place + 1) % 19) for place in range(19)]
    all_of_four = [(one, other) for one in range(4) for other in range(one)]
    behind_a_path = [(place, place + 1) for place in range(4, 14)] + all_of_four
    return [
        ("joins over sixteen ties", joined(node("group", '"keys":[7],"count":true,"sum":[]', f"p{ROUNDS}", "all")), True),
        ("joins over sixteen ties in a group without keys", joined(node("group", '"keys":[],"count":true,"sum":[]', f"p{ROUNDS}", "all")), False),
        ("excepts over sixteen ties", excepted(all_ties(0, 16, 16)), True),
        ("excepts over sixteen ties, the first without one", excepted(tests()), False),
        ("sources that several excepts read", apart(ring), True),
        ("four sources that are to be apart", apart(all_of_four), False),
        ("four sources that are to be apart behind others", apart(behind_a_path), None),
    ]


def all_cases() -> list:
    return [
        keyed("a source alone", plan(S, output("s")), "s,0"),
        keyed("a source with no field", plan(source("e"), output("e")), "e,0"),
        keyed("a plan of several operators", plan(*MONDAY), "rides,0 stops,1"),
        keyed("a projection takes the key elsewhere", plan(S, node("project", '"keep":[1]'), output()), "s,1"),
        unkeyed("a projection of nothing", plan(S, node("project", '"keep":[]'), output()), "x"),
        keyed("a group by the second column", plan(S, node("group", '"keys":[1],"count":true,"sum":[]'), output()), "s,1"),
        unkeyed("a group without keys", plan(S, node("group", '"keys":[],"count":true,"sum":[1]'), output()), "x"),
        keyed("a join with a tie", plan(A, B, node("join", tests('[1,"=",{"column":3}]'), "a b"), output()), "a,1 b,1"),
        unkeyed("a join without a tie", plan(A, B, node("join", tests('[1,"<",{"column":3}]'), "a b"), output()), "x"),
        keyed("a join of a source with itself", plan(S, node("join", tests('[0,"=",{"column":2}]'), "s s"), output()), "s,0"),
        unkeyed("a join ties two columns of one source", plan(W, *TWICE, node("join", tests('[0,"=",{"column":5}]'), "p q"), output()), "p"),
        keyed("the key is in the second port's place", plan(A, B, node("join", tests('[0,"=",{"column":2}]'), "a b"), node("project", '"keep":[2]', "x", "y"), output("y")), "a,0 b,0"),
        keyed("a union", plan(A, B, node("union", "", "a b"), output()), "a,0 b,0"),
        unkeyed("a pattern that ties another column than the group", plan(A, B, node("sequence", '"scope":5,' + tests('[0,"=",{"column":2}]'), "a b"), node("group", '"keys":[1],"count":true,"sum":[]', "x", "y"), output("y")), "y"),
        keyed("a pattern whose second tie fits", plan(A, B, node("sequence", '"scope":5,' + tests('[1,"=",{"column":3}]', '[0,"=",{"column":2}]'), "a b"), node("group", '"keys":[1],"count":true,"sum":[]', "x", "y"), output("y")), "a,1 b,1"),
        keyed("a sequence that ties its third port to its first", plan(A, B, C, node("sequence", '"scope":5,' + tests('[1,"=",{"column":3}]', '[5,"=",{"column":1}]'), "a b c"), output()), "a,1 b,1 c,1"),
        unkeyed("a sequence whose third port is free", plan(A, B, C, node("sequence", '"scope":5,' + tests('[1,"=",{"column":3}]'), "a b c"), output()), "x"),
        keyed("an unless with a tie", plan(A, B, node("unless", '"scope":5,"hold":1,' + tests('[1,"=",{"column":3}]'), "a b"), output()), "a,1 b,1"),
        unkeyed("an unless without a tie", plan(A, B, node("unless", '"scope":5,"hold":1,' + tests(), "a b"), output()), "x"),
        keyed("an except with two ties", plan(A, B, node("except", tests('[0,"=",{"column":2}]', '[1,"=",{"column":3}]'), "a b"), output(), version=2), "a,0 b,0"),
        keyed("two of three", plan(A, B, C, node("atleast", '"number":2,"scope":5,' + tests('[1,"=",{"column":3}]'), "a b c"), output(), version=2), "a,1 b,1 c,1"),
        unkeyed("two of three without a tie", plan(A, B, C, node("atleast", '"number":2,"scope":5,' + tests('[1,"<",{"column":3}]'), "a b c"), output(), version=2), "x"),
        unkeyed("sixteen wide sources in a group without keys", wide_union(node("group", '"keys":[],"count":true,"sum":[]', "all")), "x"),
        keyed("sixteen wide sources in a group by the last column", wide_union(node("group", '"keys":[15],"count":true,"sum":[]', "all")), " ".join(f"w{number},15" for number in range(16))),
        Case("a plan that isn't JSON", b"x", 2, b"", b"plan fault 2 node 0\n"),
        Case("a node that is never used", plan(S, W, output("s")), 2, b"", b"plan fault 14 node 2\n"),
    ]
