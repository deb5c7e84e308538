"""Command lines over plans whose answers are written out by hand: the files, the words and what must come."""
from typing import NamedTuple

import cases
from program import USAGE


class NetworkCase(NamedTuple):
    """The files by their names, the words, the status and what comes."""

    name: str
    files: dict
    words: list
    status: int
    out: bytes
    err: bytes


def lines(text: str) -> bytes:
    """Lines that are told with ` / ` between them."""
    return "".join(line + "\n" for line in text.split(" / ")).encode() if text else b""


def plan(*nodes: str, first: str = "") -> bytes:
    return ('{"version":1,' + first + '"nodes":[' + ",\n".join(nodes) + "]}\n").encode()


def source(name: str, *types: str) -> str:
    fields = ",".join(f'"{one}"' for one in types or ("text",))
    return f'{{"name":"{name}","op":"source","file":"{name}.csv","fields":[{fields}]}}'


def node(name: str, op: str, ports: str, members: str = "") -> str:
    """A node whose ports are told with spaces between them."""
    names = ",".join(f'"{port}"' for port in ports.split())
    return f'{{"name":"{name}","op":"{op}","from":[{names}]{"," if members else ""}{members}}}'


def output(port: str, level: str = '"middle"') -> str:
    return node("out", "output", port, f'"level":{level}')


def passing(level: str) -> bytes:
    return plan(source("s"), output("s", level))


def one(op: str, members: str = "", *types: str) -> bytes:
    """The source s, a node over it, and the output."""
    return plan(source("s", *types), node("w", op, "s", members), output("w"))


def newer(op: str, members: str = "", *types: str) -> bytes:
    """The same in version 2."""
    return newest(one(op, members, *types))


def two(op: str, members: str) -> bytes:
    return plan(source("a"), source("b"), node("q", op, "a b", members), output("q"))


def at_least(number: int, where: str = "") -> bytes:
    """So many of three sources, in version 2."""
    members = f'"number":{number},"scope":10,"where":[{where}]'
    return newest(plan(source("a"), source("b"), source("c"), node("q", "atleast", "a b c", members), output("q")))


def newest(data: bytes) -> bytes:
    return data.replace(b'"version":1', b'"version":2')


def paper(level: str) -> bytes:
    return plan(source("install"), source("shutdown"), source("restart"),
                node("q", "sequence", "install shutdown", '"scope":43200,"where":[[0,"=",{"column":1}]]'),
                node("n", "unless", "q restart", '"scope":300,"hold":1,"where":[[0,"=",{"column":2}]]'),
                output("n", level))


STRONG, MIDDLE = '"strong"', '"middle"'
WEAK = '{"block":0,"memory":5}'
NOW = '{"block":0,"memory":0}'
JOIN = plan(source("l"), source("r"), node("j", "join", "l r", '"where":[]'), output("j"))
COUNTS = one("group", '"keys":[0],"count":true,"sum":[]')
SUMS = one("group", '"keys":[0],"count":true,"sum":[1]', "text", "int")
PEAKS = newer("group", '"keys":[0],"count":true,"sum":[],"least":[1],"greatest":[1]', "text", "int")
SEQUENCE = two("sequence", '"scope":10,"where":[]')
UNLESS = two("unless", '"scope":10,"hold":1,"where":[]')
EXCEPT = newest(plan(source("l"), source("r"), node("j", "except", "l r", '"where":[]'), output("j")))
NO_MATCH = EXCEPT.replace(b'"where":[]', b'"where":[[0,"=",{"column":1}]]')
THREE = plan(source("a"), source("b"), node("q", "sequence", "a b a", '"scope":10,"where":[]'), output("q"))
WINDOW = node("w", "window", "s", '"width":3')
UNION = plan(source("u"), source("v"), node("n", "union", "u v"), output("n", STRONG))
UNTIL = plan(source("u"), source("v"), node("n", "union", "u v"), output("n", WEAK))
DIAMOND = plan(source("s"), node("p", "window", "s", '"width":4'), node("q", "shift", "s", '"by":2'),
               node("j", "join", "p q", '"where":[[0,"=",{"column":1}]]'), output("j"), first='"edge":1,')
ROWS = plan(source("s", "text", "int"), node("f", "select", "s", '"where":[[1,">=",{"int":5}]]'),
            node("p", "project", "f", '"keep":[0]'), node("n", "union", "p p"), output("n"))

INSTALLS, SHUTDOWNS = "+,1,1000,inf,m1 / +,2,2000,inf,m2", "+,1,5000,inf,m1 / +,2,6000,inf,m2"
BROKEN = "+,1,1,2,a / +,2,20,30,b / +,3,10,40,c / -,3,25"
WEAK_ROWS = "1,2,a / 20,30,b / -- / out,0,late,20,+,10,40,c / out,0,orphan,20,-,25,10,40,c"
TWO_WIDE = "+,1,0,10,x / +,2,5,7,x"
REVISED = "+,1,1,10,a / ~,1,3,6,b"
LEAST, LAST = "4611686018427387903", "9223372036854775807"

# The words, the plan, what the files hold by their names without `.csv`, and what is written.
ANSWERED = [
    ("a retraction exactly at the guarantee", "stream", passing(STRONG),
     {"s": "+,1,1,20,a / +,2,4,10,b / =,10 / -,1,10"}, "+,1,10,a / +,4,10,b"),
    ("a correction", "run", passing(MIDDLE), {"s": "+,1,1,10,a / -,1,5"}, "1,5,a"),
    ("the same, told at once", "run", passing(MIDDLE), {"s": "+,9,1,5,a"}, "1,5,a"),
    ("a revision", "run", passing(MIDDLE), {"s": REVISED}, "3,6,b"),
    ("a revision takes its event back", "stream", passing(MIDDLE), {"s": REVISED}, "+,1,10,a / -,1,1,10,a / +,3,6,b"),
    ("a revision, strong", "stream", passing(STRONG), {"s": REVISED}, "+,3,6,b"),
    ("a revision whose old row was late", "audit", passing(WEAK), {"s": "+,1,1,2,a / +,2,20,30,b / ~,1,16,40,c"},
     "1,2,a / 20,30,b / 16,40,c / -- / out,0,late,20,-,1,1,2,a"),
    ("a join", "run", JOIN, {"l": "+,1,1,10,a", "r": "+,1,5,20,b"}, "5,10,a,b"),
    ("a join whose row becomes empty", "run", JOIN, {"l": "+,1,1,10,a / -,1,5", "r": "+,1,5,20,b"}, ""),
    ("a join of equal rows", "run", JOIN, {"l": "+,1,1,10,a / +,2,1,10,a", "r": "+,1,5,20,b"}, "5,10,a,b / 5,10,a,b"),
    ("a join of equal rows, one withdrawn", "run", JOIN,
     {"l": "+,1,1,10,a / +,2,1,10,a / -,2,1", "r": "+,1,5,20,b"}, "5,10,a,b"),
    ("a join cut exactly at a guarantee", "run", JOIN, {"l": "+,1,1,10,a / =,10", "r": "+,1,5,20,b / =,12 / -,1,12"},
     "5,10,a,b"),
    ("counts", "run", COUNTS, {"s": TWO_WIDE}, "0,5,x,1 / 5,7,x,2 / 7,10,x,1"),
    ("two neighbours that merge across a guarantee", "run", COUNTS, {"s": TWO_WIDE + " / =,5 / -,2,5"}, "0,10,x,1"),
    ("a tie and the scope's end match nothing", "run", SEQUENCE, {"a": "+,1,1,20,a",
     "b": "+,1,1,2,p / +,2,5,6,q / +,3,11,12,r"}, "5,11,a,q"),
    ("a late and an orphaned change", "serial", passing(WEAK), {"s": BROKEN}, WEAK_ROWS),
    ("a late and an orphaned change", "audit", passing(WEAK), {"s": BROKEN}, WEAK_ROWS),
    ("a late and an orphaned change", "run", passing(WEAK), {"s": BROKEN}, WEAK_ROWS),
    ("a late retraction leaves its row", "audit", passing(WEAK), {"s": "+,1,1,inf,a / +,2,20,30,b / -,1,10"},
     "20,30,b / 1,inf,a / -- / out,0,late,20,-,10,1,inf,a"),
    ("no memory: what is late by 1", "run", passing(NOW), {"s": "+,1,5,9,a / +,2,4,9,b"},
     "5,9,a / -- / out,0,late,5,+,4,9,b"),
    ("no memory: what isn't late", "run", passing(NOW), {"s": "+,1,5,9,a / +,2,5,9,a / -,2,6"}, "5,6,a / 5,9,a / --"),
    ("nothing forgotten", "audit", passing(MIDDLE), {"s": "+,1,1,2,a"}, "1,2,a / --"),
    ("a machine down and not restarted, strong", "run", paper(STRONG),
     {"install": INSTALLS, "shutdown": SHUTDOWNS, "restart": "+,1,5100,inf,m1"}, "6300,6301,m2,m2"),
    ("a machine down and not restarted, middle", "run", paper(MIDDLE),
     {"install": INSTALLS, "shutdown": SHUTDOWNS, "restart": "+,1,5100,inf,m1"}, "6300,6301,m2,m2"),
    ("a diamond over edges of 1", "run", DIAMOND, {"s": "+,1,0,10,a / +,2,1,3,b"}, "2,4,a,a"),
    ("a diamond over edges of 1", "serial", DIAMOND, {"s": "+,1,0,10,a / +,2,1,3,b"}, "2,4,a,a"),
    ("a union, strong", "stream", UNION, {"u": "+,1,1,2,a / =,50", "v": "+,1,1,3,b / =,9 / +,2,20,30,c"},
     "+,1,2,a / +,1,3,b / +,20,30,c"),
    ("a block of 3", "stream", passing('{"block":3,"memory":"inf"}'),
     {"s": "+,1,1,9,a / +,2,4,9,b / =,2 / -,2,5 / =,7"}, "+,1,9,a / +,4,5,b"),
    ("a guarantee that says nothing has its turn", "serial", UNTIL,
     {"u": "=,0 / +,1,20,21,a", "v": "+,1,10,11,b"}, "10,11,b / 20,21,a / --"),
    ("a guarantee that says nothing has its turn", "audit", UNTIL,
     {"u": "=,0 / +,1,20,21,a", "v": "+,1,10,11,b"}, "10,11,b / 20,21,a / --"),
    ("a revision has one turn for both of its messages", "serial", UNTIL,
     {"u": "+,1,1,2,a / ~,1,1,3,a / +,2,20,21,b", "v": "=,0 / =,0 / +,1,10,11,c"},
     "1,3,a / 20,21,b / -- / out,0,late,20,+,10,11,c"),
    ("an empty line has none", "serial", UNTIL, {"u": " / +,1,20,21,a", "v": "+,1,10,11,b"},
     "20,21,a / -- / out,0,late,20,+,10,11,b"),
    ("a round goes port by port", "audit", UNTIL, {"u": "+,1,20,21,a", "v": "+,1,10,11,b"},
     "20,21,a / -- / out,0,late,20,+,10,11,b"),
    ("a shift", "run", one("shift", '"by":7'), {"s": "+,1,1,5,a"}, "8,12,a"),
    ("a shift past the last time", "run", one("shift", '"by":1099511627776'), {"s": f"+,1,{LEAST},inf,a"}, ""),
    ("a hop", "run", one("hop", '"every":10,"width":20'), {"s": "+,1,13,14,a"}, "10,30,a"),
    ("starts", "run", one("starts"), {"s": "+,1,1,5,a"}, "1,inf,a"),
    ("ends", "run", one("ends"), {"s": "+,1,1,5,a"}, "5,inf,a"),
    ("the end of what has none", "run", one("ends"), {"s": "+,1,1,inf,a"}, ""),
    ("a sum", "run", SUMS, {"s": "+,1,0,4,x,-3 / +,2,2,4,x,10"}, "0,2,x,1,-3 / 2,4,x,2,7"),
    ("a sum beyond 64 bits", "run", SUMS, {"s": f"+,1,0,4,x,{LAST} / +,2,0,4,x,{LAST}"},
     "0,4,x,2,18446744073709551614"),
    ("a gap between two rows of a group", "serial", COUNTS, {"s": "+,1,0,2,x / +,2,5,7,x"}, "0,2,x,1 / 5,7,x,1"),
    ("two rows of a group that touch", "serial", COUNTS, {"s": "+,1,0,2,x / +,2,2,5,x"}, "0,2,x,1 / 2,5,x,1"),
    ("a group of equal rows", "serial", SUMS, {"s": "+,1,0,2,x,3 / +,2,0,2,x,3 / +,3,0,2,y,3"},
     "0,2,x,2,6 / 0,2,y,1,3"),
    ("least and greatest fields", "run", PEAKS, {"s": "+,1,0,4,x,-3 / +,2,2,4,x,10"}, "0,2,x,1,-3,-3 / 2,4,x,2,-3,10"),
    ("a least field whose row is withdrawn", "run", PEAKS, {"s": "+,1,0,4,x,-3 / +,2,2,4,x,10 / -,1,2"},
     "0,2,x,1,-3,-3 / 2,4,x,1,10,10"),
    ("least and greatest texts", "serial", newer("group", '"keys":[],"count":false,"sum":[],"least":[0],"greatest":[0]'),
     {"s": "+,1,0,3,b / +,2,1,4,ab / +,3,2,3,c"}, "0,1,b,b / 1,2,ab,b / 2,3,ab,c / 3,4,ab,ab"),
    ("least and greatest in version 1", "run", PEAKS.replace(b'"version":2', b'"version":1'),
     {"s": "+,1,0,4,x,-3 / +,2,2,4,x,10"}, "0,2,x,1 / 2,4,x,2"),
    ("a group without a field", "serial", one("group", '"keys":[],"count":false,"sum":[]'),
     {"s": "+,1,0,2,x / +,2,1,3,y"}, "0,1 / 1,2 / 2,3"),
    ("a join of two and two equal rows", "serial", JOIN,
     {"l": "+,1,1,10,a / +,2,1,10,a", "r": "+,1,5,20,b / +,2,5,20,b"}, "5,10,a,b / 5,10,a,b / 5,10,a,b / 5,10,a,b"),
    ("rows that touch don't join", "serial", JOIN, {"l": "+,1,1,5,a", "r": "+,1,5,20,b"}, ""),
    ("a sequence of three, two of them of one source", "serial", THREE,
     {"a": "+,1,1,2,p / +,2,4,5,q", "b": "+,1,2,3,r"}, "4,11,p,r,q"),
    ("an unless whose test lets one through", "serial",
     two("unless", '"scope":10,"hold":1,"where":[[0,"=",{"column":1}]]'),
     {"a": "+,1,1,20,x / +,2,1,20,y", "b": "+,1,3,4,x"}, "11,12,y"),
    ("what begins with the row doesn't block it", "serial", UNLESS, {"a": "+,1,1,20,x", "b": "+,1,1,2,p"}, "11,12,x"),
    ("two of three sources, in any order", "run", at_least(2),
     {"a": "+,1,1,20,a", "b": "+,1,5,6,b", "c": "+,1,12,13,c"}, "5,11,a,b / 12,15,b,c"),
    ("two of three sources, by their begins and not by their ports", "run", at_least(2),
     {"a": "+,1,5,20,a", "b": "+,1,1,6,b", "c": ""}, "5,11,b,a"),
    ("equal begins aren't two", "run", at_least(2), {"a": "+,1,1,20,a", "b": "+,1,1,6,b", "c": ""}, ""),
    ("one of three sources", "run", at_least(1), {"a": "+,1,1,20,a", "b": "+,1,1,6,b", "c": ""}, "1,11,a / 1,11,b"),
    ("three of three sources", "serial", at_least(3),
     {"a": "+,1,9,10,a", "b": "+,1,3,4,b / +,2,10,11,d", "c": "+,1,1,2,c"}, "9,11,c,b,a / 10,11,c,a,d"),
    ("two rows of one source aren't two", "serial", at_least(2), {"a": "+,1,1,20,a / +,2,5,6,b", "b": "", "c": ""}, ""),
    ("equal rows among the two", "serial", at_least(2, '[1,"=",{"text":"b"}]'),
     {"a": "+,1,1,9,a / +,2,1,9,a", "b": "+,1,2,9,b / +,2,3,9,c", "c": "+,1,4,5,b"},
     "2,11,a,b / 2,11,a,b / 4,11,a,b / 4,11,a,b / 4,12,b,b / 4,13,c,b"),
    ("the parts beside a row of the other source", "run", EXCEPT, {"l": "+,1,0,10,a / =,8", "r": "+,1,5,7,b / =,5"},
     "0,5,a / 7,10,a"),
    ("one part where the other row is withdrawn", "run", EXCEPT,
     {"l": "+,1,0,10,a / =,8", "r": "+,1,5,7,b / =,5 / -,1,5"}, "0,10,a"),
    ("no part of a row within the other's", "run", EXCEPT, {"l": "+,1,5,7,a", "r": "+,1,5,7,b"}, ""),
    ("parts beside rows that overlap, touch and don't match", "serial", NO_MATCH,
     {"l": "+,1,0,20,a / +,2,0,20,b", "r": "+,1,2,5,a / +,2,4,6,a / +,3,6,8,a / +,4,12,14,a / +,5,20,30,a"},
     "0,2,a / 8,12,a / 0,20,b / 14,20,a"),
    ("equal rows of either source of an except", "serial", EXCEPT,
     {"l": "+,1,0,9,a / +,2,0,9,a", "r": "+,1,0,3,b / +,2,0,3,b"}, "3,9,a / 3,9,a"),
    ("a column kept twice", "serial", one("project", '"keep":[0,0]'), {"s": "+,1,1,2,a"}, "1,2,a,a"),
    ("a window of a row without end", "serial", one("window", '"width":3'), {"s": "+,1,1,inf,a"}, "1,4,a"),
    ("a hop from a multiple", "serial", one("hop", '"every":10,"width":10'), {"s": "+,1,20,21,a"}, "20,30,a"),
    ("a shift whose end is past the last time", "serial", one("shift", '"by":7'), {"s": f"+,1,1,{LEAST},a"}, "8,inf,a"),
    ("equal rows of both ports of a union", "serial", UNION, {"u": "+,1,1,2,a", "v": "+,1,1,2,a"}, "1,2,a / 1,2,a"),
    ("numbers are sorted by value", "serial", one("select", '"where":[]', "int"),
     {"s": "+,1,1,5,10 / +,2,1,5,9 / +,3,0,5,11 / +,4,2,4,-1"}, "2,4,-1 / 0,5,11 / 1,5,9 / 1,5,10"),
    ("texts are sorted by their bytes", "serial", passing(STRONG),
     {"s": "+,1,1,2,b / +,2,1,2,ab / +,3,1,2,a / +,4,1,2,B / +,5,1,2,"}, "1,2, / 1,2,B / 1,2,a / 1,2,ab / 1,2,b"),
    ("a late change behind an operator", "serial", plan(source("s"), node("f", "select", "s", '"where":[]'),
                                                        output("f", WEAK)),
     {"s": "+,1,1,2,a / +,2,20,30,b / +,3,10,40,c"}, "1,2,a / 20,30,b / -- / out,0,late,20,+,10,40,c"),
    ("a late change before an operator", "serial", plan(source("s"), f'{WINDOW[:-1]},"level":{WEAK}}}', output("w")),
     {"s": "+,1,1,2,a / +,2,20,30,b / +,3,10,40,c"}, "1,2,a / 20,23,b / -- / w,0,late,20,+,10,40,c"),
    ("a select, a project and a union of one node twice", "run", ROWS, {"s": "+,1,1,2,a,4 / +,2,3,4,b,5"},
     "3,4,b / 3,4,b"),
]

SHOWN = [
    ("a window whose row is shortened", one("window", '"width":3'), "s,+,1,1,10,a / ? / s,-,1,8 / ? / s,-,1,2 / ?",
     "1,4,a / . 0 / 1,4,a / . 0 / 1,2,a / . 0"),
    ("what blocks comes and goes", UNLESS, "a,+,1,1,20,a / b,+,1,11,12,p / ? / b,+,2,10,12,q / ? / b,-,2,10 / ?",
     "11,12,a / . 0 / . 0 / 11,12,a / . 0"),
    ("a restart takes an alarm back", paper(MIDDLE),
     "install,+,1,1000,inf,m1 / install,+,2,2000,inf,m2 / shutdown,+,1,5000,inf,m1 / shutdown,+,2,6000,inf,m2 / ? / "
     "restart,+,1,5100,inf,m1 / ?", "5300,5301,m1,m1 / 6300,6301,m2,m2 / . 0 / 6300,6301,m2,m2 / . 0"),
    ("two neighbours that merge across a guarantee", COUNTS,
     "? / s,+,1,0,10,x / s,+,2,5,7,x / ? / s,=,5 / s,-,2,5 / ?",
     ". 0 / 0,5,x,1 / 5,7,x,2 / 7,10,x,1 / . 0 / 0,10,x,1 / . 0"),
    ("the last row that is open stops the guarantee", COUNTS,
     "s,+,1,0,10,x / s,+,2,5,7,x / s,=,5 / ? / s,=,6 / ? / s,=,11 / ?",
     "0,5,x,1 / 5,7,x,2 / 7,10,x,1 / . 0 / 0,5,x,1 / 5,7,x,2 / 7,10,x,1 / . 5 / "
     "0,5,x,1 / 5,7,x,2 / 7,10,x,1 / . 11"),
    ("a part that ends where a row may go stops the guarantee", EXCEPT,
     "l,+,1,0,10,a / r,+,1,5,7,b / l,=,8 / r,=,5 / ? / r,=,6 / ?", "0,5,a / 7,10,a / . 0 / 0,5,a / 7,10,a / . 6"),
    ("a guarantee through two of three sources", at_least(2),
     "a,+,1,1,20,a / b,+,1,5,6,b / a,=,9 / b,=,8 / c,=,7 / ?", "5,11,a,b / . 7"),
    ("a revision gives a row another life", COUNTS, "s,+,1,0,10,x / s,+,2,5,7,x / s,~,2,6,12,x / ?",
     "0,6,x,1 / 6,10,x,2 / 10,12,x,1 / . 0"),
    ("a row that ends behind the guarantee waits", passing(STRONG), "s,+,1,1,5,a / s,+,2,2,9,b / s,=,6 / ?",
     "1,5,a / . 6"),
    ("a guarantee through a shift", one("shift", '"by":7'), "? / s,=,5 / ?", ". 0 / . 12"),
    ("a guarantee through a hop", one("hop", '"every":10,"width":20'), "s,=,13 / ? / s,=,inf / ?", ". 10 / . inf"),
    ("empty lines", passing(MIDDLE), " / ? / \r /  / ?", ". 0 / . 0"),
    ("no line", passing(MIDDLE), "", ""),
]

REFUSED = [
    ("a text in a column of numbers", "run", SUMS, {"s": "+,1,0,4,x,y"}, "events s line 1 fault 5"),
    ("a number beyond 64 bits", "serial", SUMS, {"s": "+,1,0,4,x,9223372036854775808"}, "events s line 1 fault 5"),
    ("a text in a column of numbers of a revision", "run", SUMS, {"s": "+,1,0,4,x,1 / ~,1,0,4,x,y"},
     "events s line 2 fault 5"),
    ("a revision with a field too few", "serial", passing(MIDDLE), {"s": "+,1,1,2,a / ~,1,1,2"},
     "events s line 2 fault 2"),
    ("a field too many", "audit", passing(MIDDLE), {"s": "+,1,1,2,a,b"}, "events s line 1 fault 2"),
    ("two faulty sources", "run", UNION, {"u": "+,1,5,4,a", "v": "-,3,1"},
     "events u line 1 fault 4 / events v line 1 fault 7"),
    ("two faulty sources", "stream", UNION, {"u": "+,1,5,4,a", "v": "-,3,1"},
     "events u line 1 fault 4 / events v line 1 fault 7"),
]

SHOWN_BEFORE = [
    ("a name that is no source's", "t,=,1", "", "1 fault 2"),
    ("no event behind the name", "s,", "", "1 fault 2"),
    ("a known id", "s,+,1,1,5,a / ? / s,+,1,1,5,a / ?", "1,5,a / . 0", "3 fault 6"),
    ("a line before the guarantee", "s,=,9 / s,+,1,1,5,a", "", "2 fault 9 sync 1 mark 9"),
    ("a revision of an event before the guarantee", "s,+,1,1,5,a / s,=,2 / ? / s,~,1,3,6,b", "1,5,a / . 2",
     "4 fault 9 sync 1 mark 2"),
]

SIZES = [("1", "rows 1 length 4"), ("2", "rows 1 length 4"), ("000001", "rows 1 length 4")]
NO_SIZES = ["0", "000000", "0000001", "100001", "-1", "+1", "1.0", "1 ", "", "x", "0x1"]
POOLS = ["1", "3", "16", "03"]
NO_POOLS = ["0", "00", "17", "99", "003", "016", "-1", "+3", "3.0", "3 ", "", "x", "0x1"]
SCRIPT_WORDS = ["live", "plan.json", "x.txt"]
NO_COMMAND = [["run"], ["serial"], ["audit"], ["stream"], ["live"], ["make"], ["live", "plan.json"],
              ["run", "plan.json", "x"], [*SCRIPT_WORDS, "x"], ["make", "1", "1"], ["Run", "plan.json"],
              ["runs", "plan.json"], ["stream", "plan.json", ""], ["--run", "plan.json"],
              *(["make", word] for word in NO_SIZES), ["pool"], ["pool", "3"], ["pool", "plan.json"],
              ["pool", "plan.json", "3"], ["pool", "3", "plan.json", "x"], ["Pool", "3", "plan.json"],
              ["run", "3", "plan.json"], *(["pool", word, "plan.json"] for word in NO_POOLS), ["parts"], ["parts", "3"],
              ["parts", "plan.json"], ["parts", "plan.json", "3"], ["parts", "3", "plan.json", "x"],
              *(["parts", word, "plan.json"] for word in NO_POOLS), ["follow"], ["follow", "plan.json"],
              ["follow", "plan.json", "c.txt", "x.txt", "x"]]


def asking(name: str, command: str):
    """The words that ask a case, each with its name: those of its command, where that is `run` those of pools, and where it is
    `serial` those of parts."""
    yield name, [command, "plan.json"]
    for threads in POOLS if command == "run" else []:
        yield f"{name}, by pool {threads}", ["pool", threads, "plan.json"]
    for parts in POOLS if command == "serial" else []:
        yield f"{name}, in {parts} parts", ["parts", parts, "plan.json"]


def all_cases():
    for name, command, data, sources, out in ANSWERED:
        for asked_as, words in asking(name, command):
            yield NetworkCase(asked_as, files_of(data, sources), words, 0, lines(out), b"")
    for name, data, script, out in SHOWN:
        yield NetworkCase(name, {"plan.json": data, "x.txt": lines(script)}, SCRIPT_WORDS, 0, lines(out), b"")
    for name, command, data, sources, err in REFUSED:
        for asked_as, words in asking(name, command):
            yield NetworkCase(asked_as, files_of(data, sources), words, 3, b"", lines(err))
    for name, script, out, told in SHOWN_BEFORE:
        yield NetworkCase(name, {"plan.json": passing(MIDDLE), "x.txt": lines(script)}, SCRIPT_WORDS, 3,
                          lines(out), lines(f"events x.txt line {told}"))
    for size, out in SIZES:
        yield NetworkCase(f"make {size}", {}, ["make", size], 0, lines(out), b"")
    for words in NO_COMMAND:
        yield NetworkCase(f"the words {words}", {"plan.json": passing(MIDDLE), "x.txt": b""}, words, 1, b"", USAGE)
    yield from unread()


def unread():
    good, bad = passing(MIDDLE), passing('{"block":9,"memory":5}')
    fault, told = b"read fault\n", b"plan fault 7 node 2\n"
    for command in ("serial", "run", "audit", "stream", "pool 3", "parts 3"):
        words = command.split()
        yield NetworkCase(f"{command} without a plan", {}, [*words, "none.json"], 4, b"", fault)
        yield NetworkCase(f"{command} without a source", {"plan.json": good.replace(b"s.csv", b"none.csv")},
                          [*words, "plan.json"], 4, b"", fault)
        yield NetworkCase(f"{command} with a faulty plan and without its source",
                          {"plan.json": bad.replace(b"s.csv", b"none.csv")}, [*words, "plan.json"], 2, b"", told)
        yield NetworkCase(f"{command} with a faulty source and without the other",
                          {"plan.json": UNION.replace(b"v.csv", b"none.csv"), "u.csv": b"+,1,5,4,a\n"},
                          [*words, "plan.json"], 4, b"", fault)
    yield NetworkCase("live without a script", {"plan.json": good}, ["live", "plan.json", "none.txt"], 4, b"", fault)
    yield NetworkCase("live without a plan", {"x.txt": b"?\n"}, ["live", "none.json", "x.txt"], 4, b"", fault)
    yield NetworkCase("live with a faulty plan", {"plan.json": bad}, ["live", "plan.json", "none.txt"], 2, b"", told)
    yield NetworkCase("live opens no source", {"plan.json": good.replace(b"s.csv", b"none.csv"), "x.txt": b"?"},
                      SCRIPT_WORDS, 0, b". 0\n", b"")
    folder = {"plan.json": good.replace(b"s.csv", b"folder"), "folder": None}
    yield NetworkCase("a folder for a source", folder, ["run", "plan.json"], 4, b"", fault)


def large():
    """Sources and scripts at the limit of 67,108,864 bytes, and lines at theirs."""
    shown = "a file at the limit", "a faulty line behind the limit", "65,537 bytes behind the last whole line"
    for case in (case for case in cases.large() if case.name in shown):
        yield NetworkCase(f"{case.name}, for a source", {"plan.json": passing(MIDDLE), "s.csv": case.data},
                          ["run", "plan.json"], case.status, case.out, case.err.replace(b"e.csv", b"s"))
    full = guarantee(cases.LINE) * 1_023 + guarantee(cases.LINE - 2) + b"?\n"
    long = guarantee(cases.LINE + 1)
    for name, script, told in [("a script at the limit", full, ""),
                               ("a script behind the limit", full + b"?\n", "1026 fault 10"),
                               ("a step of 65,536 bytes", long + b"?\n", ""),
                               ("a step of 65,537 bytes", b"?\n0" + long, "2 fault 1")]:
        err = lines(f"events x.txt line {told}") if told else b""
        yield NetworkCase(name, {"plan.json": passing(MIDDLE), "x.txt": script}, SCRIPT_WORDS,
                          3 if told else 0, b". 0\n", err)


def guarantee(size: int) -> bytes:
    """A step of a script with a guarantee of 0, of so many bytes with its line feed."""
    return b"s,=," + b"0" * (size - 5) + b"\n"


def files_of(data: bytes, sources: dict) -> dict:
    return {"plan.json": data, **{f"{name}.csv": lines(text) for name, text in sources.items()}}
