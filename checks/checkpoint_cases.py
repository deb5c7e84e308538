"""Bytes that are a checkpoint of a plan, or aren't one at a line, and command lines about checkpoints, written by hand."""
import checkpoint_reference
from network_cases import node, output, passing, plan, source

# A source of a text and an int, and one without fields.
TWO = plan(source("s", "text", "int"), source("t").replace('["text"]', "[]"), node("q", "except", "s t", '"where":[]'),
           output("q"), first='').replace(b'"version":1', b'"version":2')
ONE = passing('"middle"')
HEAD = "checkpoint,1"
EVENTS = [HEAD, "source,s,7", "1,2,inf,a,-5", '4,3,9,"b,""",0', "9,8,8", "source,t,inf", "0,0,1", "12,5,5", "end"]


def text(*lines: str) -> bytes:
    return "".join(line + "\n" for line in lines).encode("latin-1")


# Each is a line that stands in place of one of these, the number of that one, and whether it may. A line that may not is the
# bad one.
LINES = [
    ("checkpoint,2", 1, False), ("Checkpoint,1", 1, False), ("checkpoint,1 ", 1, False), ("", 1, False), ("end", 1, False),
    ("checkpoint,1\r", 1, False),
    ("source,s,0", 2, True), ("source,s,inf", 2, True), ("source,s,4611686018427387903", 2, True),
    ("source,s,4611686018427387904", 2, False), ("source,s,07", 2, False), ("source,s,", 2, False), ("source,s", 2, False),
    ("source,t,7", 2, False), ("source,ss,7", 2, False), ('"source",s,7', 2, False), ('source,"s",7', 2, False),
    ("source,s,7,", 2, False), ("1,2,inf,a,-5", 2, False), ("end", 2, False), ("source,s,-1", 2, False),
    ("0,2,inf,a,-5", 3, True), ("01,2,inf,a,-5", 3, False), ("1,02,inf,a,-5", 3, False), ("1,2,09,a,-5", 3, False),
    ("3,4611686018427387903,inf,,0", 3, True), ("1,4611686018427387904,inf,a,-5", 3, False),
    ("1,2,4611686018427387904,a,-5", 3, False), ("1,inf,inf,a,-5", 3, False), ("1,inf,inf", 3, False),
    ("1,2,3,a,9223372036854775807", 3, True), ("1,2,3,a,9223372036854775808", 3, False),
    ("1,2,3,a,-9223372036854775808", 3, True), ("1,2,3,a,-9223372036854775809", 3, False), ("1,2,3,a,-0", 3, False),
    ("1,2,3,a,+5", 3, False), ("1,2,3,a,05", 3, False), ("1,2,3,a,", 3, False), ("1,2,3,a,-", 3, False),
    ('1,2,3,"a",5', 3, False), ('1,2,3,a"b,5', 3, False), ('1,2,3,"a""",5', 3, True), ('1,2,3,"a"",5', 3, False),
    ('1,2,3,a,"5"', 3, False), ("1,2,3,a\r,5", 3, False), ("1,2,3,a,5\r", 3, False), ("1,2,3,\xff,5", 3, True),
    ("1,2,3,a", 3, False), ("1,2,3,a,5,6", 3, False), ("1,2,3", 3, False), ("1,2,2,a,5", 3, False), ("1,3,2,a,5", 3, False),
    ("1,2,2", 3, True), ("1,2", 3, False), ("1", 3, False), ("+,1,2,3,a,5", 3, False), ("-1,2,3,a,5", 3, False),
    ("end", 3, False), ("", 3, False),
    ("1,8,8", 4, False), ("0,8,8", 4, False), ("2,8,8", 4, True), ("18446744073709551615,8,8", 5, True),
    ("18446744073709551616,8,8", 5, False), ("4,8,8", 5, False), ("source,s,7", 6, False), ("end", 6, False),
    ("0,0,1,", 7, False), ("0,0,1,a", 7, False), ("0,0,inf", 7, True), ("end ", 9, False), ("END", 9, False),
    ("end,", 9, False), ("source,s,0", 9, False),
]
# What stands behind the last line feed, behind how many of the lines, and whether some text goes on from there.
ENDS = [
    ("", 0, True), ("c", 0, True), ("checkpoint,1", 0, True), ("checkpoint,12", 0, False), ("source", 0, False),
    ("s", 1, True), ("source,s", 1, True), ("source,t", 1, False), ("source,s,", 1, True), ("source,s,i", 1, True),
    ("source,s,in", 1, True), ("source,s,1inf", 1, False), ("source,s,0", 1, True), ("source,s,00", 1, False), ("1", 1, False),
    ("e", 1, False), ("source,s,4611686018427387904", 1, False), ("source,s,461168601842738790", 1, True),
    ("1", 2, True), ("0", 2, True), ("00", 2, False), ("-", 2, False), ("18446744073709551615", 2, True),
    ("18446744073709551616", 2, False), ("source,t", 2, True), ("e", 2, False), ("en", 2, False),
    ("0", 3, False), ("1", 3, True), ("1,", 3, False), ("2,", 3, True), ("1", 4, True), ("3", 5, True), ("9", 5, True),
    ("9,", 5, False), ("10,", 5, True), ("1844674407370955162", 5, True), ("18446744073709551620", 5, False),
    ("2,4", 3, True), ("2,04", 3, False), ("2,i", 3, False), ("2,5,", 3, True), ("2,5,0", 3, False), ("2,5,4", 3, True),
    ("2,5,i", 3, True), ("2,5,inf", 3, True), ("2,5,inf,", 3, True), ("2,5,5", 3, True), ("2,5,5,", 3, False),
    ("2,4611686018427387903,4", 3, True), ("2,4611686018427387903,5", 3, False), ("2,4611686018427387900,461168601842738790", 3, True),
    ("2,5,9,a", 3, True), ('2,5,9,"', 3, True), ('2,5,9,""', 3, True), ('2,5,9,"""', 3, True), ('2,5,9,"a"', 3, True),
    ('2,5,9,"a"b', 3, False), ('2,5,9,a"', 3, False), ('2,5,9,"a",', 3, False), ('2,5,9,"a""",', 3, True),
    ('2,5,9,"a,', 3, True), ('2,5,9,"a,",', 3, True), ("2,5,9,a\r", 3, False), ('2,5,9,"\r', 3, False), ("2,5,9,,", 3, True),
    ("2,5,9,,-", 3, True), ("2,5,9,,-0", 3, False), ("2,5,9,,0", 3, True), ("2,5,9,,01", 3, False), ("2,5,9,,9,", 3, False),
    ("2,5,9,,9223372036854775807", 3, True), ("2,5,9,,9223372036854775808", 3, False), ("2,5,9,,x", 3, False),
    ("1,0,1", 7, True), ("1,0,1,", 7, False), ("e", 8, True), ("end", 8, True), ("ends", 8, False), ("\n", 9, False),
    ("e", 9, False), (" ", 9, False),
]


def all_cases():
    """The name, the plan, the bytes, and the bad line or none."""
    yield "the lines of two sources", TWO, text(*EVENTS), None
    for line, number, is_right in LINES:
        lines = EVENTS[: number - 1] + [line] + EVENTS[number:]
        yield f"`{line}` as line {number}", TWO, text(*lines), None if is_right else number
    for rest, count, may_go_on in ENDS:
        data = text(*EVENTS[:count]) + rest.encode("latin-1")
        yield f"`{rest}` behind {count} lines", TWO, data, count + 1 + (may_go_on and rest != "")
    yield "no events", TWO, text(HEAD, "source,s,0", "source,t,0", "end"), None
    yield "no source after the first one", TWO, text(HEAD, "source,s,0", "end"), 3
    yield "names of another plan", ONE, text(HEAD, "source,r,0", "end"), 2
    yield "sources in another order", TWO, text(HEAD, "source,t,0", "source,s,0", "end"), 2
    yield "types of another plan", TWO, text(HEAD, "source,s,0", "1,1,2,5,a", "source,t,0", "end"), 3
    yield "the fields of another plan", ONE, text(HEAD, "source,s,0", "1,1,2,a,5", "end"), 3
    yield "more sources than the plan has", ONE, text(HEAD, "source,s,0", "source,t,0", "end"), 3
    yield "carriage returns before the line feeds", ONE, b"checkpoint,1\r\nsource,s,0\r\nend\r\n", 1
    yield "a byte order mark", ONE, b"\xef\xbb\xbf" + text(HEAD, "source,s,0", "end"), 1
    yield "a script", ONE, b"s,+,1,1,2,a\n?\n", 1
    yield "twice the text", ONE, text(HEAD, "source,s,0", "end") * 2, 4


def large_cases():
    """The same of as many bytes as a checkpoint may have, of one more, and of one less."""
    front, back = text(HEAD, "source,s,0") + b"1,1,2,", b"\nend\n"
    field = b"x" * (checkpoint_reference.LIMIT - len(front) - len(back))
    yield "as many bytes as there may be", ONE, front + field + back, None
    yield "a byte too many", ONE, front + field + b"x" + back, 0
    yield "a byte too many of no checkpoint", ONE, b"x" * (checkpoint_reference.LIMIT + 1), 0
    yield "a byte too few", ONE, front + field + back[:-1], 5


PLAN = {"plan.json": ONE}
EMPTY = text(HEAD, "source,s,0", "end")
READ, SCRIPT_FAULT = (4, b"", b"read fault\n"), b"events x.txt line 2 fault 2\n"
# What comes before what: a name, the files, the words, and what must come.
COMMANDS = [
    ("nothing to save", {**PLAN, "x.txt": b""}, ["save", "plan.json", "x.txt"], (0, EMPTY, b"")),
    ("a `?` writes nothing to a checkpoint", {**PLAN, "x.txt": b"?\n?\r\n\n"}, ["save", "plan.json", "x.txt"], (0, EMPTY, b"")),
    ("a fault behind a `?`", {**PLAN, "x.txt": b"?\ns\n"}, ["save", "plan.json", "x.txt"], (3, b"", SCRIPT_FAULT)),
    ("a fault behind a `?`, from a checkpoint", {**PLAN, "c.txt": EMPTY, "x.txt": b"?\ns\n"},
     ["resume", "plan.json", "c.txt", "x.txt"], (3, b". 0\n", SCRIPT_FAULT)),
    ("the checkpoint comes before the script", {**PLAN, "c.txt": b""}, ["resume", "plan.json", "c.txt", "none.txt"],
     (7, b"", b"checkpoint line 1\n")),
    ("a good checkpoint and no script", {**PLAN, "c.txt": EMPTY}, ["resume", "plan.json", "c.txt", "none.txt"], READ),
    ("no checkpoint", PLAN, ["resume", "plan.json", "none.txt", "none.txt"], READ),
    ("no script", PLAN, ["save", "plan.json", "none.txt"], READ),
    ("no plan", {}, ["resume", "none.json", "none.txt", "none.txt"], READ),
    ("a plan's own fault", {"plan.json": b"{"}, ["save", "plan.json", "none.txt"], (2, b"", b"plan fault 2 node 0\n")),
]
