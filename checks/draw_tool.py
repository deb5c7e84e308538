#!/usr/bin/env python3
"""Runs tools/cedr-draw on plans, answers and command lines, and compares what it draws with what must be drawn.

Of a plan the texts of each node and edge are compared with those that are written out by hand, for each operator. Of an answer the
texts of the picture, and where its bars stand. What needs Graphviz or matplotlib is skipped where that isn't there. Status 0: all
right. 1: something differs. 2: the program isn't there.

usage: checks/draw_tool.py [PROGRAM]
"""
import html
import json
import os
import re
import shutil
import subprocess
import sys
import tempfile
from pathlib import Path

sys.dont_write_bytecode = True

from from_csv import drawing_python
from program import ROOT, Check, built_program

TOOL = ROOT / "tools/cedr-draw"
S, T = ({"name": name, "op": "source", "file": f"{name}.csv", "fields": ["text", "int"]} for name in "st")
DRAWN_S = ["s", "source", '"s.csv"', "0: text, 1: int"]
WHERE = [[0, "=", {"column": 2}], [1, ">=", {"int": -5}], [0, "!=", {"text": 'a"<é>\n'}]]
SHOWN_WHERE = ["column 0 = column 2", "column 1 >= -5", 'column 0 != "a\\"<é>\\n"']
PORTS = ["port 0\\n0: text, 1: int", "port 1\\n2: text, 3: int"]
BOTH = "0: text, 1: int, 2: text, 3: int"

# A node over s, or over s and t, what its box says after its name, and what its edges say.
NODES = [
    ({"op": "select", "where": WHERE[1:]}, ["select", *SHOWN_WHERE[1:], "middle", "0: text, 1: int"], [""]),
    ({"op": "project", "keep": [1, 0, 1]}, ["project, keep [1, 0, 1]", "middle", "0: int, 1: text, 2: int"], [""]),
    ({"op": "project", "keep": []}, ["project, keep []", "middle", "no fields"], [""]),
    ({"op": "window", "width": 9}, ["window, width 9", "middle", "0: text, 1: int"], [""]),
    ({"op": "shift", "by": 9}, ["shift, by 9", "middle", "0: text, 1: int"], [""]),
    ({"op": "hop", "every": 9, "width": 3}, ["hop, every 9, width 3", "middle", "0: text, 1: int"], [""]),
    ({"op": "starts", "level": "strong"}, ["starts", "strong", "0: text, 1: int"], [""]),
    ({"op": "ends", "level": {"block": 3, "memory": "inf"}}, ["ends", "block 3, memory inf", "0: text, 1: int"], [""]),
    ({"op": "group", "keys": [0], "count": True, "sum": [1], "least": [0], "greatest": [1]},
     ["group, keys [0], count true, sum [1], least [0], greatest [1]", "middle", "0: text, 1: int, 2: int, 3: text, 4: int"], [""]),
    ({"op": "union", "from": ["s", "t"]}, ["union", "middle", "0: text, 1: int"], ["port 0", "port 1"]),
    ({"op": "join", "from": ["s", "t"], "where": WHERE}, ["join", *SHOWN_WHERE, "middle", BOTH], PORTS),
    ({"op": "sequence", "from": ["s", "s"], "scope": 9, "where": []}, ["sequence, scope 9", "middle", BOTH], PORTS),
    ({"op": "unless", "from": ["s", "t"], "scope": 9, "hold": 2, "where": []}, ["unless, scope 9, hold 2", "middle", "0: text, 1: int"],
     PORTS),
    ({"op": "atleast", "from": ["s", "t"], "number": 2, "scope": 9, "where": WHERE[:1]},
     ["atleast, number 2, scope 9", SHOWN_WHERE[0], "middle", BOTH], ["port 0", "port 1"]),
    ({"op": "except", "from": ["s", "t"], "where": [], "level": {"block": 0, "memory": 60}},
     ["except", "block 0, memory 60", "0: text, 1: int"], PORTS),
]

BOX, CELL = re.compile(r'^  "(\w+)" \[label=<(.*)>\];$', re.MULTILINE), re.compile(r'<td align="left">(.*?)</td>')
EDGE = re.compile(r'^  "(\w+)" -> "(\w+)"(?: \[label="([^"]*)"\])?;$', re.MULTILINE)
SVG_TEXT = re.compile(r"<text[^>]*>([^<]*)</text>")
BARS = re.compile(r'<g id="[A-Za-z]*Collection_\d+">(.*?)</g>', re.DOTALL)
USED = re.compile(r'<use [^>]*? y="([-\d.]+)"')
PATH, CORNER = re.compile(r'<path [^>]*?d="(M[^"]*)"'), re.compile(r"[ML] ([-\d.]+) ([-\d.]+)")

ROWS = b"0,300,oven-2,a\n60,420,oven-10,b\n300,840,oven-2,a\n420,inf,\"x, $y$\",c\n"

# The options, the answer, and how what is said ends. The status is 1.
REFUSED = [
    ("--by 0 -o a.svg", b"+,1,2,a\n",
     "standard input line 1: this is a change, as stream and follow write it, and what can be drawn are the rows that run writes"),
    ("--by 0 -o a.svg", b"1,2,a\n. 7\n",
     "standard input line 2: this is a mark, as live writes it, and what can be drawn are the rows that run writes"),
    ("--by 0 -o a.svg", b"1,2,a\n\n", "standard input line 2: this isn't a row BEGIN,END,FIELD.."),
    ("--by 0 -o a.svg", b"1,x,a\n", "standard input line 1: this isn't a row BEGIN,END,FIELD.."),
    ("--by 0 -o a.svg", b"-1,2,a\n", "standard input line 1: this isn't a row BEGIN,END,FIELD.."),
    ("--by 0 -o a.svg", b"9" * 5_000 + b",inf,a\n", "standard input line 1: this isn't a row BEGIN,END,FIELD.."),
    ("--by 0 -o a.svg", b"2,2,a\n", "standard input line 1: the END isn't after the BEGIN"),
    ("--by 0 -o a.svg", b'1,2,"a\n', "standard input line 1: unexpected end of data"),
    ("--by 2 -o a.svg", b"1,2,a,b\n",
     "there is a row of 2 fields (a, b), and so no column 2: columns count from 0, and BEGIN and END are none"),
    ("--by 0 --colour 1 -o a.svg", b"1,2,a\n",
     "there is a row of 1 fields (a), and so no column 1: columns count from 0, and BEGIN and END are none"),
    ("--by 0 --unit d -o a.svg", b"1,99999999,a\n", "99999999 d after 1970-01-01T00:00:00+00:00 is no date before the year 10000"),
    ("--by 0 -o a.svg", b"1,2,a\n" * 20_001, "the answer has 20001 rows, and a picture has at most 20000"),
    ("--by 0 -o a.svg", b"".join(b"1,2,%d\n" % one for one in range(401)),
     "column 0 has 401 values, and a picture has at most 400 lines"),
    ("--by 0 --colour 1 -o a.svg", b"".join(b"1,2,a,%d\n" % one for one in range(21)),
     "column 1 has 21 values, and a picture has at most 20 colours"),
    ("--by 0 -o none/a.svg", b"1,2,a\n", "none/a.svg: No such file or directory"),
]

# Command lines that are wrong, and how what is said of them ends.
WRONG = [
    ("", "the following arguments are required: PLAN or ANSWER"),
    ("p.json -o p.gif", "'p.gif' doesn't end in one of .svg, .png, .pdf"),
    ("a.csv --by 0", "the picture of an answer needs -o FILE"),
    ("a.csv --by x -o a.svg", "'x' isn't the number of a column, from 0 on"),
    ("a.csv --by 0 --start 2026-03-02 -o a.svg", "--start and --zone are of dates, and need a --unit"),
    ("a.csv --by 0 --unit s --start soon -o a.svg", "'soon' isn't a date in the form 2026-03-02 or 2026-03-02T09:15:00Z"),
    ("a.csv --by 0 --unit s --zone Mars -o a.svg", "there is no zone 'Mars'; zones such as Europe/Berlin are in Debian's package tzdata"),
    ("a.csv --by 0 --program cedr -o a.svg", "--program is of a plan"),
    ("p.json --unit s", "--unit is of an answer, and needs --by"),
    ("p.json --title x", "--title is of an answer, and needs --by"),
]


class ToolCheck(Check):
    """The tool, called by a Python that has matplotlib where there is one."""

    def tool(self, words: list, data: bytes = b"", path: str = "") -> tuple[int, bytes, bytes]:
        env = {**os.environ, "PATH": path or os.environ["PATH"]}
        done = subprocess.run([drawing_python() or sys.executable, TOOL, *words], input=data, capture_output=True, cwd=self.folder,
                              env=env, check=False)
        return done.returncode, done.stdout, done.stderr

    def refused(self, name: str, told: str, status: int, came: tuple) -> None:
        """What is said must end so, and nothing may be written."""
        said = came[2].decode().rstrip("\n").split("\n")[-1]
        said = told if said.endswith(told) and said.startswith("cedr-draw: ") else said
        self.compare(name, b"", (status, b"", told.encode()), (came[0], came[1], said.encode()))


def shown(dot: str) -> tuple[dict, list]:
    """What the boxes and the edges of a graph say."""
    boxes = {name: [html.unescape(re.sub("<[^>]*>", "", cell)) for cell in CELL.findall(label)] for name, label in BOX.findall(dot)}
    return boxes, EDGE.findall(dot)


def check_nodes(check: ToolCheck) -> int:
    for node, texts, told in NODES:
        ports = node.get("from", ["s"])
        sources = [one for one in (S, T) if one["name"] in ports]
        out = {"name": "out", "op": "output", "from": ["n"]}
        plan = json.dumps({"version": 2, "nodes": [*sources, {"name": "n", "from": ports, **node}, out]}).encode()
        drawn_t = {"t": ["t", "source", '"t.csv"', DRAWN_S[-1]]} if "t" in ports else {}
        boxes = {"s": DRAWN_S, **drawn_t, "n": ["n", *texts], "out": ["out", "output", "middle", texts[-1]]}
        edges = [(port, "n", one) for port, one in zip(ports, told)] + [("n", "out", "")]
        status, dot, err = check.tool(["-", "--program", check.program], plan)
        came = status, repr(shown(dot.decode())).encode(), err
        check.compare(f"the node {node}", plan, (0, repr((boxes, edges)).encode(), b""), came)
    return len(NODES)


def check_odd_plans(check: ToolCheck) -> int:
    """A member of version 2 says nothing in version 1, and a file may have any name."""
    group = {"name": "n", "op": "group", "from": ["s"], "keys": [], "count": True, "sum": [], "least": [0]}
    plan = {"version": 1, "nodes": [{**S, "file": 'a & "b" <ü>\t\u202e'}, group, {"name": "out", "op": "output", "from": ["n"]}]}
    status, dot, err = check.tool(["-", "--program", check.program], json.dumps(plan).encode())
    boxes, _ = shown(dot.decode())
    came = status, repr((boxes.get("n", [""])[1], boxes.get("s", [""] * 3)[2])).encode(), err
    expected = 0, repr(("group, keys [], count true, sum []", '"a & \\"b\\" <ü>\\t\\u202e"')).encode(), b""
    check.compare("an odd plan of version 1", b"", expected, came)
    return 1


def check_refused(check: ToolCheck) -> int:
    good = json.dumps({"version": 1, "nodes": [S, {"name": "out", "op": "output", "from": ["s"]}]}).encode()
    check.write("p.json", good)
    program = ["--program", check.program]
    unused = json.dumps({"version": 1, "nodes": [S, T, {"name": "out", "op": "output", "from": ["t"]}]}).encode()
    check.refused("a faulty plan", "standard input is no plan: plan fault 14 node 1 (cedr-explain cedr check PLAN says why)", 1,
                  check.tool(["-", *program], unused))
    check.refused("an answer for a plan", "standard input is no plan: plan fault 2 node 0 (it isn't JSON; the rows of an answer are drawn "
                  "with --by COLUMN)", 1, check.tool(["-", *program], ROWS))
    check.refused("no file", "none.json: No such file or directory", 1, check.tool(["none.json", *program]))
    came = check.tool(["p.json", "--program", "none"])
    check.refused("no program", "the program none isn't there: --program says where it is", 1, came)
    came = check.tool(["p.json", "-o", "p.svg", *program], path=str(check.folder))
    check.refused("no dot", "dot isn't there: apt-get install graphviz", 1, came)
    for options, told in WRONG:
        check.refused(options, told, 2, check.tool(options.split()))
    return 5 + len(WRONG)


def check_pictures_of_plans(check: ToolCheck) -> int:
    """dot takes what the tool writes, and the picture has the same texts."""
    if not shutil.which("dot"):
        print("draw tool: pictures of plans are skipped: dot isn't there")
        return 0
    plan = ROOT / "examples/shop/overdue.json"
    for form, head in (("svg", b"<?xml"), ("png", b"\x89PNG"), ("pdf", b"%PDF")):
        came = check.tool([plan, "--program", check.program, "-o", f"p.{form}"])
        written = (check.folder / f"p.{form}").read_bytes()
        check.compare(f"a picture in {form}", b"", (0, head, b""), (came[0], came[1] + written[: len(head)], came[2]))
    texts = SVG_TEXT.findall((check.folder / "p.svg").read_text())
    wanted = ["overdue", "except", "column 0 = column 3", "column 4 &gt;= column 2", "strong", "3: text, 4: int"]
    check.compare("the texts of a picture", b"", (0, b"[]", b""), (0, repr([one for one in wanted if one not in texts]).encode(), b""))
    return 4


def bars_in(svg: str) -> list:
    """The left and the right end of each bar, and at which height it stands, from the top."""
    bars = []
    for part in BARS.findall(svg):
        # a path that is drawn once stands where its use says
        used = USED.search(part)
        for path in PATH.findall(part):
            xs, ys = zip(*((float(x), float(y)) for x, y in CORNER.findall(path)))
            bars.append((min(xs), max(xs), min(ys) + (float(used[1]) if used else 0)))
    heights = sorted({round(y) for _, _, y in bars})
    return [(left, right, heights.index(round(y))) for left, right, y in bars]


def check_answer(check: ToolCheck, options: str, data: bytes, texts: list, spans: list) -> None:
    """The texts stand in the picture in this order among others, and the bars where these times are, as the first one says."""
    status, out, err = check.tool(["-", *options.split(), "-o", "a.svg"], data)
    svg = (check.folder / "a.svg").read_text() if not status else ""
    came = [html.unescape(one) for one in SVG_TEXT.findall(svg)]
    check.compare(f"the texts of {options}", data, (0, repr(texts).encode(), b""),
                  (status, repr([one for one in came if one in texts]).encode(), err))
    found = bars_in(svg)
    if spans and found:
        (left, right, _), (begin, end, _) = found[0], spans[0]
        scale = (right - left) / (end - begin)
        found = [(*(round(begin + (x - left) / scale) for x in ends), height) for *ends, height in found]
    check.compare(f"the bars of {options}", data, (0, repr(spans).encode(), b""), (0, repr(found).encode(), b""))


def check_answers(check: ToolCheck) -> int:
    if not drawing_python():
        print("draw tool: pictures of answers are skipped: matplotlib isn't there")
        return 0
    # the right edge is a 25th of the whole behind the last time, 840
    texts = ["time", "oven-10", "oven-2", "x, $y$", "▶"]
    spans = [(60, 420, 0), (0, 300, 1), (300, 840, 1), (420, 873, 2)]
    check_answer(check, "--by 0", ROWS, texts, spans)
    check_answer(check, "--by 0 --colour 1", ROWS, [*texts, "column 1", "a", "b", "c"], spans)
    # numbers stand in their order, and bars that are valid at one time above each other
    check_answer(check, "--by 0", b"0,100,10\n10,20,9\n15,30,9\n30,40,9\n", ["9", "10"],
                 [(10, 20, 0), (30, 40, 0), (15, 30, 1), (0, 100, 2)])
    check_answer(check, "--by 0 --title T", b"1,2,a\n--\nout,0,late,9,+,1,2,b\n",
                 ["a", "T", "1 forgotten change isn't drawn"], [(1, 2, 0)])
    check_answer(check, "--by 0", b"1,2,a\n--\n" + b"out,0,late,9,+,1,2,b\n" * 2, ["a", "2 forgotten changes aren't drawn"], [(1, 2, 0)])
    check_answer(check, "--by 0", b"", ["no rows"], [])
    check_answer(check, "--by 0 --unit h --start 2026-03-02", b"0,24,a\n24,48,b\n", ["time, UTC", "a", "b"], [(0, 24, 0), (24, 48, 1)])
    check_answer(check, "--by 0 --unit s --zone Europe/Berlin", b"0,3600,a\n", ["01:00", "02:00", "time, Europe/Berlin", "a"],
                 [(0, 3600, 0)])
    for options, data, told in REFUSED:
        check.refused(f"{options}, refused", told, 1, check.tool(["-", *options.split()], data))
    return 8 + len(REFUSED)


def main() -> int:
    with tempfile.TemporaryDirectory(prefix="cedr-check-") as folder:
        check = ToolCheck(built_program(), Path(folder), ".txt")
        nodes, refused = check_nodes(check) + check_odd_plans(check), check_refused(check)
        plans, answers = check_pictures_of_plans(check), check_answers(check)
    print(f"draw tool: {nodes} nodes, {refused} that it refuses, {plans} pictures of plans, {answers} answers: "
          f"{check.differences} differences")
    return 1 if check.differences else 0


if __name__ == "__main__":
    sys.exit(main())
