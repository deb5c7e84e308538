"""Plans whose answers are written out by hand: the name of the case, the plan's bytes and what must come."""
from program import Case

LIMIT = 1_048_576
LONGEST = 2**40


def accepted(name: str, data: bytes, lines: str) -> Case:
    """A case whose lines are told with spaces between them."""
    return Case(name, data, 0, "".join(line + "\n" for line in lines.split()).encode(), b"")


def refused(name: str, data: bytes, fault: int, node: int) -> Case:
    return Case(name, data, 2, b"", f"plan fault {fault} node {node}\n".encode())


def plan(*nodes: str, first: str = "", version: int = 1) -> bytes:
    """A document of these nodes, with other members in front of them."""
    return (f'{{"version":{version},' + first + '"nodes":[\n ' + ",\n ".join(nodes) + "]}\n").encode()


def source(name: str, *types: str) -> str:
    fields = ",".join(f'"{one}"' for one in types)
    return f'{{"name":"{name}","op":"source","file":"{name}.csv","fields":[{fields}]}}'


def node(op: str, members: str = "", ports: str = "s", name: str = "x") -> str:
    """A node whose ports are told with spaces between them."""
    names = ",".join(f'"{port}"' for port in ports.split())
    return f'{{"name":"{name}","op":"{op}","from":[{names}]{"," if members else ""}{members}}}'


def output(port: str = "x") -> str:
    return node("output", "", port, "out")


S = source("s", "text", "int")
W = source("w", *["int"] * 9)
Z = [0] * 17
SUMMED = '"keys":[0],"count":true,"sum":[1],'
BARE = '"keys":[],"count":false,"sum":[],'
OF = [f'"number":{number},"scope":1,' for number in range(6)]
GOOD = [S, output("s")]
GOOD_LINES = "s,source,text,int out,output,text,int"


def one(op: str, members: str = "", ports: str = "s", name: str = "x") -> bytes:
    """The source s with a text and a number, a node over it, and the output."""
    return plan(S, node(op, members, ports, name), output())


def newer(op: str, members: str = "", ports: str = "s") -> bytes:
    """The same in version 2."""
    return plan(S, node(op, members, ports), output(), version=2)


def tests(*texts: str) -> str:
    return f'"where":[{",".join(texts)}]'


def lines(op: str, types: str) -> str:
    return f"s,source,text,int x,{op}{types} out,output{types}"


# For each operator its members at their least and the types of its result, and the same at their greatest.
MEMBERS = [
    ("select", "s", ['"where":[]'], ",text,int", ['"where":[' + ",".join(['[1,"<=",{"int":-9223372036854775808}]',
     '[1,">=",{"int":9223372036854775807}]', '[0,"!=",{"text":""}]', '[0,"=",{"column":0}]'] * 4) + "]"], ",text,int"),
    ("project", "s", ['"keep":[]'], "", [f'"keep":{[1, 0] * 8}'], ",int,text" * 8),
    ("join", "s s", ['"where":[]'], ",text,int" * 2,
     [tests(*['[2,"<",{"column":0}]', '[3,">",{"column":1}]'] * 8)], ",text,int" * 2),
    ("window", "s", ['"width":1'], ",text,int", [f'"width":{LONGEST}'], ",text,int"),
    ("shift", "s", ['"by":1'], ",text,int", [f'"by":{LONGEST}'], ",text,int"),
    ("hop", "s", ['"every":1', '"width":1'], ",text,int", [f'"every":{LONGEST}', f'"width":{LONGEST}'], ",text,int"),
    ("group", "s", ['"keys":[]', '"count":false', '"sum":[]'], "",
     [f'"keys":{[0] * 8}', '"count":true', f'"sum":{[1] * 7}'], ",text" * 8 + ",int" * 8),
    ("sequence", "s s", ['"scope":1', '"where":[]'], ",text,int" * 2,
     [f'"scope":{LONGEST}', tests(*['[3,"=",{"column":1}]'] * 16)], ",text,int" * 2),
    ("unless", "s s", ['"scope":1', '"hold":1', '"where":[]'], ",text,int",
     [f'"scope":{LONGEST}', f'"hold":{LONGEST}', tests(*['[3,"=",{"column":1}]'] * 16)], ",text,int"),
]


# The same of the operators of version 2.
NEWER_MEMBERS = [
    ("atleast", "s s", ['"number":1', '"scope":1', '"where":[]'], ",text,int",
     ['"number":2', f'"scope":{LONGEST}', tests(*['[3,"=",{"column":1}]'] * 16)], ",text,int" * 2),
    ("except", "s s", ['"where":[]'], ",text,int", [tests(*['[3,"=",{"column":1}]'] * 16)], ",text,int"),
]


def each_operator():
    for members in MEMBERS:
        yield from of_operator(one, *members)
    for members in NEWER_MEMBERS:
        yield from of_operator(newer, *members)


def of_operator(make, op: str, ports: str, least: list, least_types: str, greatest: list, greatest_types: str):
    yield accepted(f"{op} at its least", make(op, ",".join(least), ports), lines(op, least_types))
    yield accepted(f"{op} at its greatest", make(op, ",".join(greatest), ports), lines(op, greatest_types))
    for place, member in enumerate(least):
        name = member.split(":")[0]
        rest = least[:place] + least[place + 1 :]
        yield refused(f"{op} without {name}", make(op, ",".join(rest), ports), 3, 2)
        for kind in ("null", "{}", '"1"', "[[]]"):
            yield refused(f"{op} with {name} {kind}", make(op, ",".join(rest + [f"{name}:{kind}"]), ports), 3, 2)
        if member.endswith(":1"):
            for number in NO_SPANS:
                data = make(op, ",".join(rest + [f"{name}:{number}"]), ports)
                yield refused(f"{op} with {name} {number}", data, 6, 2)


NO_SPANS = ["0", "-0", "-1", "1.0", "1e0", "2.5", str(LONGEST + 1), str(2**63 - 1), str(2**63), str(2**64 - 1),
            str(2**64), str(10**30)]

X16, X4 = ",int" * 16, ",int" * 4
F = source("f", *["int"] * 4)
CHAIN = [node("window", '"width":1', f"n{i}", f"n{i + 1}") for i in range(62)]
LEVELS = [
    '"strong"', '"middle"', '{"block":0,"memory":0}', '{"block":"inf","memory":"inf"}', '{"block":0,"memory":"inf"}',
    '{"block":7,"memory":"inf"}', f'{{"block":{LONGEST},"memory":{LONGEST}}}', '{"memory":9,"block":9,"more":null}',
]

ACCEPTED = [
    ("a source and an output", plan(*GOOD), GOOD_LINES),
    ("a source without fields", plan(source("s"), output("s")), "s,source out,output"),
    ("a source of 16 fields", plan(source("s", *["int"] * 16), output("s")), f"s,source{X16} out,output{X16}"),
    ("a source's file without a letter", plan(S.replace("s.csv", ""), output("s")), GOOD_LINES),
    ("a source's from and level say nothing",
     plan(S[:-1] + ',"from":["z"],"level":"weak","width":0,"where":7}', output("s")), GOOD_LINES),
    ("starts", one("starts"), lines("starts", ",text,int")),
    ("ends", one("ends"), lines("ends", ",text,int")),
    ("a union of 2", one("union", "", "s s"), lines("union", ",text,int")),
    ("a union of 4", one("union", "", "s s s s"), lines("union", ",text,int")),
    ("a union of wide inputs", plan(W, node("union", "", "w w"), output()),
     f"w,source{',int' * 9} x,union{',int' * 9} out,output{',int' * 9}"),
    ("a sequence of 4", plan(F, node("sequence", '"scope":1,' + tests('[15,"=",{"column":0}]'), "f f f f"), output()),
     f"f,source{X4} x,sequence{X16} out,output{X16}"),
    ("an unless whose tests see over 16 columns",
     plan(W, node("unless", '"scope":1,"hold":1,' + tests('[17,"=",{"column":0}]'), "w w"), output()),
     f"w,source{',int' * 9} x,unless{',int' * 9} out,output{',int' * 9}"),
    ("a project that repeats and turns columns", one("project", '"keep":[1,0,1]'), lines("project", ",int,text,int")),
    ("a group without a count", one("group", '"keys":[1],"count":false,"sum":[1]'), lines("group", ",int,int")),
    ("a group by a number, with a count", one("group", '"keys":[1,0],"count":true,"sum":[]'),
     lines("group", ",int,text,int")),
    ("a group of version 2 that says what one of version 1 does", newer("group", '"keys":[0],"count":true,"sum":[1]'),
     lines("group", ",text,int,int")),
    ("least and greatest fields of either type", newer("group", SUMMED + '"least":[1,0],"greatest":[0,0,1]'),
     lines("group", ",text,int,int,int,text,text,text,int")),
    ("least fields alone", newer("group", BARE + '"least":[0]'), lines("group", ",text")),
    ("greatest fields alone", newer("group", BARE + '"greatest":[1],"least":[]'), lines("group", ",int")),
    ("least and greatest fields up to 16", newer("group", SUMMED + f'"least":{Z[:6]},"greatest":{[1] * 7}'),
     lines("group", ",text,int,int" + ",text" * 6 + ",int" * 7)),
    ("least and greatest say nothing in version 1", one("group", SUMMED + '"least":7,"greatest":[-1,99,"x"]'),
     lines("group", ",text,int,int")),
    ("least and greatest say nothing of another operator", newer("starts", '"least":7,"greatest":[9]'),
     lines("starts", ",text,int")),
    ("one of two inputs", newer("atleast", OF[1] + tests('[0,"=",{"column":0}]'), "s s"), lines("atleast", ",text,int")),
    ("three of four inputs, whose tests see three payloads",
     newer("atleast", OF[3] + tests('[5,"=",{"column":1}]', '[4,"=",{"column":0}]'), "s s s s"),
     lines("atleast", ",text,int" * 3)),
    ("one of two wide inputs", plan(W, node("atleast", OF[1] + '"where":[]', "w w"), output(), version=2),
     f"w,source{',int' * 9} x,atleast{',int' * 9} out,output{',int' * 9}"),
    ("four inputs without a field", plan(source("e"), node("atleast", OF[4] + '"where":[]', "e e e e"), output(),
                                         version=2), "e,source x,atleast out,output"),
    ("a number says nothing of a sequence", newer("sequence", '"number":7,"scope":1,"where":[]', "s s"),
     lines("sequence", ",text,int" * 2)),
    ("an except whose tests see both payloads", newer("except", tests('[3,"=",{"column":1}]'), "s s"),
     lines("except", ",text,int")),
    ("an except whose tests see over 16 columns",
     plan(W, node("except", tests('[17,"=",{"column":0}]'), "w w"), output(), version=2),
     f"w,source{',int' * 9} x,except{',int' * 9} out,output{',int' * 9}"),
    ("an except of two types", plan(S, F, node("except", tests('[1,"=",{"column":2}]'), "s f"), output(), version=2),
     f"s,source,text,int f,source{X4} x,except,text,int out,output,text,int"),
    ("a join left then right", plan(S, F, node("join", '"where":[]', "f s"), output()),
     f"s,source,text,int f,source{X4} x,join{X4},text,int out,output{X4},text,int"),
    ("the six comparisons", one("select", tests(*[f'[1,"{word}",{{"int":0}}]' for word in "= != < <= > >=".split()])),
     lines("select", ",text,int")),
    ("of a test's members the column counts before the number",
     one("select", tests('[1,"=",{"text":7,"int":1.5,"column":1}]')), lines("select", ",text,int")),
    ("of a test's members the number counts before the text",
     one("select", tests('[1,"=",{"text":7,"int":1,"more":{}}]')), lines("select", ",text,int")),
    ("a text in a test", one("select", tests('[0,"<",{"text":"\\u0000\\ud83d\\ude00"}]')),
     lines("select", ",text,int")),
    ("64 nodes", plan(source("n0"), *CHAIN, output("n62")),
     "n0,source " + " ".join(f"n{i},window" for i in range(1, 63)) + " out,output"),
    ("a name of 64 letters", plan(source("a" * 64), output("a" * 64)), "a" * 64 + ",source out,output"),
    ("names of digits and _, which differ in case", plan(source("0"), node("join", '"where":[]', "0 0", "_"),
     node("union", "", "_ _", "A"), node("union", "", "A A", "a"), output("a")),
     "0,source _,join A,union a,union out,output"),
    ("the least edge", plan(*GOOD, first='"edge":1,'), GOOD_LINES),
    ("the greatest edge", plan(*GOOD, first='"edge":1024,'), GOOD_LINES),
    ("members that mean nothing", plan(*GOOD, first='"Edge":0,"op":null,"name":[],"":{"a":[1,{}]},').replace(
        b'"op":"output"', b'"op":"output","edge":0,"width":0,"file":3'), GOOD_LINES),
    # Of a member that stands twice the last value counts.
    ("two versions", plan(*GOOD, first='"version":3,"version":1,'), GOOD_LINES),
    ("version 2", plan(*GOOD, version=2), GOOD_LINES),
    ("version 2 behind version 1", plan(*GOOD, first='"version":2,'), GOOD_LINES),
    ("two versions, the first of another kind",
     plan(*GOOD).replace(b'"version"', b'"version":{},"version"'), GOOD_LINES),
    ("three edges", plan(*GOOD, first='"edge":0,"edge":"x","edge":5,'), GOOD_LINES),
    ("two lists of nodes", plan(*GOOD, first='"nodes":[{}],'), GOOD_LINES),
    ("two names, operators, files and fields", plan(
        '{"name":"q","op":"x","file":1,"fields":2,' + S[1:], output("s")), GOOD_LINES),
    ("two widths, one by an escape", one("window", '"width":0,"wid\\u0074h":5'), lines("window", ",text,int")),
    ("two constants in a test", one("select", tests('[1,"=",{"int":"x","int":1}]')), lines("select", ",text,int")),
    ("two blocks", one("starts", '"level":{"block":9,"memory":5,"block":1}'), lines("starts", ",text,int")),
    # JSON texts.
    ("white space of each kind",
     b" \t\r\n" + plan(*GOOD).replace(b",", b"\t,\r\n ").replace(b":", b" :\t") + b"\r\n ", GOOD_LINES),
    ("no white space", plan(*GOOD).replace(b"\n", b"").replace(b" ", b""), GOOD_LINES),
    ("escapes in names, words and members", plan(*GOOD).replace(b'"s"', b'"\\u0073"').replace(b'"op"', b'"\\u006Fp"')
     .replace(b"source", b"so\\u0075rce"), GOOD_LINES),
    ("a plan of 1,048,576 bytes", plan(*GOOD).ljust(LIMIT), GOOD_LINES),
    ("a text of nearly 1,048,576 bytes", plan(*GOOD, first='"zz":"' + "a" * 1_048_000 + '",'), GOOD_LINES),
    *[(f"a level of {level}", one("starts", '"level":' + level), lines("starts", ",text,int")) for level in LEVELS],
    *[(f"the output's level of {level}", plan(S, node("output", '"level":' + level, "s", "out")), GOOD_LINES)
      for level in LEVELS],
]

# Values of members that mean nothing. They must be JSON all the same.
JSON = [
    '""', '"\\"\\\\\\/\\b\\f\\n\\r\\t"', '"\\ud83d\\ude00"', '"\u00e9\ud7ff\ue000\uffff"', '"\x7f"', "[]", "{}", "true",
    "0", "-0", "-0.0", "0.5", "1e5", "1E+5", "1e-5", "1e308", "1e-400", "0e400", "0.0e99999", "-9223372036854775808",
    "18446744073709551615", "18446744073709551616", "1" * 300, "-" + "9" * 300, '"' + "\\ud83d\\ude00" * 9 + '"',
    "[" * 126 + "]" * 126, '{"a":' * 126 + "0" + "}" * 126, '[{"a":' * 63 + "0" + "}]" * 63,
    "[" + ",".join(["[]"] * 500) + "]",
]
NO_JSON = [
    "", "nul", "True", "NaN", "-NaN", "Infinity", "-Infinity", "undefined", "'a'", "a", "01", "-01", "+1", "1.", ".5",
    "-.5", "1e", "1e+", "1.e5", "-", "--1", "0x1", "1_000", "\u0661", "1e309", "-1e400", "1e99999", "1" * 310,
    '"a', '"\n"', '"\t"', '"\x00"', '"\x1f"', '"\\x41"', '"\\u12"', '"\\u12g4"', '"\\u+123"', '"\\u 123"', '"\\U0041"',
    '"\\ud800"', '"\\udc00"', '"\\ud800a"', '"\\ud800\\u0041"', '"\\ud800\\ud800"', '"\\udc00\\ud800"', '"\\ud83d\\n"',
    '{"\\ud800":1}', "[1,]", "[,1]", "[1 2]", "[1", "1]", "[1}", '{"a"}', '{"a":}', '{"a":1,}', '{"a" 1}', "{a:1}",
    "{1:1}", "{,}", "// a\n1", "/* a */1", "1 // a", "\x0b1", "\x0c1", "\xa01", "\u20281", "\ufeff1", "\x001",
    "[" * 127 + "]" * 127, '{"a":' * 127 + "0" + "}" * 127, '[{"a":' * 63 + "[[]]" + "}]" * 63,
    "[" * 5_000 + "]" * 5_000, "[" * 200_000,
]
NO_UTF8 = [b"\x80", b"\xff", b"\xc0\xaf", b"\xc3", b"\xe0\x80\x80", b"\xed\xa0\x80", b"\xf5\x80\x80\x80", b"\xf8\x88"]


def json_texts():
    for number, value in enumerate(JSON):
        yield accepted(f"JSON value {number}", plan(*GOOD, first=f'"zz":{value},'), GOOD_LINES)
        yield accepted(f"JSON value {number}, passed over", plan(*GOOD, first=f'"zz":{value},"zz":0,'), GOOD_LINES)
    for number, value in enumerate(NO_JSON):
        yield refused(f"no JSON value {number}", plan(*GOOD, first=f'"zz":{value},'), 2, 0)
        yield refused(f"no JSON value {number}, passed over", plan(*GOOD, first=f'"zz":{value},"zz":0,'), 2, 0)
    for spoilt in NO_UTF8:
        yield refused(f"{spoilt} in a text", plan(*GOOD, first='"zz":"?",').replace(b"?", spoilt), 2, 0)
        yield refused(f"{spoilt} in a member", plan(*GOOD, first='"?":1,').replace(b"?", spoilt), 2, 0)
        yield refused(f"{spoilt} behind the document", plan(*GOOD) + spoilt, 2, 0)
    good = plan(*GOOD)
    for name, data in [
        ("no byte", b""), ("spaces alone", b" \n"), ("1,048,576 spaces", b" " * LIMIT), ("an open bracket", b"["),
        ("an open plan", b'{"version":1,"nodes":['), ("a plan without its last brace", good[:-2]),
        ("two plans", good + good), ("a comma behind", good + b","), ("a byte 0 behind", good + b"\x00"),
        ("a byte order mark", b"\xef\xbb\xbf" + good), ("UTF-16", b"\xff\xfe" + good.decode().encode("utf-16-le")),
        ("UTF-16 without a mark", good.decode().encode("utf-16-be")), ("UTF-32", good.decode().encode("utf-32-le")),
        ("an infinite version", good.replace(b":1,", b":1e400,", 1)),
    ]:
        yield refused(name, data, 2, 0)
    for data in (b"[]", b"null", b"true", b"1", b'"version"', b"{}", b"[" + good + b"]"):
        yield refused(f"the document {data[:9]}", data, 3, 0)


def document(members: str) -> bytes:
    return f'{{{members}}}'.encode()


NODES = '"nodes":[' + ",".join(GOOD) + "]"
WIDE = f'"keep":{Z}'
DOCUMENT = [
    *[(f"version {value}", plan(*GOOD).replace(b":1,", f":{value},".encode(), 1), 3) for value in (
        "1.0", "1e0", "10e-1", "2.0", "2e0", "0", "-0", "-1", "3", "true", "null", '"1"', "[1]", str(2**63), str(2**64),
        str(2**64 + 1))],
    ("no version", document(NODES), 3),
    ("no nodes", document('"version":1'), 3),
    *[(f"nodes {value}", document(f'"version":1,"nodes":{value}'), 3) for value in ("null", "{}", '"s"', "1")],
    *[(f"edge {value}", plan(*GOOD, first=f'"edge":{value},'), 3) for value in ("null", '"1"', "[]", "{}", "true")],
    *[(f"edge {value}", plan(*GOOD, first=f'"edge":{value},'), 6) for value in (
        "0", "1025", "1.0", "1e2", "-1", "-0", str(2**63), str(2**64), "1e-400")],
    ("of two versions the last one counts", plan(*GOOD, first='"version":3,'), 3),
    ("of two edges the last one counts", plan(*GOOD, first='"edge":1,"edge":0,'), 6),
    ("of two lists of nodes the last one counts", document(f'"version":1,{NODES},"nodes":7'), 3),
    ("65 nodes", plan(source("n0"), *CHAIN, S, output("n62")), 5),
    ("65 nodes that aren't nodes", plan(*["0"] * 65), 5),
    ("3 before 5 of the document", plan(*["0"] * 65, first='"version":3,'), 3),
    ("3 before 6 of the document", plan(*GOOD, first='"edge":0,"version":3,'), 3),
    ("5 before 6 of the document", plan(*["0"] * 65, first='"edge":0,'), 5),
    ("3 of the document before 3 of a node", plan("0", first='"version":3,'), 3),
    ("6 of the document before 3 of a node", plan("0", first='"edge":0,'), 6),
    ("6 of the document before no output", plan(S, first='"edge":0,'), 6),
]


def test(right: str, left: str = "0", comparison: str = '"="') -> str:
    """A list of one test, from the texts of its three entries."""
    return f"[[{left},{comparison},{right}]]"


# The fault of the second of three nodes, a member of it, its operator, its other members, and values of the member.
COLUMN = '{"column":0}'
VALUES = [
    (3, "name", "starts", "", ['""', '"a-b"', '"a b"', '"a.b"', '"x\\n"', '"\\u0000"', '"\u00e9"', '"\u0661"',
                               '"' + "a" * 65 + '"', "null", "1", "[]"]),
    (8, "name", "starts", "", ['"s"', '"\\u0073"']),
    (3, "op", "starts", "", ["null", "1", "{}", '["starts"]']),
    (4, "op", "starts", "", ['""', '"Select"', '"joins"', '"select "', '"atleast"', '"except"', '"s"', '"\u00e9"',
                             '"\\u0000"']),
    (3, "from", "starts", "", ["null", '"s"', "{}", "[]", "[null]", "[0]", '[["s"]]']),
    (9, "from", "starts", "", ['["z"]', '["x"]', '["out"]', '["S"]', '["s.csv"]', '["\u00e9"]', '[""]']),
    (9, "from", "union", "", ['["s","z"]', '["z","s"]', '["s","s","s","x"]']),
    (3, "file", "source", '"fields":[],', ["null", "1", '["a"]']),
    (3, "fields", "source", '"file":"f",', ["null", '"int"', '["Int"]', '["int",null]', '[["int"]]', '["float"]',
                                              "[1]"]),
    (3, "keep", "project", "", ['["0"]', "[null]", "[[0]]", "[0,true]"]),
    (6, "keep", "project", "", ["[-1]", "[0.0]", "[-0]", "[1e0]", f"[{2**64}]"]),
    (10, "keep", "project", "", [str(Z)]),
    (11, "keep", "project", "", ["[2]", "[0,1,2]", f"[{2**63}]", f"[{2**64 - 1}]"]),
    (3, "keys", "group", '"count":true,"sum":[1],', ['["0"]']),
    (6, "keys", "group", '"count":true,"sum":[1],', ["[-1]"]),
    (10, "keys", "group", '"count":true,"sum":[1],', [str(Z[2:])]),
    (11, "keys", "group", '"count":true,"sum":[1],', ["[2]"]),
    (3, "sum", "group", '"keys":[0],"count":true,', ['["1"]']),
    (6, "sum", "group", '"keys":[0],"count":true,', ["[1.0]"]),
    (10, "sum", "group", '"keys":[0],"count":true,', [str([1] * 15)]),
    (11, "sum", "group", '"keys":[0],"count":true,', ["[2]"]),
    (12, "sum", "group", '"keys":[0],"count":true,', ["[0]", "[1,0]"]),
    (3, "count", "group", '"keys":[0],"sum":[],', ["0", "1", '"true"', "[true]"]),
    (3, "level", "starts", "", [
        "null", "1", "[]", "true", "{}", '{"block":1}', '{"memory":1}', '{"block":null,"memory":1}',
        '{"block":1,"memory":"1"}', '{"block":"strong","memory":"inf"}', '{"block":"Inf","memory":"inf"}',
        '{"block":[],"memory":1}']),
    (6, "level", "starts", "", [
        '{"block":-1,"memory":1}', '{"block":-0,"memory":1}', '{"block":0.0,"memory":1}', '{"block":0,"memory":1e3}',
        f'{{"block":{LONGEST + 1},"memory":"inf"}}', f'{{"block":0,"memory":{LONGEST + 1}}}',
        f'{{"block":0,"memory":{2**64}}}']),
    (7, "level", "starts", "", [
        '"weak"', '""', '"Strong"', '"inf"', '{"block":6,"memory":5}', '{"block":"inf","memory":5}',
        '{"block":1,"memory":0}', f'{{"block":"inf","memory":{LONGEST}}}', '{"block":1,"memory":1,"block":2}']),
    (3, "where", "select", "", [
        "[null]", "[{}]", '["s"]', "[[]]", '[[0,"="]]', f'[[0,"=",{COLUMN},0]]', test(COLUMN, '"0"'),
        test(COLUMN, "null"), test(COLUMN, "0", '"=="'), test(COLUMN, "0", '""'), test(COLUMN, "0", "null"),
        test(COLUMN, "0", '["="]'),
        test("0"), test("null"), test("{}"), test("[0]"), test('{"Column":0}'), test('{"column":"0"}'),
        test('{"int":"0"}'), test('{"text":0}'), test('{"int":true}'),
        test('{"int":null,"text":"a"}'), test('{"column":null,"int":1}')]),
    (6, "where", "select", "", [
        test(COLUMN, "-1"), test(COLUMN, "0.0"), test(COLUMN, "-0"), test(COLUMN, str(2**64)), test('{"column":-1}'),
        test('{"column":0e0}'), test(f'{{"int":{2**63}}}', "1"), test(f'{{"int":{-(2**63) - 1}}}', "1"),
        test('{"int":1.0}', "1"), test('{"int":-0}', "1"), test('{"int":1e2}', "1"), test('{"int":1.5,"text":"a"}')]),
    (11, "where", "select", "", [
        test('{"int":1}', "2"), test('{"column":2}'), test(COLUMN, str(2**63)), test(f'{{"column":{2**64 - 1}}}')]),
    (12, "where", "select", "", [
        test('{"int":1}'), test('{"text":"1"}', "1"), test('{"column":1}'), test(COLUMN, "1", '"!="')]),
]

# Values of a group's members `least` and `greatest` in version 2, by their fault.
EXTREMES = [
    (3, ["null", "true", "1", '"0"', "{}", '["0"]', "[null]", "[[0]]", "[0,true]", '[-1,"0"]', '[9,"0"]']),
    (6, ["[-1]", "[0.0]", "[-0]", "[1e0]", f"[{2**64}]", "[9,-1]"]),
    (10, [str([0] * 14), str([1] * 14), str([9] * 14)]),
    (11, ["[2]", "[0,1,2]", f"[{2**63}]", f"[{2**64 - 1}]"]),
]

# Members of version 2's operators of two or more ports, and their ports, by their fault.
NEWER_FAULTS = [
    (3, "atleast", OF[2] + '"where":[]', ["", "s"]),
    (3, "except", '"where":[]', ["", "s"]),
    (5, "atleast", OF[2] + '"where":[]', ["s s s s s", "s z s s s"]),
    (5, "except", '"where":[]', ["s s s", "s z s s s"]),
    (6, "atleast", OF[0] + '"where":[]', ["s s", "s s s s", "z s"]),
    (6, "atleast", OF[3] + '"where":[]', ["s s", "s z"]),
    (6, "atleast", OF[4] + '"where":[]', ["s s", "s s s"]),
    (6, "atleast", OF[5] + '"where":[]', ["s s", "s s s", "s s s s"]),
    (9, "atleast", OF[2] + '"where":[]', ["s z", "z s", "s s s x"]),
    (9, "except", tests('[9,"=",{"column":0}]'), ["s z", "z s", "s x"]),
    (11, "atleast", OF[1] + tests('[2,"=",{"column":0}]'), ["s s", "s s s"]),
    (11, "atleast", OF[2] + tests('[0,"=",{"column":4}]'), ["s s", "s s s", "s s s s"]),
    (11, "except", tests('[4,"=",{"column":0}]'), ["s s"]),
    (12, "atleast", OF[2] + tests('[2,"=",{"column":1}]'), ["s s", "s s s s"]),
    (12, "except", tests('[2,"=",{"column":1}]'), ["s s"]),
]

# Operators with their other members, and lists of too few and of too many ports.
FEW = [
    ("union", "", ["s", ""]), ("join", '"where":[]', ["s"]), ("sequence", '"scope":1,"where":[]', ["s"]),
    ("unless", '"scope":1,"hold":1,"where":[]', ["s"]), ("output", "", [""]),
]
MANY = [
    ("select", '"where":[]', "s s"), ("project", '"keep":[]', "s s"), ("union", "", "s s s s s"),
    ("join", '"where":[]', "s s s"), ("window", '"width":1', "s s"), ("shift", '"by":1', "s s"),
    ("hop", '"every":1,"width":1', "s s"), ("starts", "", "s s"), ("ends", "", "s s"),
    ("group", '"keys":[],"count":true,"sum":[]', "s s"), ("sequence", '"scope":1,"where":[]', "s s s s s"),
    ("unless", '"scope":1,"hold":1,"where":[]', "s s s"), ("output", "", "s s"),
]


def each_value():
    for fault, name, op, before, values in VALUES:
        for value in values:
            yield refused(f"{op} with {name} {value}, of fault {fault}", one(op, f'{before}"{name}":{value}'), fault, 2)
    for fault, values in EXTREMES:
        for value in values:
            for name in ("least", "greatest"):
                data = newer("group", f'{SUMMED}"{name}":{value}')
                yield refused(f"a group with {name} {value}, of fault {fault}", data, fault, 2)
    for fault, op, members, lists in NEWER_FAULTS:
        for ports in lists:
            yield refused(f"{op} of {ports!r} with {members}, of fault {fault}", newer(op, members, ports), fault, 2)
            yield refused(f"{op} of {ports!r} with {members} in version 1", one(op, members, ports), 4, 2)
    for op, members, lists in FEW:
        for ports in lists:
            yield refused(f"too few ports of {op}: {ports!r}", one(op, members, ports), 3, 2)
    for op, members, ports in MANY:
        yield refused(f"too many ports of {op}", one(op, members, ports), 5, 2)
    for value in ("null", "[]", "1", '"x"', "true", "{}"):
        yield refused(f"a node {value}", plan(S, value, output()), 3, 2)


SCOPE, HOLD = '"scope":1,', '"scope":1,"hold":1,'

# Faults of the second of three nodes.
SECOND = [
    ("no name", plan(S, '{"op":"starts","from":["s"]}', output()), 3),
    ("no op", plan(S, '{"name":"x","from":["s"]}', output()), 3),
    ("no from", plan(S, '{"name":"x","op":"starts"}', output()), 3),
    ("an unknown op without from", plan(S, '{"name":"x","op":"y"}', output()), 4),
    ("the last of 16 tests", one("select", tests(*['[0,"=",{"column":0}]'] * 15, '[0,"=",{"column":1}]')), 12),
    ("17 tests", one("select", tests(*['[0,"=",{"column":0}]'] * 17)), 5),
    ("a test of a join past the end", one("join", tests('[4,"=",{"column":0}]'), "s s"), 11),
    ("a test of a join of two types", one("join", tests('[0,"=",{"column":3}]'), "s s"), 12),
    ("a test of a sequence past the end", one("sequence", SCOPE + tests('[0,"=",{"column":6}]'), "s s s"), 11),
    ("a test of a sequence of two types", one("sequence", SCOPE + tests('[5,"=",{"column":0}]'), "s s s"), 12),
    ("a test of an unless past the end", one("unless", HOLD + tests('[4,"=",{"column":0}]'), "s s"), 11),
    ("a test of an unless of two types", one("unless", HOLD + tests('[2,"=",{"column":1}]'), "s s"), 12),
    ("a source without a file", plan(S, '{"name":"x","op":"source","fields":[]}', output()), 3),
    ("a source without a list of fields", plan(S, '{"name":"x","op":"source","file":"f"}', output()), 3),
    ("a source of 17 fields", plan(S, source("x", *["int"] * 17), output()), 5),
    ("a join of 18 fields", plan(W, node("join", '"where":[]', "w w"), output()), 10),
    ("a sequence of 18 fields", plan(W, node("sequence", SCOPE + '"where":[]', "w w"), output()), 10),
    ("at least two of 18 fields", plan(W, node("atleast", OF[2] + '"where":[]', "w w"), output(), version=2), 10),
    ("a number that isn't whole before a name that isn't there",
     newer("atleast", '"number":1.0,"scope":1,"where":[]', "s z"), 6),
    ("a column of another input before inputs of two types",
     newer("atleast", OF[1] + tests('[2,"=",{"column":0}]'), "s s"), 11),
    ("the output's level", plan(S, node("output", '"level":"weak"', "s", "out")), 7),
    # Of two faults of one node the least is told.
    ("3 before 4", one("y", "", "s", "x-"), 3),
    ("3 before 5", one("window", "", "s s"), 3),
    ("3 before 5, in a list of fields", plan(S, source("x", *["int"] * 17, "word"), output()), 3),
    ("3 before 5, in a list of tests", one("select", tests(*['[0,"=",{"column":0}]'] * 17, "0")), 3),
    ("3 before 5, in a list of ports", one("starts", '"from":["s","s",0]'), 3),
    ("3 before 6", one("hop", '"width":0'), 3),
    ("3 before 6, in one test", one("select", tests('[-1,"==",{"column":0}]')), 3),
    ("3 before 6, in two tests", one("select", tests('[-1,"=",{"column":0}]', '[0,"=",{}]')), 3),
    ("3 before 6, in one level", one("starts", '"level":{"block":-1}'), 3),
    ("3 before 7", one("window", '"level":"weak"'), 3),
    ("3 before 8", one("window", "", "s", "s"), 3),
    ("3 before 9", one("window", "", "z"), 3),
    ("3 before 10", one("project", f'"keep":{Z[1:]},"keep":["0",{str(Z)[1:]}'), 3),
    ("3 before 11", one("group", '"keys":[9],"sum":[]'), 3),
    ("3 before 12", one("group", '"keys":[],"sum":[0]'), 3),
    ("4 before 5", one("y", "", "s s s s s"), 4),
    ("4 before 3 of another member", one("y", '"from":7,"where":{},"level":null'), 4),
    ("4 before 6 and 7", one("y", '"width":0,"level":"weak"'), 4),
    ("4 before 8", one("y", "", "s", "s"), 4),
    ("4 before 9", one("y", "", "z"), 4),
    ("5 before 6", one("window", '"width":0', "s s"), 5),
    ("5 before 7", one("starts", '"level":"weak"', "s s"), 5),
    ("5 before 8", one("starts", "", "s s", "s"), 5),
    ("5 before 9", one("starts", "", "s z"), 5),
    ("5 before 10", plan(W, node("join", '"where":[]', "w w w"), output()), 5),
    ("5 before 11", one("select", tests(*['[9,"=",{"column":0}]'] * 17)), 5),
    ("5 before 12", one("select", tests(*['[0,"=",{"int":0}]'] * 17)), 5),
    ("6 before 7", one("window", '"width":0,"level":"weak"'), 6),
    ("6 before 8", one("window", '"width":0', "s", "s"), 6),
    ("6 before 9", one("window", '"width":0', "z"), 6),
    ("6 before 10", plan(W, node("sequence", '"scope":0,"where":[]', "w w"), output()), 6),
    ("6 before 11", one("select", tests('[9,"=",{"column":0}]', '[0,"=",{"column":-1}]')), 6),
    ("6 before 12", one("select", tests('[0,"=",{"int":1.5}]')), 6),
    ("7 before 8", one("starts", '"level":"weak"', "s", "s"), 7),
    ("7 before 9", one("starts", '"level":{"block":2,"memory":1}', "z"), 7),
    ("7 before 10", one("project", WIDE + ',"level":"weak"'), 7),
    ("7 before 11", one("project", '"keep":[9],"level":"weak"'), 7),
    ("7 before 12", one("select", tests('[0,"=",{"int":1}]') + ',"level":"weak"'), 7),
    ("8 before 9", one("starts", "", "z", "s"), 8),
    ("8 before 10", one("project", WIDE, "s", "s"), 8),
    ("8 before 11", one("project", '"keep":[9]', "s", "s"), 8),
    ("8 before 12", one("select", tests('[0,"=",{"int":1}]'), "s", "s"), 8),
    ("9 before 10", one("project", WIDE, "z"), 9),
    ("9 before 11", one("project", '"keep":[9]', "z"), 9),
    ("9 before 12", one("select", tests('[0,"=",{"int":1}]'), "z"), 9),
    ("10 before 11", one("project", f'"keep":{Z[1:] + [9]}'), 10),
    ("10 before 12", one("group", f'"keys":{Z[1:]},"count":false,"sum":[0]'), 10),
    ("11 before 12", one("select", tests('[0,"=",{"int":1}]', '[9,"=",{"column":0}]')), 11),
    ("11 before 12, in one test", one("select", tests('[9,"=",{"text":"a"}]')), 11),
    ("11 before 12, in a group", one("group", '"keys":[9],"count":true,"sum":[0]'), 11),
    ("11 before 12, by a least column", newer("group", '"keys":[],"count":true,"sum":[0],"least":[9]'), 11),
    ("a sum of a text beside its least field", newer("group", '"keys":[],"count":true,"sum":[0],"least":[0]'), 12),
    ("a least column past the end in version 1", one("group", '"keys":[],"count":true,"sum":[0],"least":[9]'), 12),
    ("a group of version 2 without a sum", newer("group", '"keys":[],"count":true,"least":[0],"greatest":[0]'), 3),
    ("least and greatest fields over 16", newer("group", SUMMED + f'"least":{Z[:7]},"greatest":{[1] * 7}'), 10),
    # Of two faulty nodes the first is told, whatever its fault.
    ("12 of the second node before 3 of the third",
     plan(S, node("group", '"keys":[],"count":true,"sum":[0]'), "0"), 12),
    ("9 of the second node before 4 of the third",
     plan(S, node("starts", "", "z"), node("y", name="y"), output("y")), 9),
    ("11 of the second node before 8 of the third", plan(S, node("project", '"keep":[2]'), node("starts")), 11),
    ("10 of the second node before 5 of the third",
     plan(S, node("project", WIDE), node("output", "", "x x", "out")), 10),
]

THIRD = [
    ("an output as a port", plan(*GOOD, node("starts", "", "out")), 9),
    ("an output as the second port", plan(*GOOD, node("union", "", "s out")), 9),
    ("a union of two types", plan(S, source("t", "int", "text"), node("union", "", "s t"), output()), 12),
    ("a union of two widths", plan(S, source("t", "text"), node("union", "", "s t"), output()), 12),
    ("a union whose fourth port differs", plan(S, source("t", "text"), node("union", "", "s s s t"), output()), 12),
    *[(f"at least {number} of two types",
       plan(S, source("t", "int", "text"), node("atleast", OF[number] + '"where":[]', ports), output(), version=2), 12)
      for number in (1, 2) for ports in ("s t", "s s t", "t s")],
    ("at least one of two types whose test sees a column of the other alone",
     plan(S, source("t"), node("atleast", OF[1] + tests('[0,"=",{"column":0}]'), "t s"), output(), version=2), 11),
    ("at least two of two types that are too wide",
     plan(S, W, node("atleast", OF[2] + '"where":[]', "w s"), output(), version=2), 10),
    ("an except of two types past the end",
     plan(S, F, node("except", tests('[0,"=",{"column":6}]'), "s f"), output(), version=2), 11),
    ("a name twice behind other names", plan(S, node("starts"), node("ends", "", "x", "s"), output("s")), 8),
    ("an output with the name of a source", plan(S, node("starts"), node("output", "", "x", "s")), 8),
    ("a join just too wide", plan(W, source("v", *["text"] * 8), node("join", '"where":[]', "w v"), output()), 10),
    ("a select behind a project, by the types of its result",
     plan(S, node("project", '"keep":[1,0]'), node("select", tests('[0,"=",{"text":"a"}]'), "x", "y"),
          output("y")), 12),
    ("a select behind a group, past its result's end",
     plan(S, node("group", '"keys":[],"count":true,"sum":[]'), node("select", tests('[1,"=",{"int":1}]'), "x", "y"),
          output("y")), 11),
    ("a fault of the last node before two outputs", plan(*GOOD, "0", node("output", "", "s", "o")), 3),
    ("a second output", plan(*GOOD, node("output", "", "s", "o")), 13),
    ("a third output", plan(*GOOD, node("output", "", "s", "o"), node("output", "", "s", "p")), 13),
    ("a second output before an unused source", plan(*GOOD, node("output", "", "s", "o"), source("t")), 13),
    ("an unused node in third place", plan(S, node("starts"), source("t"), output()), 14),
    ("an unused node behind the output", plan(*GOOD, node("starts")), 14),
    ("the first of two unused nodes", plan(*GOOD, source("t"), source("v")), 14),
    ("an unused node that has used ones", plan(S, output("s"), node("union", "", "s s")), 14),
]

OTHER = [
    refused("no node", plan(), 13, 0),
    refused("no output", plan(S), 13, 0),
    refused("no output, before an unused node", plan(S, node("starts", "", "s", "y")), 13, 0),
    refused("a second output before an unused source in front of it",
            plan(S, source("t"), node("output", "", "s", "o"), output("s")), 13, 4),
    refused("an unused source in front", plan(source("t"), *GOOD), 14, 1),
    refused("a fault of the first node", plan(source("t", "word"), *GOOD), 3, 1),
    refused("a fault of the 64th node", plan(source("n0"), *CHAIN, node("output", "", "z", "out")), 9, 64),
    refused("an unused node among 64", plan(source("n0"), *CHAIN, output("n61")), 14, 63),
    refused("a plan of 1,048,577 bytes", plan(*GOOD).ljust(LIMIT + 1), 1, 0),
    refused("1,048,577 spaces", b" " * (LIMIT + 1), 1, 0),
    refused("1,048,577 brackets", b"[" * (LIMIT + 1), 1, 0),
    refused("1,048,576 brackets", b"[" * LIMIT, 2, 0),
    refused("1,048,577 bytes that aren't UTF-8", b"\xff" * (LIMIT + 1), 1, 0),
    refused("3 MiB", plan(*GOOD).ljust(3 * LIMIT), 1, 0),
    refused("an unused output's name", plan(source("t"), output("t").replace('"out"', '"o"'), S), 14, 3),
]


def all_cases():
    yield from (accepted(*case) for case in ACCEPTED)
    yield from each_operator()
    yield from each_value()
    yield from json_texts()
    yield from (refused(name, data, fault, 0) for name, data, fault in DOCUMENT)
    yield from (refused(name, data, fault, 2) for name, data, fault in SECOND)
    yield from (refused(name, data, fault, 3) for name, data, fault in THIRD)
    yield from OTHER
