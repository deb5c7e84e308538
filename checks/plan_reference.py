"""What `cedr check` answers for the bytes of a plan, written as plainly as possible and apart from the program."""
import json
import math
import re

SIZE_LIMIT = 1_048_576
DEPTH_LIMIT = 127
NODE_LIMIT = 64
FIELD_LIMIT = 16
TEST_LIMIT = 16
LONGEST = 2**40
NAME = re.compile("[A-Za-z0-9_]{1,64}")
WHOLE = re.compile("-?[0-9]+")
TOKEN = re.compile(r'"(?:[^"\\]|\\.)*"|[\[\]{}]')
COMPARISONS = ("=", "!=", "<", "<=", ">", ">=")

# The kinds of fault.
TOO_LONG, BAD_JSON, MISSING_PART, UNKNOWN_OP, TOO_MANY, BAD_NUMBER, BAD_LEVEL = range(1, 8)
TWICE_NAMED, UNKNOWN_NODE, TOO_WIDE, BAD_COLUMN, TYPE_DIFFERS, NOT_ONE_OUTPUT, UNUSED = range(8, 15)


class Fault(Exception):
    """The kind of fault and its node, which is 0 for the document."""

    def __init__(self, kind: int, node: int) -> None:
        super().__init__(kind, node)
        self.kind, self.node = kind, node


def check(data: bytes) -> tuple[int, bytes, bytes]:
    """The exit status, standard output and standard error for a plan of these bytes."""
    try:
        if len(data) > SIZE_LIMIT:
            raise Fault(TOO_LONG, 0)
        rows = read_plan(read_json(data))
    except Fault as fault:
        return 2, b"", f"plan fault {fault.kind} node {fault.node}\n".encode()
    return 0, "".join(",".join(row) + "\n" for row in rows).encode(), b""


# The JSON text. Whole numbers of 64 bits are read as int, and all other numbers as float.


def read_json(data: bytes) -> object:
    """The value of a JSON text. Python's reader takes more than RFC 8259 has, and this is refused."""
    try:
        text = data.decode("utf-8")
        value = json.loads(text, parse_int=number, parse_float=number, parse_constant=no_number)
        depth = 0
        for token in TOKEN.findall(text):
            if token[0] == '"':
                json.loads(token).encode("utf-8")
            else:
                depth += 1 if token in ("[", "{") else -1
            if depth > DEPTH_LIMIT:
                raise Fault(BAD_JSON, 0)
        return value
    except (ValueError, RecursionError):
        raise Fault(BAD_JSON, 0) from None


def number(text: str) -> object:
    if WHOLE.fullmatch(text) and text != "-0" and len(text) <= 20 and -(2**63) <= int(text) < 2**64:
        return int(text)
    value = float(text)
    if math.isinf(value):
        raise ValueError
    return value


def no_number(text: str) -> object:
    """NaN and the two infinities aren't JSON."""
    raise ValueError


# The members. Each reader takes a value, and a list that it adds the kinds of its faults to. A member that isn't
# there is read as null, which is of no member's kind.


def a_text(value: object, faults: list) -> None:
    if type(value) is not str:
        faults.append(MISSING_PART)


def a_name(value: object, faults: list) -> None:
    if type(value) is not str or not NAME.fullmatch(value):
        faults.append(MISSING_PART)


def a_flag(value: object, faults: list) -> None:
    if type(value) is not bool:
        faults.append(MISSING_PART)


def a_type(value: object, faults: list) -> None:
    if value not in ("int", "text"):
        faults.append(MISSING_PART)


def ranged(least: int, most: int):
    def a_number(value: object, faults: list) -> None:
        if type(value) not in (int, float):
            faults.append(MISSING_PART)
        elif type(value) is float or not least <= value <= most:
            faults.append(BAD_NUMBER)

    return a_number


def listed(entry, most: int):
    def a_list(value: object, faults: list) -> None:
        if type(value) is not list:
            faults.append(MISSING_PART)
            return
        for one in value:
            entry(one, faults)
        if len(value) > most:
            faults.append(TOO_MANY)

    return a_list


def a_test(value: object, faults: list) -> None:
    if type(value) is not list or len(value) != 3:
        faults.append(MISSING_PART)
        return
    a_column(value[0], faults)
    if value[1] not in COMPARISONS:
        faults.append(MISSING_PART)
    which, side = right_side(value[2])
    {"column": a_column, "int": a_constant, "text": a_text}[which](side, faults)


def right_side(value: object) -> tuple:
    """Which member of a test's last entry counts, and its value."""
    for name in ("column", "int", "text"):
        if type(value) is dict and name in value:
            return name, value[name]
    return "column", None


def a_bound(value: object, faults: list) -> None:
    if value != "inf":
        ranged(0, LONGEST)(value, faults)


def a_level(value: object, faults: list) -> None:
    if type(value) is dict:
        block, memory = (value.get(name) for name in ("block", "memory"))
        found = []
        a_bound(block, found)
        a_bound(memory, found)
        if not found and float(block) > float(memory):
            found.append(BAD_LEVEL)
        faults += found
    else:
        a_text(value, faults)
        if value not in ("strong", "middle"):
            faults.append(BAD_LEVEL)


a_span = ranged(1, LONGEST)
a_column = ranged(0, 2**64 - 1)
a_constant = ranged(-(2**63), 2**63 - 1)
some_types = listed(a_type, FIELD_LIMIT)
some_columns = listed(a_column, SIZE_LIMIT)
some_tests = listed(a_test, TEST_LIMIT)

# For each operator of version 1 the least and the greatest number of ports, and the members beside name, op, from and
# level. In version 2 those of NEWER stand beside or in place of these. Optional members are looked at where they are there.
OPERATORS = {
    "source": (0, 0, {"file": a_text, "fields": some_types}),
    "select": (1, 1, {"where": some_tests}),
    "project": (1, 1, {"keep": some_columns}),
    "union": (2, 4, {}),
    "join": (2, 2, {"where": some_tests}),
    "window": (1, 1, {"width": a_span}),
    "shift": (1, 1, {"by": a_span}),
    "hop": (1, 1, {"every": a_span, "width": a_span}),
    "starts": (1, 1, {}),
    "ends": (1, 1, {}),
    "group": (1, 1, {"keys": some_columns, "count": a_flag, "sum": some_columns}),
    "sequence": (2, 4, {"scope": a_span, "where": some_tests}),
    "unless": (2, 2, {"scope": a_span, "hold": a_span, "where": some_tests}),
    "output": (1, 1, {}),
}
NEWER = {
    "group": (1, 1, {"keys": some_columns, "count": a_flag, "sum": some_columns, "least": some_columns,
                     "greatest": some_columns}),
    "atleast": (2, 4, {"number": ranged(1, 4), "scope": a_span, "where": some_tests}),
    "except": (2, 2, {"where": some_tests}),
}
OPTIONAL = ("least", "greatest")
JOINING = ("join", "sequence", "atleast")


def operators_of(document: dict) -> dict:
    """The operators of the document's version."""
    return {**OPERATORS, **NEWER} if document["version"] == 2 else OPERATORS


def own_members(operators: dict, node: dict) -> dict:
    """The members that the node's operator knows, with the empty array for one that may be missing."""
    return {name: node.get(name, []) if name in OPTIONAL else node[name] for name in operators[node["op"]][2]}


def read_plan(document: object) -> list:
    """The name, the operator and the field types of each node, or the first fault."""
    nodes = nodes_of(document)
    operators = operators_of(document)
    rows = {}
    for place, node in enumerate(nodes, 1):
        members_fault(operators, node, place)
        if node["name"] in rows:
            raise Fault(TWICE_NAMED, place)
        sources = [] if node["op"] == "source" else node["from"]
        if any(name not in rows or rows[name][1] == "output" for name in sources):
            raise Fault(UNKNOWN_NODE, place)
        types = result_types(node["op"], own_members(operators, node), [rows[name][2:] for name in sources], place)
        rows[node["name"]] = [node["name"], node["op"], *types]
    outputs = [place for place, node in enumerate(nodes, 1) if node["op"] == "output"]
    if len(outputs) != 1:
        raise Fault(NOT_ONE_OUTPUT, (outputs + [0, 0])[1])
    used = {name for node in nodes if node["op"] != "source" for name in node["from"]}
    for place, node in enumerate(nodes, 1):
        if node["op"] != "output" and node["name"] not in used:
            raise Fault(UNUSED, place)
    return list(rows.values())


def nodes_of(document: object) -> list:
    """The document's nodes, or its own fault."""
    faults = []
    members = document if type(document) is dict else {}
    version, nodes = members.get("version"), members.get("nodes")
    if type(version) is not int or version not in (1, 2):
        faults.append(MISSING_PART)
    listed(lambda node, found: None, NODE_LIMIT)(nodes, faults)
    if "edge" in members:
        ranged(1, 1_024)(members["edge"], faults)
    if faults:
        raise Fault(min(faults), 0)
    return nodes


def members_fault(operators: dict, node: object, place: int) -> None:
    """Raises the least of the faults that show in a node's members alone."""
    faults = []
    members = node if type(node) is dict else {}
    a_name(members.get("name"), faults)
    a_text(members.get("op"), faults)
    if not faults and members["op"] not in operators:
        faults.append(UNKNOWN_OP)
    if faults:
        raise Fault(min(faults), place)
    least, most, further = operators[members["op"]]
    if members["op"] != "source":
        ports = members.get("from")
        listed(a_text, most)(ports, faults)
        if type(ports) is list and len(ports) < least:
            faults.append(MISSING_PART)
        if "level" in members:
            a_level(members["level"], faults)
        if "number" in further and type(ports) is list:
            ranged(1, len(ports))(members.get("number"), faults)
    for name, reader in further.items():
        if name in members or name not in OPTIONAL:
            reader(members.get(name), faults)
    if faults:
        raise Fault(min(faults), place)


def result_types(op: str, members: dict, inputs: list, place: int) -> list:
    """The field types of a node's result from those of its inputs, or the fault of its width, columns and types."""
    counted = inputs[:1] * members["number"] if op == "atleast" else inputs
    joined = [one for types in counted for one in types]
    kept = {"project": "keep", "group": "keys"}.get(op)
    kept = members[kept] if kept else []
    sums = members["sum"] if op == "group" else []
    numbers = ["int"] * (len(sums) + (op == "group" and members["count"]))
    extremes = [column for name in OPTIONAL for column in members.get(name, [])]
    width = len(joined) if op in JOINING else len(kept) + len(numbers) + len(extremes)
    if width > FIELD_LIMIT:
        raise Fault(TOO_WIDE, place)
    tests = [(left, *right_side(right)) for left, _, right in members.get("where", [])]
    columns = kept + sums + extremes + [test[0] for test in tests] + [test[2] for test in tests if test[1] == "column"]
    if any(column >= len(joined) for column in columns):
        raise Fault(BAD_COLUMN, place)
    differ = any(joined[left] != (joined[side] if which == "column" else which) for left, which, side in tests)
    differ |= any(joined[column] == "text" for column in sums)
    differ |= op in ("union", "atleast") and any(types != inputs[0] for types in inputs)
    if differ:
        raise Fault(TYPE_DIFFERS, place)
    if op == "source":
        return members["fields"]
    if op in ("project", "group"):
        return [joined[column] for column in kept] + numbers + [joined[column] for column in extremes]
    return joined if op in JOINING else inputs[0]
