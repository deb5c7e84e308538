"""Plans made at random: ones that are accepted, most of them with one or two things changed."""
import json
import random
from typing import NamedTuple

LONGEST = 2**40
SPANS = [1, 2, 60, 3_600, LONGEST]
COMPARISONS = ["=", "!=", "<", "<=", ">", ">="]
OPERATORS = ["select", "project", "union", "join", "window", "shift", "hop", "starts", "ends", "group", "sequence",
             "unless"]
NEWER = ["atleast", "except"]
BYTES = [b'"', b",", b":", b"[", b"]", b"{", b"}", b"\\", b"0", b"-", b".", b"e", b" ", b"\n", b"\x00", b"\x80",
         b"\xef\xbb\xbf"]


class Raw(str):
    """A piece of JSON text that stands as it is."""


class Twice(NamedTuple):
    """The values of a member that stands twice."""

    first: object
    last: object


ODD = [None, True, False, "", "x", "s", "int", "inf", "strong", "=", [], {}, [0], ["text"], {"column": 0}, {"int": 1},
       0, 1, 2, 15, 16, 17, -1, LONGEST, LONGEST + 1, 2**63 - 1, 2**63, 2**64 - 1, 2**64, -(2**63), -(2**63) - 1,
       *map(Raw, ["-0", "1.0", "0.0", "1e0", "2E+1", "1e-400", "9e99", "1e400", "NaN", "01", '"\\u0073"', '"\\ud800"'])]
NO_COLUMNS = [None, 7, "x", {}, [-1], [0.5], ["0"], [99]]
WORDS = ["version", "nodes", "edge", "name", "op", "from", "level", "file", "fields", "where", "keep", "width", "by",
         "every", "keys", "count", "sum", "least", "greatest", "scope", "hold", "number", "block", "memory", "column", "int", "text", "more", ""]


def random_plan(rng: random.Random) -> bytes:
    document = Maker(rng).document()
    for _ in range(rng.choice([0, 1, 1, 1, 1, 2, 2])):
        rng.choice(CHANGES)(rng, document)
    data = json_text(document).encode()
    return spoilt(rng, data) if rng.random() < 0.05 else data


def json_text(value: object) -> str:
    if isinstance(value, Raw):
        return value
    if isinstance(value, dict):
        members = [(name, each) for name, one in value.items() for each in (one if isinstance(one, Twice) else [one])]
        return "{" + ",".join(f"{json.dumps(name)}:{json_text(one)}" for name, one in members) + "}"
    if isinstance(value, list):
        return "[" + ",".join(map(json_text, value)) + "]"
    return json.dumps(value)


class Maker:
    """Makes an accepted plan, and knows the types of its nodes' results and which of them no node names yet."""

    def __init__(self, rng: random.Random) -> None:
        self.rng = rng
        self.version = rng.choice([1, 2, 2])
        self.nodes = []
        self.types = {}
        self.unused = []

    def document(self) -> dict:
        for _ in range(self.rng.choice([1, 1, 2, 2, 3])):
            self.source()
        for _ in range(self.rng.choice([0, 1, 1, 2, 3, 4, 6])):
            self.operator(self.rng.choice(OPERATORS + NEWER * (self.version - 1)))
        while len(self.unused) > 1:
            self.merge(self.unused[:2])
        self.add("output", self.unused[:1], [])
        edge = {"edge": self.rng.choice([1, 64, 1_024])} if self.rng.random() < 0.2 else {}
        return self.mixed({"version": self.version, **edge, "nodes": self.nodes})

    def merge(self, ports: list) -> None:
        self.add("unless", ports, self.types[ports[0]], scope=60, hold=1, where=self.tests(self.joined(ports)))

    def mixed(self, members: dict) -> dict:
        return dict(self.rng.sample(list(members.items()), len(members))) if self.rng.random() < 0.3 else members

    def add(self, op: str, ports: list, types: list, **members) -> None:
        name = self.rng.choice([f"n{len(self.nodes)}", op + str(len(self.nodes)), "_" * (1 + len(self.nodes))])
        node = {"name": name, "op": op, **({"from": ports} if ports else {}), **members}
        if ports and self.rng.random() < 0.25:
            node["level"] = self.level()
        self.nodes.append(self.mixed(node))
        self.types[name] = types
        self.unused = [other for other in self.unused if other not in ports] + [name]

    def source(self) -> None:
        types = [self.rng.choice(["int", "text"]) for _ in range(self.rng.choice([0, 1, 2, 2, 3, 3, 5, 16]))]
        self.add("source", [], types, file=self.rng.choice(["a.csv", "", "\u00e9"]), fields=types)

    def operator(self, op: str) -> None:
        count = {"join": 2, "unless": 2, "except": 2, "sequence": self.rng.choice([2, 3, 4])}.get(op, 1)
        ports = [self.port() for _ in range(count)]
        types = self.types[ports[0]]
        if op in ("join", "sequence") and len(self.joined(ports)) > 16:
            op, ports = "unless", ports[:2]
        joined = self.joined(ports)
        if op in ("union", "atleast"):
            alike = [name for name in self.types if self.types[name] == types]
            ports += self.rng.choices(alike, k=self.rng.choice([1, 2, 3]))
        members = {name: self.span() for name in {"window": ["width"], "shift": ["by"], "hop": ["every", "width"],
                   "sequence": ["scope"], "unless": ["scope", "hold"], "atleast": ["scope"]}.get(op, [])}
        if op == "atleast":
            members["number"] = self.number(ports)
            joined = types * members["number"]
        if op in ("select", "join", "sequence", "unless", "atleast", "except"):
            members["where"] = self.tests(joined)
        if op == "project":
            members["keep"] = self.columns(types)
            types = [types[column] for column in members["keep"]]
        if op == "group":
            members, types = self.group(types)
        self.add(op, ports, joined if op in ("join", "sequence", "atleast") else types, **members)

    def number(self, ports: list) -> int:
        """How many of the ports, so that the result has at most 16 fields."""
        return self.rng.randint(1, min(len(ports), 16 // max(1, len(self.types[ports[0]]))))

    def group(self, types: list) -> tuple:
        """The members of a group and the types of its result. In version 1 its further members say nothing."""
        keys, count, sums = self.columns(types), self.rng.random() < 0.7, self.columns(types, "int")
        further = {name: self.columns(types) for name in ("least", "greatest") if self.rng.random() < 0.7}
        extremes = [column for name in ("least", "greatest") for column in further.get(name, [])]
        made = [types[column] for column in keys] + ["int"] * (count + len(sums))
        if self.version == 2:
            made += [types[column] for column in extremes]
        elif further and self.rng.random() < 0.5:
            further = dict.fromkeys(further, self.rng.choice(NO_COLUMNS))
        return {"keys": keys, "count": count, "sum": sums, **further}, made

    def port(self) -> str:
        return self.rng.choice(self.unused if self.rng.random() < 0.8 else list(self.types))

    def joined(self, ports: list) -> list:
        return [one for port in ports for one in self.types[port]]

    def span(self) -> int:
        return self.rng.choice(SPANS)

    def level(self) -> object:
        bounds = [0, 5, 5, 9, LONGEST, "inf"]
        block, memory = sorted(self.rng.choices(range(6), k=2))
        return self.rng.choice(["strong", "middle", {"block": bounds[block], "memory": bounds[memory]}])

    def columns(self, types: list, kind: str = "") -> list:
        places = [place for place, one in enumerate(types) if kind in ("", one)]
        return self.rng.choices(places, k=self.rng.choice([0, 1, 1, 2, 3])) if places else []

    def tests(self, types: list) -> list:
        return [self.test(types) for _ in range(self.rng.choice([0, 1, 1, 2, 16]))] if types else []

    def test(self, types: list) -> list:
        left = self.rng.randrange(len(types))
        right = self.rng.choice([place for place, one in enumerate(types) if one == types[left]])
        constant = {"int": self.rng.choice([0, -1, 2**63 - 1, -(2**63)])} if types[left] == "int" else {"text": "a"}
        return [left, self.rng.choice(COMPARISONS), self.rng.choice([{"column": right}, constant])]


def places(value: object) -> list:
    """Every list and object in the value, with the index or the name of each of its parts."""
    if not isinstance(value, (list, dict)):
        return []
    parts = list(value.items() if isinstance(value, dict) else enumerate(value))
    return [(value, key) for key, _ in parts] + [place for _, part in parts for place in places(part)]


def part_of(rng: random.Random, document: dict, kind: type) -> tuple:
    """A list or object in which a part of this kind stands, and where; the list of nodes if there is none."""
    document.setdefault("nodes", [])
    found = [(value, key) for value, key in places(document) if type(value[key]) is kind]
    return rng.choice(found or [(document, "nodes")])


def replace(rng: random.Random, document: dict) -> None:
    value, key = rng.choice(places(document))
    value[key] = rng.choice(ODD)


def renumber(rng: random.Random, document: dict) -> None:
    value, key = part_of(rng, document, int)
    value[key] = rng.choice([one for one in ODD if type(one) in (int, Raw)])


def leave_out(rng: random.Random, document: dict) -> None:
    value, key = rng.choice(places(document))
    del value[key]


def say_twice(rng: random.Random, document: dict) -> None:
    value, key = rng.choice([place for place in places(document) if type(place[0]) is dict])
    odd = rng.choice(ODD)
    value[key] = rng.choice([Twice(odd, value[key]), Twice(value[key], odd)])


def lengthen(rng: random.Random, document: dict) -> None:
    value, key = part_of(rng, document, list)
    if type(value[key]) is list:
        value[key] = (value[key] * 65)[: rng.choice([len(value[key]) + 1, 3, 5, 16, 17, 17, 17, 64, 65])]


def step_number(rng: random.Random, document: dict) -> None:
    """A number that is a little more or less than it was, as columns past the end or of the other type are."""
    value, key = part_of(rng, document, int)
    if type(value[key]) is int:
        value[key] += rng.choice([-1, 1, 1, 2])


def widen(rng: random.Random, document: dict) -> None:
    for node in nodes_of(document):
        if node.get("op") in ("source", "project", "group"):
            name = {"source": "fields", "project": "keep", "group": rng.choice(["keys", "least"])}[node["op"]]
            node[name] = rng.choices(["int", "text"] if name == "fields" else [0, 1], k=rng.choice([9, 16, 17]))


def change_node(rng: random.Random, document: dict) -> None:
    nodes = nodes_of(document)
    if not nodes:
        return
    one, other = rng.choice(nodes), rng.choice(nodes)
    changed = rng.randrange(8)
    if changed == 0:
        one["name"] = other.get("name")
    elif changed <= 2:
        one["from"] = [rng.choice(nodes).get("name") for _ in range(rng.choice([1, 1, 2, 2, 3]))]
    elif changed <= 4:
        one["op"] = rng.choice(OPERATORS + NEWER + ["source", "output", "Select", ""])
    elif changed == 5:
        one["level"] = rng.choice(["weak", "strong", {"block": 6, "memory": 5}, {"block": "inf", "memory": 1}])
    elif changed == 6:
        one[rng.choice(WORDS)] = rng.choice(ODD)
    else:
        one["fields"] = rng.choices(["int", "text"], k=rng.choice([1, 2, 3, 9, 16, 17]))


def change_order(rng: random.Random, document: dict) -> None:
    """Nodes in another order, or one of them once more or left out."""
    nodes = nodes_of(document)
    if nodes:
        at, to = rng.randrange(len(nodes)), rng.randrange(len(nodes) + 1)
        node = rng.choice([nodes.pop(at), {**nodes[at - 1], "name": "copied"}])
        document["nodes"] = nodes[:to] + rng.choice([[node], [node], []]) + nodes[to:]


def nodes_of(document: dict) -> list:
    nodes = document.get("nodes")
    return [node for node in nodes if type(node) is dict] if type(nodes) is list else []


CHANGES = [replace, renumber, leave_out, say_twice, lengthen, lengthen, step_number, step_number, step_number, widen,
           change_node, change_node, change_node, change_node, change_order]


def spoilt(rng: random.Random, data: bytes) -> bytes:
    """The bytes with one left out, put in or put in place of another."""
    at = rng.randrange(len(data))
    left_out = rng.randrange(2)
    return data[:at] + rng.choice(BYTES + [b""]) + data[at + left_out :]
