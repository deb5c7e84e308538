"""Plans whose nodes all keep one key, and the files of their sources, made at random so that their rows meet."""
import random

import nodes
import random_networks
import random_plans

LENGTHS = [6, 10, 16, 24, 40, 60]
SPELT = {b"0": [b"0", b"00", b"-0"], b"1": [b"1", b"01"], b"-1": [b"-1", b"-001"], b"7": [b"7", b"007"]}
NUMBERS = [*SPELT, b"8", b"-8", b"1000000000000", b"19"]
TEXTS = [b"a", b"b", b"c", b"", b"a,b", b'"', b"\xff", b"inf", b"7", b"007", b" 7", b"\x00", b"-0", b"="]
TYPES = [[], [], ["text"], ["int"], ["int", "text"]]


class Maker(random_networks.Maker):
    """Makes a plan each of whose nodes has a key column, of one type. The operators that put rows of several ports together have
    tests that tie the keys, and a projection and a grouping keep it."""

    def __init__(self, rng: random.Random) -> None:
        super().__init__(rng)
        self.weak = False
        self.kind = rng.choice(["int", "text"])
        self.column_of = {}

    def keyed(self, column: int, op: str, ports: list, types: list, **members) -> None:
        self.add(op, ports, types, **members)
        self.column_of[self.nodes[-1]["name"]] = column

    def source(self) -> None:
        types = list(self.rng.choice(TYPES))
        column = self.rng.randint(0, len(types))
        types.insert(column, self.kind)
        self.keyed(column, "source", [], types, file=f"s{len(self.nodes)}.csv", fields=types)

    def operator(self, op: str) -> None:
        if op in ("join", "sequence", "unless", "except"):
            return self.meet(op, [self.port() for _ in range(self.rng.choice([2, 2, 3]) if op == "sequence" else 2)])
        if op in ("union", "atleast"):
            return self.alike(op, self.port())
        port = self.port()
        types, column = self.types[port], self.column_of[port]
        if op in ("project", "group"):
            return self.kept(op, port, types, column)
        spans = {"window": ["width"], "shift": ["by"], "hop": ["every", "width"]}.get(op, [])
        members = {"where": self.tests(types)} if op == "select" else {name: self.span() for name in spans}
        return self.keyed(column, op, [port], types, **members)

    def kept(self, op: str, port: str, types: list, column: int) -> None:
        """A projection, or a grouping, that keeps the key somewhere among its columns."""
        keep = self.columns(types)[:2]
        place = self.rng.randint(0, len(keep))
        keep.insert(place, column)
        if op == "project":
            return self.keyed(place, op, [port], [types[one] for one in keep], keep=keep)
        members, made = self.group(types)
        made = [types[one] for one in keep] + made[len(members["keys"]) :]
        return self.keyed(place, op, [port], made, **{**members, "keys": keep})

    def alike(self, op: str, *ports: str) -> None:
        """A union or an atleast of these ports and others that have their types and their key column."""
        types, column = self.types[ports[0]], self.column_of[ports[0]]
        others = [name for name in self.types if (self.types[name], self.column_of[name]) == (types, column)]
        ports = [*ports, *self.rng.choices(others, k=self.rng.choice([1, 1, 2]))]
        if op == "union":
            return self.keyed(column, op, ports, types)
        number = self.number(ports)
        keys = [len(types) * copy + column for copy in range(number)]
        where = self.tied(keys, types * number)
        return self.keyed(self.rng.choice(keys), op, ports, types * number, number=number, scope=self.span(), where=where)

    def merge(self, ports: list) -> None:
        one, other = ((self.types[port], self.column_of[port]) for port in ports)
        if one == other and self.rng.random() < 0.6:
            return self.alike(self.rng.choice(["union"] + ["atleast"] * (self.version - 1)), *ports)
        return self.meet(self.rng.choice(["join", "sequence", "unless"] + ["except"] * (self.version - 1)), ports)

    def meet(self, op: str, ports: list) -> None:
        """What puts rows of several ports together that have one key."""
        if op in ("join", "sequence") and len(self.joined(ports)) > random_networks.MOST_FIELDS:
            op, ports = "unless", ports[:2]
        joined, keys = self.joined(ports), []
        for place, port in enumerate(ports):
            keys.append(len(self.joined(ports[:place])) + self.column_of[port])
        spans = {"sequence": ["scope"], "unless": ["scope", "hold"]}.get(op, [])
        members = {name: self.span() for name in spans}
        whole = op in ("join", "sequence")
        column, types = (self.rng.choice(keys), joined) if whole else (keys[0], self.types[ports[0]])
        self.keyed(column, op, ports, types, where=self.tied(keys, joined), **members)

    def tied(self, keys: list, types: list) -> list:
        """Tests that want the keys to be equal, and others."""
        ties = []
        for place, key in enumerate(keys[1:], 1):
            one, other = self.rng.sample([key, self.rng.choice(keys[:place])], 2)
            ties.append([one, "=", {"column": other}])
        tests = ties + self.tests(types)[:1]
        return self.rng.sample(tests, len(tests))


class SourceFile(random_networks.SourceFile):
    """Makes lines of which some spell a number with zeros in front, or with a sign that it doesn't need."""

    def payload(self) -> list:
        return [self.rng.choice(SPELT.get(field, [field])) if one == "int" else field
                for one, field in zip(self.types, super().payload())]


def keyed_network(rng: random.Random, odd: float = 0) -> dict:
    """A keyed plan and the files of its sources, with this chance of odd lines. Few answers are empty."""
    while True:
        data = random_plans.json_text(Maker(rng).document()).encode()
        plan = nodes.read_nodes(data)
        sources = [node for node in plan if node.op == "source"]
        values = {"int": rng.choices(NUMBERS, k=5), "text": rng.choices(TEXTS, k=5)}
        span = rng.choice([8, 20, 40])
        files = {node.members["file"]: SourceFile(rng, node.types, span, 0, values).lines(rng.choice(LENGTHS), odd)
                 for node in sources}
        answer = random_networks.small_answer(plan, [files[node.members["file"]] for node in sources])
        if answer or (answer is not None and rng.random() < 0.1):
            return {"plan.json": data, **files}
