"""Plans, the files of their sources and scripts for them, made at random so that their rows meet."""
import math
import random

import nodes
import random_files
import random_plans
from messages import FOREVER, in_one_list, sync, table_of
from query_reference import output_place
from reference import Judge, fields_of, judged, number_of, time_of

MOST_FIELDS = 16
MOST_ROWS = 300
MOST_CHOICES = 10_000
PAIRING = ("join", "sequence", "unless", "atleast", "except")
TYPES = [[], ["text"], ["text"], ["int"], ["text", "int"], ["text", "int"], ["int", "int", "text"]]
TEXTS = [b"a", b"a", b"b", b"", b"a,b", b'"', b"\xff", b"inf"]
NUMBERS = [b"0", b"0", b"1", b"-1", b"007", b"9223372036854775807", b"-9223372036854775808"]
LENGTHS = [0] + [6, 10, 16, 24, 40] * 4
SPANS = [1, 2, 3, 5, 8, 13, 20, 40]
WRONG_NUMBERS = [b"", b"-", b"--1", b"+1", b"1.0", b" 1", b"x", b"9223372036854775808", b"-9223372036854775809",
                 b"\xd9\xa1"]


class Maker(random_plans.Maker):
    """Makes plans of few columns and short spans. Some of them read a file by two sources."""

    def __init__(self, rng: random.Random) -> None:
        super().__init__(rng)
        self.weak = rng.random() < 0.6

    def add(self, op: str, ports: list, types: list, **members) -> None:
        super().add(op, ports, types, **members)
        if ports and self.rng.random() < 0.3:
            self.nodes[-1].setdefault("level", self.level())

    def source(self) -> None:
        before = [node for node in self.nodes if node["op"] == "source"]
        if before and self.rng.random() < 0.1:
            again = self.rng.choice(before)
            self.add("source", [], again["fields"], file=again["file"], fields=again["fields"])
        else:
            types = self.rng.choice(TYPES)
            self.add("source", [], types, file=f"s{len(self.nodes)}.csv", fields=types)

    def merge(self, ports: list) -> None:
        """Any operator that takes them both."""
        first, joined = self.types[ports[0]], self.joined(ports)
        ways = [("unless", first, {"scope": self.span(), "hold": self.span(), "where": self.tests(joined)})]
        if len(joined) <= MOST_FIELDS:
            ways.append(("join", joined, {"where": self.tests(joined)}))
            ways.append(("sequence", joined, {"scope": self.span(), "where": self.tests(joined)}))
        if first == self.types[ports[1]]:
            ways += [("union", first, {})] * 3
        if self.version == 2:
            ways += self.newer_ways(ports)
        op, types, members = self.rng.choice(ways)
        self.add(op, ports, types, **members)

    def newer_ways(self, ports: list) -> list:
        first = self.types[ports[0]]
        ways = [("except", first, {"where": self.tests(self.joined(ports))})] * 2
        if first == self.types[ports[1]]:
            number = self.number(ports)
            members = {"number": number, "scope": self.span(), "where": self.tests(first * number)}
            ways += [("atleast", first * number, members)] * 3
        return ways

    def span(self) -> int:
        return self.rng.choice(SPANS) if self.rng.random() < 0.95 else random_plans.LONGEST

    def level(self) -> object:
        bounds = [0, 1, 3, 8, 20, "inf"]
        block, memory = sorted(self.rng.choices(range(6), k=2))
        kinds = ["strong", "middle", {"block": bounds[block], "memory": "inf"}]
        return self.rng.choice(kinds + [{"block": bounds[block], "memory": bounds[memory]}] * (5 * self.weak))

    def tests(self, types: list) -> list:
        return [self.test(types) for _ in range(self.rng.choice([0, 0, 1, 1, 1, 2]))] if types else []

    def test(self, types: list) -> list:
        left, comparison, side = super().test(types)
        return [left, self.rng.choice([comparison, "!=", "<=", ">=", "="]), side]


class SavedMaker(Maker):
    """Makes plans whose ports are strong or middle, in any mix: those that can be saved."""

    def level(self) -> object:
        unlimited = {"block": "inf", "memory": "inf"}
        return self.rng.choice(["strong", "middle", unlimited, {"block": 0, "memory": "inf"}])


class SourceFile(random_files.RandomFile):
    """Makes the lines of a source of these types, whose times are from a base on."""

    def __init__(self, rng: random.Random, types: list, span: int, base: int, values: dict) -> None:
        super().__init__(rng, span)
        self.types, self.base, self.by_type = types, base, values

    def payload(self) -> list:
        return [self.rng.choice(self.by_type[one]) for one in self.types]

    def good_line(self) -> bytes:
        return self.guarantee() if self.rng.random() < 0.1 else super().good_line()

    def guarantee(self) -> bytes:
        """Times move on with the guarantees."""
        line = super().guarantee()
        self.base = min(self.mark, FOREVER - 2 * self.span)
        return line

    def insertion(self) -> bytes:
        """One in six has the interval of an earlier one, and often its payload."""
        if self.events and self.rng.random() < 1 / 6:
            return self.repeated()
        return super().insertion()

    def repeated(self) -> bytes:
        begin, end, _ = self.rng.choice(list(self.events.values()))
        if begin < self.mark or begin >= end:
            return b"\n"
        return self.event(b"+", 1_000 + len(self.events), begin, end, self.payload())

    def odd_line(self) -> bytes:
        if "int" in self.types and self.rng.random() < 0.4:
            payload = self.payload()
            payload[self.types.index("int")] = self.rng.choice(WRONG_NUMBERS)
            kind = self.rng.choice([b"+", b"~"])
            return self.text([kind, b"5000", self.number(self.base), self.number(FOREVER), *payload])
        return super().odd_line()


def random_network(rng: random.Random, odd: float = 0, maker: type = Maker) -> dict:
    """A plan and the files of its sources, with this chance of odd lines. Tables are small, few answers are empty."""
    while True:
        document = maker(rng).document()
        document["edge"] = rng.choice([1, 1, 2, 64])
        data = random_plans.json_text(document).encode()
        plan = nodes.read_nodes(data)
        sources = [node for node in plan if node.op == "source"]
        makers = source_makers(rng, sources)
        files = {node.members["file"]: maker.lines(rng.choice(LENGTHS), odd)
                 for node, maker in zip(sources, makers)}
        answer = small_answer(plan, [files[node.members["file"]] for node in sources])
        if answer or (answer is not None and rng.random() < 0.2):
            return {"plan.json": data, **files}


def remembering_network(rng: random.Random) -> dict:
    """The same, where no port has a finite memory, so that the answer knows no order of arrival."""
    while True:
        files = random_network(rng)
        if not any(node.forgets for node in nodes.read_nodes(files["plan.json"])):
            return files


def source_makers(rng: random.Random, sources: list, maker: type = SourceFile) -> list:
    """A maker of lines for each source, with few values and with times in one range, which may be the last there is."""
    span = rng.choice([8, 20, 40])
    base = rng.choice([0] * 7 + [FOREVER - 2 * span])
    values = {"text": rng.choices(TEXTS, k=3), "int": rng.choices(NUMBERS, k=3)}
    return [maker(rng, node.types, span, base, values) for node in sources]


def small_answer(plan: list, contents: list):
    """The output's table over these files, or none where a table is large or takes long."""
    tables, sources = [], iter(contents)
    for node in plan:
        if node.op == "source":
            answers, _ = judged(next(sources), Judge(node.types).take)
            tables.append(table_of(in_one_list(answers)))
            continue
        ports = [tables[place] for place in node.inputs]
        pairs = math.prod(1 + len(port) for port in ports) if node.op in PAIRING else 0
        if pairs > MOST_CHOICES:
            return None
        tables.append(nodes.result(node, ports))
        if sum(tables[-1].values()) > MOST_ROWS:
            return None
    return tables[output_place(plan)]


def random_script(rng: random.Random, odd: float = 0, maker: type = Maker) -> dict:
    """A plan, and a script whose sources' lines come in any order, with a `?` here and there."""
    data = random_network(rng, maker=maker)["plan.json"]
    sources = [node for node in nodes.read_nodes(data) if node.op == "source"]
    makers = source_makers(rng, sources)
    text = b"".join(script_line(rng, sources, makers, odd) for _ in range(rng.choice(LENGTHS)))
    if rng.random() < 0.2:
        return {"plan.json": data, "x.txt": text.removesuffix(b"\n")}
    ends = [node.name.encode() + b",=,inf\n" for node in sources if rng.random() < 0.4]
    return {"plan.json": data, "x.txt": text + b"?\n" + b"".join(ends) + b"?\n"}


def script_line(rng: random.Random, sources: list, makers: list, odd: float) -> bytes:
    kind = rng.random()
    if kind < 0.25:
        return rng.choice([b"?\n", b"?\n", b"?\r\n"])
    source = rng.randrange(len(sources))
    name, maker = sources[source].name.encode(), makers[source]
    event = maker.odd_line() if rng.random() < odd else maker.good_line()
    if rng.random() < odd / 4:
        return rng.choice([b"none,=,1\n", b"??\n", b" ?\n", b"?,\n", name + b"\n", name + b",\n", b"," + event, event])
    return event if event in (b"\n", b"\r\n") else name + b"," + event


def shuffled(rng: random.Random, data: bytes) -> bytes:
    """The lines of an accepted file in another order that its guarantees allow.

    The lines of one event keep their order, and whatever has a sync below a guarantee stays before it.
    """
    judge = Judge()
    left = [line_parts(line, judge.take(line)) for line in data.splitlines() if line]
    order = []
    while left:
        ready = [place for place, one in enumerate(left) if not any(precedes(other, one) for other in left[:place])
                 and not any(precedes(other, one) for other in left[place + 1 :] if one[1] is None)]
        order.append(left.pop(rng.choice(ready))[0])
    return b"".join(line + b"\n" for line in order)


def line_parts(line: bytes, messages: list) -> tuple:
    """A line with these messages, the id of its event, which a guarantee has not, and its sync or time."""
    kind, first, *_ = fields_of(line)
    if kind == b"=":
        return line, None, time_of(first)
    return line, number_of(first, 2**64), min(map(sync, messages))


def precedes(one: tuple, other: tuple) -> bool:
    """One that stands before the other has to stay there: it is of the same event, or its sync is below a guarantee."""
    if other[1] is None:
        return one[1] is not None and one[2] < other[2]
    return one[1] == other[1]
