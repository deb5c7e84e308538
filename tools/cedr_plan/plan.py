"""All statements of a text as a plan: its document, the columns of its nodes, and where each node stands in the text."""
from __future__ import annotations

from typing import NamedTuple

from cedr_explain.language import MOST_NODES, OPERATORS, PLAN_BYTES, VERSIONS
from cedr_plan import form, pattern
from cedr_plan.document import laid_out
from cedr_plan.node import Maker
from cedr_plan.refused import MOST_TOLD, Refused
from cedr_plan.text import Statement, statements
from cedr_plan.tree import File, Node, Pattern, Setting
from cedr_plan.tests import whole
from cedr_plan.units import Calendar, moment_of, unit_named

MOST_EDGE = 1_024


class Found(Exception):
    """The faults of a text."""

    def __init__(self, faults: list) -> None:
        super().__init__(faults)
        self.faults = faults


class Plan(NamedTuple):
    """`places` has where each node's statement begins, and `files` where the file of each source stands."""
    document: dict
    columns: dict
    places: list
    files: dict
    calendar: Calendar | None

    def text(self) -> str:
        return laid_out(self.document)

    def output(self) -> dict:
        return next(node for node in self.document["nodes"] if node["op"] == "output")

    def output_columns(self) -> list:
        return self.columns[self.output()["name"]]


def compiled(text: str) -> Plan:
    """The plan of a text. Raises Found with all faults of a text that has some."""
    found = list(statements(text))
    reader = Reader(frozenset(map(form.name_of, found)))
    for statement in found:
        reader.take(statement)
        if len(reader.faults) >= MOST_TOLD or len(reader.nodes) > MOST_NODES:
            break
    return reader.plan(text)


class Reader:
    """Takes the statements one after the other. A node that reads a faulty one isn't looked at any more."""

    def __init__(self, names: frozenset) -> None:
        self.maker, self.faults, self.faulty = Maker(names), [], set()
        self.settings, self.nodes, self.places, self.files, self.patterns = {}, [], [], {}, []

    def take(self, statement: Statement) -> None:
        try:
            read = form.read(statement)
            if isinstance(read, Setting):
                self.set(read)
            elif isinstance(read, Pattern):
                self.patterns.append(read)
            else:
                self.node(read)
        except Refused as fault:
            self.faults.append(fault)
            self.faulty.add(form.name_of(statement))

    def set(self, setting: Setting) -> None:
        word, value = setting
        if word.text in self.settings:
            raise Refused(word.place, f"`{word.text}` stands twice. A plan says it once.")
        if self.nodes and word.text == "unit":
            raise Refused(word.place, "The `unit` stands above the nodes, whose spans it is for.")
        if word.text == "version":
            kept = whole(value, min(VERSIONS), max(VERSIONS)) if value.kind == "NUMBER" else self.wrong(value, "a number")
        elif word.text == "edge":
            kept = whole(value, 1, MOST_EDGE) if value.kind == "NUMBER" else self.wrong(value, "a number")
        elif word.text == "unit":
            kept = self.maker.unit = unit_named(value)
        else:
            kept = moment_of(value)
        self.settings[word.text] = kept, word.place

    def wrong(self, value, right: str) -> None:
        raise Refused(value.place, f"{value.text} stands here. It must be {right}.")

    def node(self, node: Node) -> None:
        if self.reads_faulty(node):
            self.faulty.add(node.name.text)
            return
        self.add(node, self.maker.nodes(node))

    def add(self, node: Node, made: list) -> None:
        """Takes the nodes of the document that a statement stands for."""
        self.nodes += made
        self.places += [node.name.place] * len(made)
        if isinstance(node.subject, File):
            self.files[node.name.text] = node.subject.file.place
        if len(self.nodes) > MOST_NODES:
            raise Refused(node.name.place, f"This is node {MOST_NODES + 1} of the plan, and it may have {MOST_NODES}.")

    def reads_faulty(self, node: Node) -> bool:
        inputs = getattr(node.subject, "inputs", node.subject)
        return isinstance(inputs, list) and any(one.name.text in self.faulty for one in inputs)

    def plan(self, text: str) -> Plan:
        for one in self.patterns if not self.faults else []:
            self.of_pattern(one)
        try:
            if not self.faults:
                self.check_whole(text)
        except Refused as fault:
            self.faults.append(fault)
        if self.faults:
            raise Found(self.faults)
        version = {"version": self.version()}
        edge = {"edge": self.settings["edge"][0]} if "edge" in self.settings else {}
        plan = Plan({**version, **edge, "nodes": self.nodes}, self.maker.columns, self.places, self.files, self.calendar())
        if len(plan.text().encode()) > PLAN_BYTES:
            raise Found([Refused(0, f"The document would have over {PLAN_BYTES:,} bytes.")])
        return plan

    def of_pattern(self, one: Pattern) -> None:
        """A pattern stands for nodes behind all others of the text."""
        try:
            for node, made in pattern.nodes_of(one, self.maker):
                self.add(node, [made])
        except Refused as fault:
            self.faults.append(fault)

    def version(self) -> int:
        return self.settings["version"][0] if "version" in self.settings else max([1, *map(least_version, self.nodes)])

    def calendar(self) -> Calendar | None:
        if "epoch" not in self.settings:
            return None
        if "unit" not in self.settings:
            raise Found([Refused(self.settings["epoch"][1], "An `epoch` needs a `unit`, which says what times count from then on: unit second.")])
        return Calendar(self.settings["epoch"][0], self.settings["unit"][0])

    def check_whole(self, text: str) -> None:
        """What no single statement shows: one output, a use for each node, and a version that has all that is used."""
        end = len(text.rstrip())
        if not self.nodes:
            raise Refused(0, "The text has no node. A plan in words is a line for each node, as in docs/words.md: "
                             'reports = source "reports.csv" (machine text, load int).')
        outputs = [place for node, place in zip(self.nodes, self.places) if node["op"] == "output"]
        unused = self.unused()
        if not outputs:
            last = unused[-1][0] if unused else self.nodes[-1]["name"]
            raise Refused(end, f"No node is the output, which hands out the answer. Write a last line: out = output {last}.")
        if len(outputs) > 1:
            raise Refused(outputs[1], "This is a second output, and a plan has one. A `union` makes one answer of up to four; for two answers "
                                      "write two plans.")
        if unused:
            name, place = unused[0]
            raise Refused(place, f"No node reads `{name}`, so it says nothing to the answer. Let a later node read it, or take it out.")
        self.check_version()

    def unused(self) -> list:
        used = {name for node in self.nodes for name in node.get("from", [])}
        return [(node["name"], place) for node, place in zip(self.nodes, self.places)
                if node["name"] not in used and node["op"] != "output"]

    def check_version(self) -> None:
        if "version" not in self.settings:
            return
        version, place = self.settings["version"]
        for node in self.nodes:
            if least_version(node) > version:
                what = f"the {node['op']} `{node['name']}`"
                raise Refused(place, f"Version {version} hasn't all that {what} says. Write version {least_version(node)}, or leave this line out: "
                                     "then the document has the least version that does.")


def least_version(node: dict) -> int:
    """The first version of the plan language that has all that a node says."""
    extreme = {name for name, member in OPERATORS[node["op"]].members.items() if member.optional}
    return max(OPERATORS[node["op"]].version, 2 if extreme & set(node) else 1)
