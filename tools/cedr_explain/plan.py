"""The faults of a plan, each with its place and its sentence.

A plan is read in the order of the program's own faults: the document, the nodes one after the other up to the first
faulty one, and then what the nodes are to each other."""
from __future__ import annotations

from typing import Iterator

import cedr_explain.advice as advice
from cedr_explain.json_text import NoJson, Value, decoded, read
from cedr_explain.language import (BAD_JSON, MISSING_PART, MOST_NODES, NOT_ONE_OUTPUT, PLAN_BYTES, TOO_LONG, TOO_MANY,
                                   TWICE_NAMED, UNKNOWN_NODE, UNKNOWN_OP, UNUSED, VERSIONS, Operator, operators_of)
from cedr_explain.types import Columns, a_word
from cedr_explain.values import Finding, Values

OUTPUT = '{"name":"out","op":"output","from":["NAME"]}'


class Plan:
    """A plan as its bytes have it. `fault` and `node` say what `cedr` would report, with 0 where it is accepted."""

    def __init__(self, data: bytes) -> None:
        self.data, self.text, self.document = data, data.decode("utf-8", "replace"), None
        self.operators, self.nodes, self.results = {}, [], {}
        self.findings, self.node = [], 0
        self.read()
        self.fault = min((one.fault for one in self.findings), default=0)

    def read(self) -> None:
        self.findings = list(self.of_text())
        if self.findings:
            return
        self.values = Values(self.text)
        self.findings = list(self.of_document())
        if self.findings:
            return
        self.operators = operators_of(self.document.member("version").held)
        self.nodes = self.document.member("nodes").held
        for self.node, node in enumerate(self.nodes, 1):
            self.findings = list(self.of_node(node))
            if self.findings:
                return
        self.node = 0
        self.findings = list(self.of_all())

    def of_text(self) -> Iterator[Finding]:
        if len(self.data) > PLAN_BYTES:
            yield Finding(TOO_LONG, 0, f"The plan has {len(self.data):,} bytes. It may have {PLAN_BYTES:,}.")
            return
        try:
            self.text = decoded(self.data)
            self.document = read(self.text)
        except NoJson as fault:
            about = "This is an event file, and no plan. " if self.data[:2] in (b"+,", b"-,", b"~,", b"=,") else ""
            yield Finding(BAD_JSON, fault.place, f"{about}The plan isn't JSON: {fault.why}.")

    def of_document(self) -> Iterator[Finding]:
        document = self.document
        if type(document.held) is not dict:
            yield Finding(MISSING_PART, document.begin,
                          f"The document is {document.kind()}. It must be an object with the members `version` and "
                          '`nodes`: {"version":1,"nodes":[..]}.')
            return
        yield from self.of_version(document.member("version"))
        nodes = document.member("nodes")
        if nodes is None:
            yield Finding(MISSING_PART, document.begin,
                          '`nodes` is missing. It must be an array of nodes: "nodes":[{..},{..}].')
        elif type(nodes.held) is not list:
            yield Finding(MISSING_PART, nodes.begin,
                          f"`nodes` is {self.values.told(nodes)}. It must be an array of nodes, each with a member "
                          '`name`: [{"name":"orders",..},..].')
        elif len(nodes.held) > MOST_NODES:
            yield Finding(TOO_MANY, nodes.held[MOST_NODES].begin,
                          f"The plan has {len(nodes.held):,} nodes, of which this is number {MOST_NODES + 1}. It may "
                          f"have {MOST_NODES}.")
        edge = document.member("edge")
        if edge is not None:
            yield from self.values.number("`edge`", edge, 1, 1_024, '"edge":64')

    def of_version(self, version: Value | None) -> Iterator[Finding]:
        right = "It must be the number 1 or 2, the version of the plan language"
        if version is None:
            yield Finding(MISSING_PART, self.document.begin,
                          f'`version` is missing. {right}: {{"version":1,"nodes":[..]}}.')
        elif type(version.held) is not int or version.held not in VERSIONS:
            yield Finding(MISSING_PART, version.begin,
                          f"`version` is {self.values.told(version)}. {right}, in one digit.")

    def of_node(self, node: Value) -> Iterator[Finding]:
        """The faults of one node. Those of names, columns and types are looked for where all members are right."""
        if type(node.held) is not dict:
            told = self.values.told(node)
            yield Finding(MISSING_PART, node.begin,
                          f"The node is {told}. It must be an object with the members `name` and `op`.")
            return
        found = [*self.values.name(node), *self.of_op(node)]
        if not found:
            found = list(self.of_members(node, self.operators[self.op_of(node)]))
        found = found or list(self.of_names(node))
        if not found:
            columns = self.columns(node)
            found = list(columns.faults()) if columns else []
            if not found:
                self.results[self.name_of(node)] = columns.result() if columns else self.types_of(node)
        yield from found

    def of_op(self, node: Value) -> Iterator[Finding]:
        op = node.member("op")
        if op is None:
            yield Finding(MISSING_PART, node.begin, '`op`, the operator, is missing. Write it as in "op":"select".')
        elif type(op.held) is not str:
            yield Finding(MISSING_PART, op.begin,
                          f"`op` is {self.values.told(op)}. It must be the name of an operator.")
        elif op.held not in self.operators:
            yield Finding(UNKNOWN_OP, op.begin, f"`op` is {self.values.raw(op)}. {self.meant_op(op.held)}")

    def meant_op(self, said: str) -> str:
        version = self.document.member("version").held
        if version == 1 and said in operators_of(2):
            return f'{said} is an operator of version 2: write "version":2 at the top of the plan.'
        meant = advice.operator_for(said, self.operators)
        does = f'Perhaps "{meant}" is meant, which {self.operators[meant].does}. ' if meant else ""
        return f"{does}The operators of version {version} are {', '.join(self.operators)}."

    def of_members(self, node: Value, operator: Operator) -> Iterator[Finding]:
        ports = node.member("from")
        if operator.most:
            yield from self.of_ports(node, ports, operator)
            if node.member("level") is not None:
                yield from self.values.level(node.member("level"))
        for name, member in operator.members.items():
            yield from self.values.member(node, name, member, ports)

    def of_ports(self, node: Value, ports: Value | None, operator: Operator) -> Iterator[Finding]:
        least, most = operator.least, operator.most
        wanted = f"{least}" if least == most else f"{least} to {most}"
        right = f"{a_word(self.op_of(node)).capitalize()} reads {wanted} earlier node{'s' * (most > 1)}"
        form = ",".join(f'"{name}"' for name in "abcd"[:least])
        if ports is None:
            yield Finding(MISSING_PART, node.begin, f'`from` is missing. {right}: "from":[{form}].')
        elif type(ports.held) is not list:
            names = f'"{ports.held}"' if type(ports.held) is str else form
            yield Finding(MISSING_PART, ports.begin,
                          f"`from` is {self.values.told(ports)}. It must be an array of names, even of one: [{names}].")
        else:
            count = len(ports.held)
            for one in ports.held:
                if type(one.held) is not str:
                    told = self.values.told(one)
                    yield Finding(MISSING_PART, one.begin,
                                  f"An entry of `from` is {told}. It must be the name of an earlier node.")
            if count < least:
                yield Finding(MISSING_PART, ports.begin, f"`from` has {count} name{'s' * (count != 1)}. {right}.")
            if count > most:
                hint = " A `union` in front of it makes one of up to four." if most == 1 else ""
                yield Finding(TOO_MANY, ports.held[most].begin, f"`from` has {count} names. {right}.{hint}")

    def of_names(self, node: Value) -> Iterator[Finding]:
        name, earlier = node.member("name"), self.earlier()
        if name.held in earlier:
            other = earlier[name.held]
            yield Finding(TWICE_NAMED, name.begin,
                          f"`name` is {self.values.raw(name)}, which is the name of node {other}, {self.label(other)}, "
                          "too. Each node has a name of its own.")
            return
        for one in node.member("from").held if self.op_of(node) != "source" else []:
            if one.held not in self.results or self.op_of(self.nodes[earlier[one.held] - 1]) == "output":
                meant = self.meant_node(one.held, earlier)
                yield Finding(UNKNOWN_NODE, one.begin, f"`from` has {self.values.raw(one)}. {meant}")

    def meant_node(self, said: str, earlier: dict) -> str:
        """What is wrong with a name in `from`, and which names are right."""
        readable = [name for name, place in earlier.items() if self.op_of(self.nodes[place - 1]) != "output"]
        told = f"The earlier nodes are {', '.join(readable)}." if readable else "No node stands before it."
        if said in earlier:
            return f"That is the output, and no node reads it. {told}"
        for place, node in enumerate(self.nodes[self.node - 1:], self.node):
            if type(node.held) is dict and node.member("name") is not None and node.member("name").held == said:
                if place == self.node:
                    return f"That is the node itself. {told}"
                return f"Node {place} has that name, but stands behind; move it in front of this one. {told}"
        near = advice.near(said, readable)
        return f"No node has that name. {f'Perhaps `{near}` is meant. ' if near else ''}{told}"

    def of_all(self) -> Iterator[Finding]:
        """How many outputs there are, and nodes that no node reads."""
        outputs = [place for place, node in enumerate(self.nodes, 1) if self.op_of(node) == "output"]
        used = {one.held for node in self.nodes if self.op_of(node) != "source" for one in node.member("from").held}
        unused = [place for place, node in enumerate(self.nodes, 1)
                  if self.op_of(node) != "output" and self.name_of(node) not in used]
        if not outputs:
            last = self.name_of(self.nodes[unused[-1] - 1]) if unused else "NAME"
            output = OUTPUT.replace("NAME", last)
            yield Finding(NOT_ONE_OUTPUT, self.document.member("nodes").begin,
                          f"No node is the output, which hands out the answer. Put one at the end: {output}.")
        elif len(outputs) > 1:
            first, self.node = outputs[:2]
            yield Finding(NOT_ONE_OUTPUT, self.nodes[self.node - 1].begin,
                          f"Node {first}, {self.label(first)}, is an output already, and a plan has one. A `union` "
                          "makes one answer of up to four; for two answers write two plans.")
        elif unused:
            self.node = unused[0]
            node = self.nodes[self.node - 1]
            answered = self.nodes[outputs[0] - 1].member("from").held[0].held
            yield Finding(UNUSED, node.begin,
                          f"No node has `{self.name_of(node)}` in its `from`, so it says nothing to the answer. The "
                          f"output reads `{answered}`. Let a later node read it, or take it out.")

    # what is known of nodes

    def op_of(self, node: Value) -> str:
        return node.member("op").held

    def name_of(self, node: Value) -> str:
        return node.member("name").held

    def earlier(self) -> dict:
        """The places of the nodes before this one, by name."""
        return {self.name_of(node): place for place, node in enumerate(self.nodes[: self.node - 1], 1)}

    def columns(self, node: Value) -> Columns | None:
        """What a node counts through. A source counts nothing."""
        op = self.op_of(node)
        if op == "source":
            return None
        inputs = [(one.held, self.results[one.held]) for one in node.member("from").held]
        return Columns(op, node, self.operators[op].members, inputs)

    def types_of(self, source: Value) -> list:
        return [one.held for one in source.member("fields").held]

    def has_operator(self, place: int) -> bool:
        """Whether the node of this number has an operator that there is."""
        op = self.nodes[place - 1].member("op")
        return op is not None and type(op.held) is str and op.held in self.operators

    def label(self, place: int) -> str:
        """The node of this number in words: the join `paid`."""
        name = self.nodes[place - 1].member("name")
        op_told = self.op_of(self.nodes[place - 1]) if self.has_operator(place) else "node"
        name_told = f" `{name.held}`" if name is not None and type(name.held) is str else " without a name"
        return f"the {op_told}{name_told}"

    def sources(self) -> dict:
        """The file and the types of each source by its name, as far as the plan has them."""
        found = {}
        for node in self.nodes:
            name, op, file = (node.member(one) for one in ("name", "op", "file"))
            if None not in (name, op, file) and op.held == "source":
                found[name.held] = file.held, [one.held for one in node.member("fields").held]
        return found
