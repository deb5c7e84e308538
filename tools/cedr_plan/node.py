"""One statement as a node of a document, and the columns of the node by name."""
from __future__ import annotations

from typing import NamedTuple

import cedr_explain.advice as advice
from cedr_explain.language import EXTREMES, JOINING, MOST_FIELDS, OPERATORS, Operator
from cedr_explain.values import NAME
from cedr_plan.clauses import LEVEL_WORDS, Clauses, clause_words, clauses_of, example_of, items_here, span_here
from cedr_plan.columns import ORDINALS, Column, Reach, behind, check_unlike, of_one
from cedr_plan.refused import Refused, a_word, listed
from cedr_plan.source import columns_of
from cedr_plan.tests import listed_columns, tests_of, whole
from cedr_plan.tree import Counted, File, Input, Items, Name, Node, Tests, spelt, text_of
from cedr_plan.units import span_in

ADDED = "kept"
WEAK = "A weak level says its block and its memory, as in block 0 memory 1 hour."
LONGEST_NAME = 64


class Reading(NamedTuple):
    """An input of a node: the node that it reads, what the node calls it, and its columns."""
    node: str
    short: str
    place: int
    columns: list
    is_shortened: bool


class Maker:
    """Makes the nodes of a document. `columns` has those of each node that is made, by its name; no node that is added is
    called as one of those that are `taken`."""

    def __init__(self, taken: frozenset = frozenset()) -> None:
        self.taken, self.unit, self.columns, self.operators = taken, None, {}, {}

    def nodes(self, node: Node) -> list:
        """The node of the statement; in front of an output with a `keep` the project that it stands for."""
        self.check_name(node.name)
        operator = self.operator(node)
        clauses = Clauses(node)
        if operator.most == 0:
            self.finish(node, columns_of(node))
            return [source_node(node, self.columns[node.name.text])]
        inputs = self.inputs(node, operator)
        reach = reach_of(node, inputs)
        made = {"name": node.name.text, "op": node.op.text, "from": [one.node for one in inputs]}
        members = self.members(node, operator, clauses, reach)
        level = self.level(node, clauses)
        kept = self.project(node, clauses, reach, made) if node.op.text == "output" and "keep" in clauses.by_word else []
        self.finish(node, self.result(node, clauses, inputs, reach) if not kept else self.columns[kept[0]["name"]])
        return [*kept, {**made, **members, **level}]

    def finish(self, node: Node, columns: list) -> None:
        if len(columns) > MOST_FIELDS:
            raise Refused(node.op.place, f"Its result would have {len(columns)} columns: "
                                         f"{', '.join(column.told() for column in columns)}. It may have {MOST_FIELDS}. Put a "
                                         "`project` in front of it that keeps the columns that are needed.")
        self.columns[node.name.text] = columns
        self.operators[node.name.text] = node.op.text

    def check_name(self, name: Name) -> None:
        if not NAME.fullmatch(name.text):
            raise Refused(name.place, f"`{name.text}` names a node, whose name has 1 to {LONGEST_NAME} ASCII letters, digits and `_` alone.")
        if name.text in self.columns:
            raise Refused(name.place, f"`{name.text}` is the name of an earlier node too. Each node has a name of its own.")

    def operator(self, node: Node) -> Operator:
        op = node.op.text
        if op not in OPERATORS:
            meant = "source" if isinstance(node.subject, File) else advice.operator_for(op, OPERATORS)
            hint = f"Perhaps `{meant}` is meant, which {OPERATORS[meant].does}. " if meant else ""
            raise Refused(node.op.place, f"`{op}` is no operator. {hint}The operators are {listed(OPERATORS)}.")
        return OPERATORS[op]

    # what a node reads

    def inputs(self, node: Node, operator: Operator) -> list:
        op, subject = node.op, node.subject
        if isinstance(subject, File):
            raise Refused(subject.file.place, f"A file is read by a `source` alone. {a_word(op.text).capitalize()} reads nodes by their names.")
        is_counted = "number" in operator.members
        if isinstance(subject, Counted) != is_counted:
            form = "atleast 2 of smoke, heat, gas within 10 seconds"
            told = f"An `atleast` says how many of its inputs it takes: {form}." if is_counted else \
                f"`{subject.number.text} of` stands before the inputs of an `atleast` alone."
            raise Refused(op.place if is_counted else subject.number.place, told)
        named = subject.inputs if is_counted else subject
        least, most = operator.least, operator.most
        if not least <= len(named) <= most:
            wanted = f"{least}" if least == most else f"{least} to {most}"
            hint = " A `union` in front of it makes one of up to four." if most == 1 else ""
            place = named[most].name.place if len(named) > most else op.place
            raise Refused(place, f"{a_word(op.text).capitalize()} reads {wanted} node{'s' * (most > 1)}, and {len(named)} "
                                 f"{'stands' if len(named) == 1 else 'stand'} here.{hint}")
        readings = [self.reading(one) for one in named]
        if op.text in ("union", "atleast"):
            self.check_alike(node, named, readings)
        elif most > 1:
            check_shorts(readings)
        elif named[0].short:
            check_used(node, named[0].short)
        return readings

    def reading(self, one: Input) -> Reading:
        name = one.name.text
        if name not in self.columns:
            readable = [other for other, op in self.operators.items() if op != "output"]
            near = advice.near(name, readable)
            hint = f"Perhaps `{near}` is meant. " if near else ""
            known = f"The nodes above are {listed(readable)}." if readable else "No node stands above."
            raise Refused(one.name.place, f"There is no node `{name}` above. {hint}{known}")
        if self.operators[name] == "output":
            raise Refused(one.name.place, f"`{name}` is the output, which no node reads.")
        short = one.short.text if one.short else name
        return Reading(name, short, (one.short or one.name).place, self.columns[name], one.short is not None)

    def check_alike(self, node: Node, named: list, readings: list) -> None:
        """Inputs whose rows become one list have the same types, and no short names, since nothing could tell whose a row is."""
        for one in named:
            if one.short:
                own = "first, second and so on, by their begins" if node.op.text == "atleast" else "as those of the first input"
                raise Refused(one.short.place, f"The inputs of {a_word(node.op.text)} have no short names. Its columns are called {own}.")
        types = [column.type for column in readings[0].columns]
        for one in readings[1:]:
            if [column.type for column in one.columns] != types:
                told = "; ".join(f"`{each.node}` has {', '.join(column.told() for column in each.columns) or 'none'}" for each in readings)
                raise Refused(one.place, f"The inputs of {a_word(node.op.text)} have columns of the same types: {told}. A `project` in front "
                                         "of one can put its columns in order.")

    # what a node says

    def members(self, node: Node, operator: Operator, clauses: Clauses, reach: Reach) -> dict:
        """The members of the document, in the order of the operator's table."""
        words = {member: word for word, member in clauses_of(node.op.text).items()}
        found = {}
        for name, member in operator.members.items():
            if member.kind == "number":
                found[name] = self.count(node)
                continue
            word = words[name]
            example = f"{spelt(node.name.text)} = {example_of(node.op.text)}"
            if member.kind == "span":
                span = clauses.needed(word, example)
                found[name] = span_in(span_here(clauses.by_word[word], span), self.unit)
            elif member.kind == "tests":
                found[name] = tests_of(clauses.value(word, []), reach)
            elif member.kind == "flag":
                found[name] = word in clauses.by_word
            else:
                items = clauses.needed(word, example) if name == "keep" else clauses.value(word, [])
                found[name] = listed_columns(items_here(clauses.by_word.get(word), items), reach, "sum" if name == "sum" else "")[0]
                if member.optional and not found[name]:
                    del found[name]
        return found

    def count(self, node: Node) -> int:
        """How many of its inputs an `atleast` takes."""
        number, named = node.subject.number, node.subject.inputs
        value = whole(number, 1, 2**63)
        if value > len(named):
            raise Refused(number.place, f"{number.text} of {len(named)} inputs are asked for. It must be from 1 to {len(named)}.")
        return value

    def level(self, node: Node, clauses: Clauses) -> dict:
        for word in LEVEL_WORDS[:2]:
            if word in clauses.by_word:
                return {"level": word}
        spans = {word: clauses.by_word[word].value for word in LEVEL_WORDS[2:] if word in clauses.by_word}
        if not spans:
            return {}
        if len(spans) == 1:
            word = next(iter(spans))
            raise Refused(clauses.by_word[word].word.place, "A level has a block, how long it waits, and a memory, how late a change may be, as in "
                                                            "block 0 memory 1 hour. `inf` says without limit.")
        bounds = {word: "inf" if span.words[0].kind == "INF" else span_in(span, self.unit, 0) for word, span in spans.items()}
        if float(bounds["block"]) > float(bounds["memory"]):
            raise Refused(spans["block"].place, "The block is over the memory. What is waited for can't be forgotten before: make the memory "
                                                "as long at least.")
        return {"level": bounds}

    def project(self, node: Node, clauses: Clauses, reach: Reach, output: dict) -> list:
        """The project that a `keep` at an output stands for. The output reads it."""
        clause = clauses.by_word["keep"]
        numbers, columns, places = listed_columns(clause.value, reach)
        check_unlike(columns, places, "the answer")
        name = self.free_name(node.name.text)
        self.finish(node._replace(name=Name(name, node.name.place), op=node.op._replace(text="project")), columns)
        made = {"name": name, "op": "project", "from": output["from"], "keep": numbers}
        output["from"] = [name]
        return [made]

    def free_name(self, name: str) -> str:
        """A name that no node has, for the project in front of the output of this name."""
        wanted = f"{name[:LONGEST_NAME - 8]}_{ADDED}"
        count = 2
        while wanted in self.taken or wanted in self.columns:
            wanted, count = f"{name[:LONGEST_NAME - 8]}_{ADDED}{count}", count + 1
        return wanted

    def result(self, node: Node, clauses: Clauses, inputs: list, reach: Reach) -> list:
        op = node.op.text
        if op in JOINING or len(inputs) > 1 and op != "union":
            own = reach.columns if op in JOINING else behind(inputs[0].short, inputs[0].columns)
        elif op == "project":
            own, places = listed_columns(clauses.value("keep"), reach)[1:]
            check_unlike(own, places, f"`{node.name.text}`")
        elif op == "group":
            own = self.grouped(node, clauses, reach)
        else:
            own = inputs[0].columns
        return own

    def grouped(self, node: Node, clauses: Clauses, reach: Reach) -> list:
        _, columns, places = listed_columns(clauses.value("by", []), reach)
        if "count" in clauses.by_word:
            clause = clauses.by_word["count"]
            columns.append(Column(clause.value.parts if clause.value else ("count",), "int"))
            places.append(clause.word.place)
        for word in ("sum", *EXTREMES):
            _, own, own_places = listed_columns(clauses.value(word, []), reach, word)
            columns, places = columns + own, places + own_places
        check_unlike(columns, places, f"`{node.name.text}`")
        return columns


def source_node(node: Node, columns: list) -> dict:
    return {"name": node.name.text, "op": "source", "file": text_of(node.subject.file), "fields": [one.type for one in columns]}


def reach_of(node: Node, inputs: list) -> Reach:
    """What the tests and the lists of a node call columns."""
    op = node.op.text
    if op == "atleast":
        number = min(int(node.subject.number.text[:2]) if node.subject.number.text.isdigit() else 0, len(inputs))
        return Reach([one for place in range(number) for one in behind(ORDINALS[place], inputs[0].columns)])
    if len(inputs) == 1 or op == "union":
        return of_one(inputs[0].node, inputs[0].short if inputs[0].is_shortened else None, inputs[0].columns)
    return Reach([one for each in inputs for one in behind(each.short, each.columns)])


def check_shorts(readings: list) -> None:
    seen = set()
    for one in readings:
        if one.short in seen:
            raise Refused(one.place, f"Two inputs are called `{one.short}` here. Give each a short name of its own, as in alarms a, alarms b.")
        seen.add(one.short)


def check_used(node: Node, short: Name) -> None:
    """Refuses a short name of an only input that no column has in front: likely it is a misspelt word."""
    if not any(path.parts[0] == short.text for one in node.clauses for path in paths_of(one.value)):
        near = advice.near(short.text, clause_words(node.op.text))
        hint = f"Perhaps `{near}` is meant." if near else WEAK if short.text.lower() == "weak" else "Leave it out."
        raise Refused(short.place, f"`{short.text}` would be a short name of the input, and no column here has it in front. {hint}")


def paths_of(value) -> list:
    """The names of columns in what stands behind the word of a clause."""
    if isinstance(value, Items):
        return [item.path for item in value]
    return [path for test in value for path in test.paths()] if isinstance(value, Tests) else []
