"""An EVENT statement as statements of nodes: the pattern language of "Consistent Streaming Through Time" (CIDR 2007).

Each operator of a pattern becomes one node, or more where one can't say it, and the tests behind WHERE go to the first node
that has all the events that they name."""
from __future__ import annotations

from collections import Counter
from typing import NamedTuple

import cedr_explain.advice as advice
from cedr_plan.between import Between
from cedr_plan.columns import ORDINALS
from cedr_plan.node import LONGEST_NAME, Maker
from cedr_plan.refused import Refused, listed
from cedr_plan.tests import whole
from cedr_plan.tree import (Call, Clause, Counted, Event, Input, Item, Items, Name, Node, Path, Pattern, Span, Test, Tests,
                            Word, spelt, spelt_path)

FORMS = {"SEQUENCE": "SEQUENCE(A x, B y, 5 minutes)", "UNLESS": "UNLESS(A x, B y, 5 minutes)", "ALL": "ALL(A x, B y, 5 minutes)",
         "ANY": "ANY(A x, B y)", "ATLEAST": "ATLEAST(2, A x, B y, C z, 5 minutes)",
         "NOT": "NOT(C z, SEQUENCE(A x, B y, 5 minutes))"}
MISSING = {
    "ATMOST": "No operator has rows for what is there too seldom: a row begins with an event, and here none might come. A `group` counts "
              "events, and a `select` takes counts up to a number, where at least one event is valid.",
    "CANCEL-WHEN": "No operator sees a pattern that has only begun: a node has rows of whole matches alone. NOT(C z, SEQUENCE(..)) says "
                   "that none comes between the first event and the last one.",
}


class Part(NamedTuple):
    """A node that stands for a part of a pattern, and what stands in front of the columns of each event that it has."""
    node: str
    place: int
    fronts: dict


class Translator:
    """Makes the nodes of a pattern. Tests that no node has taken yet are `left`."""

    def __init__(self, pattern: Pattern, maker: Maker) -> None:
        self.pattern, self.maker, self.nodes = pattern, maker, []
        self.left, self.hidden = list(pattern.tests), {}

    def translate(self) -> list:
        check_names(events_of(self.pattern.expression), self.left)
        part = self.tested(self.part(self.pattern.expression))
        if self.left:
            raise self.untaken(self.left[0])
        clauses = list(self.pattern.levels)
        if self.pattern.items is not None:
            items = Items(self.item(one, part) for one in self.pattern.items)
            clauses.append(Clause(Word("keep", self.pattern.name.place, "KEEP"), items))
        self.add(self.pattern.name, Word("output", self.pattern.name.place), [self.input(part)], clauses)
        return self.nodes

    # parts

    def part(self, expression) -> Part:
        if isinstance(expression, Event):
            return self.event(expression)
        op = expression.op.text
        if op in MISSING:
            raise Refused(expression.op.place, f"{op} isn't taken. {MISSING[op]}")
        ways = {"SEQUENCE": self.sequence, "UNLESS": self.unless, "NOT": self.without, "ALL": self.some, "ANY": self.some, "ATLEAST": self.some}
        if op not in ways:
            near = advice.near(op.upper(), FORMS)
            hint = f"Perhaps {near} is meant. " if near else ""
            raise Refused(expression.op.place, f"`{op}` is no operator of patterns. {hint}They are {listed(FORMS)}.")
        return ways[op](expression)

    def event(self, event: Event) -> Part:
        if event.type.text not in self.maker.columns:
            name = spelt(event.type.text)
            near = advice.near(event.type.text, self.maker.columns)
            hint = f" Perhaps `{near}` is meant." if near else ""
            raise Refused(event.type.place, f"No statement says which events `{name}` are.{hint} Write one such as "
                                            f'{name} = source "{event.type.text.lower()}.csv" (machine text).')
        return Part(event.type.text, event.type.place, {variable_of(event).text: ()})

    def sequence(self, call: Call) -> Part:
        parts, span = self.arguments(call, 2, 4)
        return self.joined(call, "sequence", parts, [("within", span)])

    def unless(self, call: Call) -> Part:
        parts, span = self.arguments(call, 2, 2)
        once = self.one_unit(call.op.place)
        made = self.joined(call, "unless", parts, [("within", span), ("for", once)])
        for variable in parts[1].fronts:
            self.hidden[variable] = "the part of an UNLESS that must not come, so no event of it is there afterwards"
        return made._replace(fronts={name: front for name, front in made.fronts.items() if name in parts[0].fronts})

    def without(self, call: Call) -> Part:
        """NOT: the matches of a sequence between whose first and last event no such event begins."""
        op, *rest = call.op, *call.arguments
        if len(rest) != 2 or not isinstance(rest[0], Event) or not isinstance(rest[1], Call) or rest[1].op.text != "SEQUENCE":
            raise Refused(op.place, f"NOT has an event, and the SEQUENCE in which it must not come: {FORMS['NOT']}.")
        event = self.tested(self.event(rest[0]))
        parts, span = self.arguments(rest[1], 2, 4)
        if self.apart(parts) != parts:
            raise Refused(op.place, "Two parts of this SEQUENCE call their events first and second, and nothing says which of them is meant.")
        made = Between(self, op.place, event, parts, span).made()
        for variable in event.fronts:
            self.hidden[variable] = "what must not come, so no event of it is there afterwards"
        return made

    def node(self, op: str, parts: list, clauses: list, place: int) -> Part:
        """A node over parts, each with its short name or nothing, and with these words and their values as clauses."""
        inputs = [Input(Name(part.node, place), Name(short, place) if short else None) for part, short in parts]
        name = self.free_name(op, place)
        self.add(name, Word(op, place), inputs, [clause(word, value, place) for word, value in clauses])
        return Part(name.text, place, {})

    def columns_of(self, part: Part, name: str) -> list:
        """The columns of one event of a part, by their own names."""
        front = part.fronts[name]
        return [column.name[len(front):] for column in self.maker.columns[part.node] if column.name[:len(front)] == front]

    def joined(self, call: Call, op: str, parts: list, clauses: list) -> Part:
        """A node over these parts that calls each by a short name, with the tests of their events."""
        shorts, parts = self.shorts(parts), self.apart(parts)
        fronts = {name: (short, *front) for part, short in zip(parts, shorts) for name, front in part.fronts.items()}
        tests = Tests(test.behind(fronts) for test in self.taken(fronts))
        clauses = [*clauses, *([("where", tests)] if tests else [])]
        return self.node(op, list(zip(parts, shorts)), clauses, call.op.place)._replace(fronts=fronts)

    def some(self, call: Call) -> Part:
        """ALL, ANY and ATLEAST: so many of these events, in whatever order they come."""
        number, rest = self.number(call)
        parts, span = self.arguments(call._replace(arguments=rest), 2, 4)
        parts = self.apart([self.tested(part) for part in parts])
        number = number or Word(str(len(parts)), call.op.place, "NUMBER")
        names = [name for part in parts for name in part.fronts]
        tests = self.alike(call, parts, self.taken(dict.fromkeys(names, ())), whole(number, 1, 2**63))
        clauses = [clause("within", span, call.op.place)]
        clauses += [clause("where", tests, call.op.place)] if tests else []
        name = self.free_name("atleast", call.op.place)
        subject = Counted(number, [self.input(part) for part in parts])
        self.add(name, Word("atleast", call.op.place), subject, clauses)
        for one in names:
            self.hidden[one] = f"an {call.op.text}, whose events stand in the order of their begins: they are called first, second and so on"
        return Part(name.text, call.op.place, {one: (one,) for one in ORDINALS[:whole(number, 1, 2**63)]})

    def apart(self, parts: list) -> list:
        """The parts without the names of events that two of them have, as two ALL have a first one."""
        counts = Counter(name for part in parts for name in part.fronts)
        for name in [name for name, count in counts.items() if count > 1]:
            self.hidden[name] = "two parts of the pattern, and nothing says which one is meant"
        return [part._replace(fronts={name: front for name, front in part.fronts.items() if counts[name] == 1}) for part in parts]

    def number(self, call: Call) -> tuple:
        """How many of the events, or None for all; and the other arguments."""
        op, arguments = call.op, call.arguments
        if op.text == "ALL":
            return None, arguments
        if op.text == "ANY":
            if isinstance(arguments[-1], Span):
                raise Refused(arguments[-1].place, f"ANY has no span, since one event is enough: {FORMS['ANY']}.")
            return Word("1", op.place, "NUMBER"), [*arguments, self.one_unit(op.place)]
        first = arguments[0]
        if not isinstance(first, Span) or len(first.words) != 1:
            raise Refused(op.place, f"ATLEAST says first how many of its events it takes: {FORMS['ATLEAST']}.")
        return first.words[0], arguments[1:]

    def arguments(self, call: Call, least: int, most: int) -> tuple:
        """The parts between the brackets, and the span that stands last."""
        op, *rest = call.op, *call.arguments
        if not rest or not isinstance(rest[-1], Span):
            raise Refused(op.place, f"{op.text} says at last within which span: {FORMS[op.text]}.")
        span = rest.pop()
        for one in rest:
            if isinstance(one, Span):
                raise Refused(one.place, f"An event or a pattern stands here: {FORMS[op.text]}.")
        if not least <= len(rest) <= most:
            wanted = f"{least}" if least == most else f"{least} to {most}"
            raise Refused(op.place, f"{op.text} has {wanted} events or patterns, and {len(rest)} stand{'s' * (len(rest) == 1)} here.")
        return [self.part(one) for one in rest], span

    def alike(self, call: Call, parts: list, tests: list, number: int) -> Tests:
        """The tests of an ALL or an ATLEAST, which can't tell its events apart: that all have one value in a column."""
        home = {name: place for place, part in enumerate(parts) for name in part.fronts}
        groups = {}
        for test in tests:
            columns = [self.column(path, parts[home[path.parts[0]]]) for path in test.paths()]
            if test.sign.text != "=" or len(set(columns)) != 1:
                raise self.unequal(call, test)
            merge(groups.setdefault(columns[0], []), {home[path.parts[0]] for path in test.paths()})
        made = Tests()
        for number_of_column, sets in groups.items():
            if len(sets[0]) != len(parts):
                raise self.unequal(call, tests[0])
            own = self.maker.columns[parts[0].node][number_of_column].name
            for before, after in zip(ORDINALS[:number - 1], ORDINALS[1:number]):
                place = tests[0].left.place
                made.append(Test(Path((before, *own), place), tests[0].sign._replace(text="="), Path((after, *own), place)))
        return made

    def unequal(self, call: Call, test: Test) -> Refused:
        return Refused(test.left.place, f"The events of {call.op.text} stand in the order of their begins, so a test can't tell which of them is "
                                        "which: it may say that a column is equal on all of them, or something of one event alone. A SEQUENCE "
                                        "for each order, and a `union` of them, say the rest.")

    def column(self, path: Path, part: Part) -> int:
        names = [column.name for column in self.maker.columns[part.node]]
        wanted = (*part.fronts[path.parts[0]], *path.parts[1:])
        if wanted not in names:
            known = ", ".join(spelt_path((path.parts[0], *name)) for name in names)
            raise Refused(path.place, f"There is no column `{spelt_path(path.parts)}` here. Its columns are {known}.")
        return names.index(wanted)

    # tests

    def taken(self, fronts: dict) -> list:
        """The tests that name these events alone. They are left no more."""
        tests = [test for test in self.left if all(path.parts[0] in fronts for path in test.paths())]
        self.left = [test for test in self.left if test not in tests]
        return tests

    def tested(self, part: Part) -> Part:
        """The part behind a select, where tests of its events are left."""
        tests = self.taken(part.fronts)
        if not tests:
            return part
        where = Tests(test.behind(part.fronts) for test in tests)
        return self.node("select", [(part, "")], [("where", where)], part.place)._replace(fronts=part.fronts)

    def untaken(self, test: Test) -> Refused:
        for path in test.paths():
            if path.parts[0] in self.hidden:
                return Refused(path.place, f"`{spelt(path.parts[0])}` is of {self.hidden[path.parts[0]]}.")
        return Refused(test.sign.place, "No part of the pattern has both events of this test.")

    # nodes

    def item(self, item: Item, part: Part) -> Item:
        variable, *rest = item.path.parts
        if variable in self.hidden and variable not in part.fronts:
            raise Refused(item.path.place, f"`{spelt(variable)}` is of {self.hidden[variable]}.")
        if variable not in part.fronts or not rest:
            raise no_event(item.path, part.fronts)
        return Item(Path((*part.fronts[variable], *rest), item.path.place), item.alias or item.path)

    def input(self, part: Part) -> Input:
        return Input(Name(part.node, part.place), None)

    def shorts(self, parts: list) -> list:
        """The name of an event for a part that is one, and another name for a pattern."""
        names = [next(iter(part.fronts)) if list(part.fronts.values()) == [()] else "" for part in parts]
        for place, name in enumerate(names):
            count = place + 1
            while not name or names.count(name) > 1:
                name, count = f"p{count}", count + 1
                names[place] = name
        return names

    def free_name(self, op: str, place: int) -> Name:
        """A name of the node that no other has: the pattern's with the operator behind."""
        front = f"{self.pattern.name.text[:LONGEST_NAME - 14]}_{op}"
        name, count = front, 2
        while name in self.maker.taken or name in self.maker.columns:
            name, count = f"{front}{count}", count + 1
        return Name(name, place)

    def one_unit(self, place: int) -> Span:
        unit = self.maker.unit
        own = (Word(unit.name, place, "WORD"),) if unit else ()
        return Span((Word("1", place, "NUMBER"), *own), place)

    def add(self, name: Name, op: Word, subject, clauses: list) -> None:
        node = Node(name, op, subject, clauses)
        self.nodes += [(node, made) for made in self.maker.nodes(node)]


def nodes_of(pattern: Pattern, maker: Maker) -> list:
    """The nodes of a document that the pattern stands for, each with the statement that it is made of."""
    return Translator(pattern, maker).translate()


def events_of(expression) -> list:
    if isinstance(expression, Event):
        return [expression]
    return [event for one in expression.arguments if not isinstance(one, Span) for event in events_of(one)]


def variable_of(event: Event) -> Name:
    return event.name or event.type


def check_names(events: list, tests: list) -> None:
    """Each event has a name of its own, and each test names events that are there."""
    names = {}
    for event in events:
        own = variable_of(event)
        if own.text in names:
            raise Refused(own.place, f"Two events are called `{own.text}`. Give each a name of its own, as in {spelt(event.type.text)} x.")
        names[own.text] = event
    for test in tests:
        for path in test.paths():
            if path.parts[0] not in [*names, *ORDINALS] or len(path.parts) < 2:
                raise no_event(path, names)


def no_event(path: Path, names) -> Refused:
    shown = spelt_path(path.parts)
    first = next(iter(names), "x")
    if len(path.parts) < 2:
        return Refused(path.place, f"`{shown}` has no event in front of it. Write it as in {spelt_path((first, *path.parts))}.")
    near = advice.near(path.parts[0], names)
    hint = f"Perhaps `{near}` is meant. " if near else ""
    return Refused(path.place, f"There is no event `{spelt(path.parts[0])}` here. {hint}The events are {listed(map(spelt, names))}.")


def merge(sets: list, new: set) -> None:
    """Joins the sets that have something of the new one with it."""
    met = [one for one in sets if one & new]
    sets[:] = [new.union(*met), *(one for one in sets if not one & new)]


def clause(word: str, value, place: int) -> Clause:
    return Clause(Word(word, place, word.upper()), value)
