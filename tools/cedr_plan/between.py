"""NOT(C z, SEQUENCE(A x, B y, SPAN)): the matches of a sequence between whose first and last event no other event begins.

No operator sees what begins between two rows. So the events z are counted: how many have begun when the first row begins, and
how many before the last one begins. Where the two numbers are equal none lies between. A count of 0 has no row, so the
matches whose last row has no event z before it are found by an `except`, and a `union` has both."""
from __future__ import annotations

from typing import NamedTuple

from cedr_plan.refused import Refused
from cedr_plan.tree import Item, Items, Path, Test, Tests, Word, spelt_path

COUNTED, BEGUN = "counted", "events begun so far"


class Key(NamedTuple):
    """A column of z, and the columns of the first part and of the last part that are equal to it."""
    own: tuple
    first: Path
    last: Path


def keys_of(variable: str, tests: list, parts: list) -> list:
    """The columns by which the tests tie z to both ends of the sequence, whose own tests say that these are equal."""
    tied, own = {}, [test for test in tests if not names_event(test, variable)]
    for test in tests:
        if test in own:
            continue
        if test.sign.text != "=":
            raise Refused(test.left.place, "What must not come between is tied to the sequence by equal columns alone, and this test says "
                                           f"`{test.sign.text}`.")
        here, there = sorted(test.paths(), key=lambda path: path.parts[0] != variable)
        tied.setdefault(here.parts[1:], []).append((here, there))
    return [key_of(column, pairs, equal_columns(own), parts) for column, pairs in tied.items()]


def key_of(column: tuple, pairs: list, equal: list, parts: list) -> Key:
    here, first = pairs[0]
    alike = next((one for one in equal if first.parts in one), {first.parts})
    for _, other in pairs[1:]:
        if other.parts not in alike:
            told = f"{spelt_path(first.parts)} = {spelt_path(other.parts)}"
            raise Refused(here.place, f"`{spelt_path(here.parts)}` is equal to `{spelt_path(first.parts)}` and to `{spelt_path(other.parts)}`. Say that "
                                      f"these are equal too: {{{told}}}.")
    return Key(column, *[end_of(here, first, alike, part) for part in (parts[0], parts[-1])])


def equal_columns(tests: list) -> list:
    """The sets of columns that these tests say are equal."""
    classes = []
    for test in tests:
        if test.sign.text == "=" and len(test.paths()) == 2:
            new = {path.parts for path in test.paths()}
            met = [one for one in classes if new & one]
            classes = [one for one in classes if one not in met] + [new.union(*met)]
    return classes


def end_of(here: Path, first: Path, alike: set, part) -> Path:
    """The column of this end of the sequence among those that are equal to one of z."""
    for parts in sorted(alike):
        if parts[0] in part.fronts:
            return Path(parts, here.place)
    told = f"{spelt_path(first.parts)} = {spelt_path((next(iter(part.fronts)), *first.parts[1:]))}"
    raise Refused(here.place, f"`{spelt_path(here.parts)}` is tied to one end of the sequence alone. Say which column of the other end is equal, as in "
                              f"{{{told}}}.")


def names_event(test: Test, variable: str) -> bool:
    return any(path.parts[0] == variable for path in test.paths())


class Between:
    """Makes the nodes of a NOT for a translator. `parts` are those of its sequence, and `event` is what must not come."""

    def __init__(self, translator, place: int, event, parts: list, span) -> None:
        self.make, self.place, self.event, self.parts, self.span = translator, place, event, parts, span
        self.once = translator.one_unit(place)
        names = {name for part in (*parts, event) for name in part.fronts}
        tests = translator.taken(names)
        variable = next(iter(event.fronts))
        self.tests = [test for test in tests if not names_event(test, variable)]
        self.keys = keys_of(variable, tests, parts)

    def made(self):
        """The part that all these nodes stand for."""
        begun = self.one("starts", self.event)
        before = self.one("starts", self.one("shift", self.event, ("by", self.once)))
        first, last = (self.one("window", part, ("for", self.once)) for part in (self.parts[0], self.parts[-1]))
        numbered = [self.numbered(first, self.counted(begun), [key.first for key in self.keys]),
                    self.numbered(last, self.counted(before), [key.last for key in self.keys])]
        alone = self.without(last, before)
        ends = [Path((end, COUNTED, BEGUN), self.place) for end in ("first", "last")]
        same = Test(ends[0], Word("=", self.place, "SIGN"), ends[1])
        ways = [self.matches([numbered[0], *self.parts[1:-1], numbered[1]], [same]),
                self.matches([self.parts[0], *self.parts[1:-1], alone], [])]
        fronts = {name: (name,) for part in self.parts for name in part.fronts}
        return self.make.node("union", [(one, "") for one in ways], [], self.place)._replace(fronts=fronts)

    def one(self, op: str, part, *clauses):
        """A node that reads one part, and leaves its columns as they are called."""
        return self.make.node(op, [(part, "")], list(clauses), self.place)._replace(fronts=part.fronts)

    def counted(self, begun):
        items = Items(Item(Path(key.own, self.place), None) for key in self.keys)
        return self.make.node("group", [(begun, "")], [*([("by", items)] if items else []), ("count", Path((BEGUN,), self.place))], self.place)

    def numbered(self, part, counted, ends: list):
        """The part's rows beside how many events there were for their keys."""
        return self.tied("join", part, counted, ends)

    def without(self, part, begun):
        """The part's rows before which no such event has begun."""
        return self.tied("except", part, begun, [key.last for key in self.keys])

    def tied(self, op: str, part, other, ends: list):
        tests = Tests(Test(Path(("part", *part.fronts[end.parts[0]], *end.parts[1:]), end.place), Word("=", self.place, "SIGN"),
                           Path((COUNTED, *key.own), end.place)) for key, end in zip(self.keys, ends))
        made = self.make.node(op, [(part, "part"), (other, COUNTED)], [("where", tests)] if tests else [], self.place)
        return made._replace(fronts={name: ("part", *front) for name, front in part.fronts.items()})

    def matches(self, parts: list, more: list):
        """A sequence of these parts, whose columns are those of their events alone."""
        shorts = ["first", *(f"p{place}" for place in range(2, len(parts))), "last"]
        fronts = {name: (short, *front) for part, short in zip(parts, shorts) for name, front in part.fronts.items()}
        own = [test.behind(fronts) for test in self.tests]
        clauses = [("within", self.span), *([("where", Tests([*own, *more]))] if own or more else [])]
        found = self.make.node("sequence", list(zip(parts, shorts)), clauses, self.place)
        items = Items(self.item(name, column, fronts) for part in self.parts for name in part.fronts
                      for column in self.make.columns_of(part, name))
        return self.make.node("project", [(found, "")], [("keep", items)], self.place)

    def item(self, name: str, column: tuple, fronts: dict) -> Item:
        return Item(Path((*fronts[name], *column), self.place), Path((name, *column), self.place))
