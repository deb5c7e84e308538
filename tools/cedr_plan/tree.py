"""What a statement says: its parts, each with its place in the text."""
from __future__ import annotations

import json
import re
from typing import NamedTuple, Union

from cedr_plan.refused import Refused

PLAIN = re.compile(r"[^\W\d]\w*")
# Between backquotes a quote stands for itself, and a backquote behind a backslash.
ESCAPED = re.compile(r'\\.|"')
IN_BACKQUOTES = {'"': '\\"', "\\`": "`"}


class Word(NamedTuple):
    """A sign or a word as it stands in the text, by its kind in the grammar."""
    text: str
    place: int
    kind: str = ""


class Name(NamedTuple):
    text: str
    place: int


class Path(NamedTuple):
    """The name of a column: its parts, between which dots stand."""
    parts: tuple
    place: int


class Item(NamedTuple):
    """A column of a list, and the name that it is given there."""
    path: Path
    alias: Union[Path, None]


class Span(NamedTuple):
    """Numbers, each with its unit or nothing; or the word `inf` alone."""
    words: tuple
    place: int


class Test(NamedTuple):
    """A comparison of two sides, each a Path or a Word that is a number or a text."""
    left: object
    sign: Word
    right: object

    def paths(self) -> list:
        return [one for one in (self.left, self.right) if isinstance(one, Path)]

    def behind(self, fronts: dict) -> Test:
        """The test with what stands in front of the columns of each event in place of the event's name."""
        sides = [Path((*fronts[one.parts[0]], *one.parts[1:]), one.place) if isinstance(one, Path) else one
                 for one in (self.left, self.right)]
        return Test(sides[0], self.sign, sides[1])


class Clause(NamedTuple):
    """A word, and the Span, the Items, the Tests or the Path behind it, or nothing."""
    word: Word
    value: object


class Input(NamedTuple):
    name: Name
    short: Union[Name, None]


class Column(NamedTuple):
    """A column of a source: its name and its type where both stand there, else one of them or a `-`."""
    words: tuple
    place: int


class File(NamedTuple):
    file: Word
    header: Union[Word, None]
    columns: Union[list, None]


class Counted(NamedTuple):
    number: Word
    inputs: list


class Node(NamedTuple):
    name: Name
    op: Word
    subject: object
    clauses: list


class Setting(NamedTuple):
    word: Word
    value: Word


class Call(NamedTuple):
    """An operator of a pattern with its arguments, each a Call, an Event or a Span."""
    op: Word
    arguments: list


class Event(NamedTuple):
    type: Name
    name: Union[Name, None]


class Pattern(NamedTuple):
    name: Name
    expression: object
    tests: list
    items: Union[list, None]
    levels: list


class Tests(list):
    """The tests behind a `where`."""


class Items(list):
    """The columns of a list."""


class Predicates(list):
    """The tests of all braces of a pattern."""


class Builder:
    """Makes these parts while a statement is read. `base` is where the statement begins in the text."""
    base = 0

    def word(self, token) -> Word:
        return Word(str(token), self.base + token.start_pos, token.type)

    def words(self, tokens) -> list:
        return [one if isinstance(one, tuple) else self.word(one) for one in tokens]

    def name(self, children) -> Name:
        token = self.word(children[0])
        return Name(text_of(token), token.place)

    def path(self, names) -> Path:
        return Path(tuple(one.text for one in names), names[0].place)

    def side(self, children):
        return self.words(children)[0]

    def test(self, children) -> Test:
        return Test(*self.words(children))

    def tests(self, children) -> Tests:
        return Tests(children)

    def span(self, children) -> Span:
        words = tuple(self.words(children))
        return Span(words, words[0].place)

    def item(self, children) -> Item:
        return Item(*children, *[None] * (2 - len(children)))

    def items(self, children) -> Items:
        return Items(children)

    def clause(self, children) -> Clause:
        word, *rest = [one if isinstance(one, (tuple, list)) else self.word(one) for one in children]
        if rest and isinstance(rest[0], Word):
            # `keep ()`, or a bound without limit
            rest = [Items()] if rest[0].kind == "OPEN" else [Span((rest[0],), rest[0].place)]
        return Clause(word, rest[0] if rest else None)

    def input(self, children) -> Input:
        return Input(*children, *[None] * (2 - len(children)))

    def inputs(self, children) -> list:
        return children

    def counted(self, children) -> Counted:
        return Counted(self.word(children[0]), children[1])

    def column(self, children) -> Column:
        words = tuple(self.words(children))
        return Column(words, words[0].place)

    def columns(self, children) -> list:
        return [one for one in children if isinstance(one, Column)]

    def file(self, children) -> File:
        texts = [self.word(one) for one in children if not isinstance(one, list)]
        lists = [one for one in children if isinstance(one, list)]
        return File(texts[0], texts[2] if len(texts) > 1 else None, lists[0] if lists else None)

    def node(self, children) -> Node:
        name, sign, op, subject, *clauses = [one if isinstance(one, (tuple, list)) else self.word(one) for one in children]
        if sign.text != "=":
            raise Refused(sign.place, f"`{sign.text}` stands behind the name `{name.text}`. It must be `=`.")
        return Node(name, op, subject, clauses)

    def setting(self, children) -> Setting:
        return Setting(*self.words(children))

    def statement(self, children):
        return children[0]

    def argument(self, children):
        return children[0]

    def expression(self, children):
        if isinstance(children[0], Call):
            return children[0]
        return Event(*children, *[None] * (2 - len(children)))

    def call(self, children) -> Call:
        op, _, *arguments = [one if isinstance(one, (Call, Event, Span)) else self.word(one) for one in children]
        return Call(op, arguments)

    def predicate(self, children) -> list:
        return children

    def predicates(self, children) -> Predicates:
        return Predicates(test for tests in children for test in tests)

    def pattern(self, children) -> Pattern:
        name, expression, *rest = children
        tests = next((one for one in rest if isinstance(one, Predicates)), [])
        items = next((one for one in rest if isinstance(one, Items)), None)
        return Pattern(name, expression, tests, items, [one for one in rest if isinstance(one, Clause)])


def text_of(word: Word) -> str:
    """What stands between quotes or backquotes, or a plain word."""
    if word.text[0] not in "\"`":
        return word.text
    inner = word.text[1:-1]
    if word.text[0] == "`":
        inner = ESCAPED.sub(lambda one: IN_BACKQUOTES.get(one[0], one[0]), inner)
    try:
        text = json.loads(f'"{inner}"')
        text.encode("utf-8")
    except ValueError:
        raise Refused(word.place, f"{word.text} has a backslash that stands for nothing. A backslash stands before one of "
                                  '" ` \\ / b f n r t u alone; for itself it is written twice.') from None
    return text


def spelt(text: str) -> str:
    """A name as it is written: as a plain word, or between backquotes."""
    if PLAIN.fullmatch(text):
        return text
    inner = json.dumps(text, ensure_ascii=False)[1:-1].replace('\\"', '"').replace("`", "\\`")
    return f"`{inner}`"


def spelt_path(parts: tuple) -> str:
    return ".".join(map(spelt, parts))
