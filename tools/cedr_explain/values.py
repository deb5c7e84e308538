"""The faults that show in the value of one member, each with its place and a sentence that says what would be right."""
from __future__ import annotations

import re
from typing import Iterator, NamedTuple

import cedr_explain.advice as advice
from cedr_explain.json_text import Value
from cedr_explain.language import (BAD_LEVEL, BAD_NUMBER, COMPARISONS, LEVELS, LONGEST, MISSING_PART, MOST_FIELDS,
                                   MOST_TESTS, TOO_MANY, TYPES, Member)

NAME = re.compile("[A-Za-z0-9_]{1,64}")
SHOWN = 60
SIDES = ("column", "int", "text")
LEVEL_FORM = '"strong", "middle" or {"block":0,"memory":60}'


class Finding(NamedTuple):
    """A fault of a plan by its number, 0 for a note; the place of the text that it is about, and what to say of it."""
    fault: int
    place: int
    text: str


class Values:
    """Reads values of a plan's text."""

    def __init__(self, text: str) -> None:
        self.text = text

    def raw(self, value: Value) -> str:
        """The value as the plan has it, in one line, and cut where it is long."""
        text = " ".join(self.text[value.begin: min(value.end, value.begin + 4 * SHOWN)].split())
        return text if len(text) <= SHOWN else text[:SHOWN] + " .."

    def told(self, value: Value) -> str:
        """The value, and its kind where the value doesn't tell it."""
        raw = self.raw(value)
        return raw if type(value.held) in (bool, type(None)) else f"{raw}, {value.kind()}"

    def member(self, owner: Value, name: str, member: Member, ports: Value | None = None) -> Iterator[Finding]:
        """The faults of a member of this node or level."""
        value = owner.member(name)
        if value is not None:
            yield from self.of_kind(member, name, value, ports)
        elif not member.optional:
            yield Finding(MISSING_PART, owner.begin, f"`{name}` is missing. Write it as in {member.example}.")

    def of_kind(self, member: Member, name: str, value: Value, ports: Value | None) -> Iterator[Finding]:
        if member.kind == "tests":
            yield from self.tests(value)
        elif member.kind == "columns":
            yield from self.columns(name, value, member.example)
        elif member.kind == "span":
            yield from self.number(f"`{name}`", value, 1, LONGEST, member.example)
        elif member.kind == "number":
            yield from self.count_of_ports(name, value, member.example, ports)
        elif member.kind == "types":
            yield from self.types(value)
        elif member.kind == "flag" and type(value.held) is not bool:
            yield self.wrong(name, value, "It must be true or false, without quotes.")
        elif member.kind == "file" and type(value.held) is not str:
            yield self.wrong(name, value, f"It must be a text, the path of the event file, as in {member.example}.")

    def wrong(self, name: str, value: Value, right: str) -> Finding:
        return Finding(MISSING_PART, value.begin, f"`{name}` is {self.told(value)}. {right}")

    def name(self, node: Value) -> Iterator[Finding]:
        value, right = node.member("name"), "A name has 1 to 64 ASCII letters, digits and `_`"
        if value is None:
            yield Finding(MISSING_PART, node.begin, f'`name` is missing. {right}, as in "name":"orders".')
        elif type(value.held) is not str:
            yield self.wrong("name", value, f"{right}, between quotes.")
        elif not NAME.fullmatch(value.held):
            other = re.sub("[^A-Za-z0-9_]+", "_", value.held).strip("_")
            like = f', as "{other}" has' if NAME.fullmatch(other) else ""
            yield Finding(MISSING_PART, value.begin, f"`name` is {self.raw(value)}. {right} alone{like}.")

    def number(self, what: str, value: Value, least: int, most: int, example: str) -> Iterator[Finding]:
        """A whole number in a range, `what` being its name in the sentence."""
        right = f"It must be a whole number from {least:,} to {most:,}"
        if type(value.held) not in (int, float):
            about = advice.about_span(value.held) if type(value.held) is str else ""
            right = f"{right}, without quotes and unit." if type(value.held) is str else f"{right}, as in {example}."
            yield Finding(MISSING_PART, value.begin, f"{what} is {self.told(value)}. {right} {about}".rstrip())
        elif type(value.held) is float:
            yield Finding(BAD_NUMBER, value.begin,
                          f"{what} is {self.raw(value)}. {right}, written in digits alone, without point and exponent, "
                          "and below 2^64.")
        elif not least <= value.held <= most:
            yield Finding(BAD_NUMBER, value.begin, f"{what} is {self.raw(value)}. {right}.")

    def count_of_ports(self, name: str, value: Value, example: str, ports: Value | None) -> Iterator[Finding]:
        """How many of the inputs: their count isn't known where `from` isn't an array."""
        if ports is not None and type(ports.held) is list:
            for found in self.number(f"`{name}`", value, 1, len(ports.held), example):
                yield found._replace(text=f"{found.text} `from` has {len(ports.held)} names.")
        elif type(value.held) not in (int, float):
            yield self.wrong(name, value, f"It must be a number, as in {example}.")

    def types(self, value: Value) -> Iterator[Finding]:
        right = 'It must be an array with "int" or "text" for each field of the file\'s events, as in ["text","int"].'
        if type(value.held) is not list:
            yield self.wrong("fields", value, right)
            return
        for place, one in enumerate(value.held):
            if one.held not in TYPES:
                about = advice.about_type(one.held) if type(one.held) is str else "It stands between quotes."
                told = f'Field {place} of `fields` is {self.raw(one)}. It must be "int" or "text". {about}'
                yield Finding(MISSING_PART, one.begin, told.rstrip())
        yield from self.too_many("fields", value, MOST_FIELDS)

    def too_many(self, name: str, value: Value, most: int) -> Iterator[Finding]:
        count = len(value.held)
        if count > most:
            yield Finding(TOO_MANY, value.held[most].begin,
                          f"`{name}` has {count:,} entries, of which this is number {most + 1}. It may have {most}.")

    def columns(self, name: str, value: Value, example: str) -> Iterator[Finding]:
        if type(value.held) is not list:
            hint = f" For this one column write [{value.held}]." if type(value.held) is int else ""
            yield self.wrong(name, value, f"It must be an array of columns, as in {example}.{hint}")
            return
        for place, one in enumerate(value.held):
            yield from self.column(f"Entry {place} of `{name}`", one)

    def column(self, what: str, value: Value) -> Iterator[Finding]:
        right = "A column is a whole number, counted from 0"
        if type(value.held) not in (int, float):
            why = ", and never a name" if type(value.held) is str else ""
            yield Finding(MISSING_PART, value.begin, f"{what} is {self.told(value)}. {right}{why}.")
        elif type(value.held) is float or value.held < 0:
            yield Finding(BAD_NUMBER, value.begin, f"{what} is {self.raw(value)}. {right}, in digits alone.")

    def tests(self, value: Value) -> Iterator[Finding]:
        if type(value.held) is not list:
            yield self.wrong("where", value, 'It must be an array of tests, as [[0,"=",{"int":5}]]; [] has none.')
            return
        if self.is_one_test(value):
            raw = self.raw(value)
            yield Finding(MISSING_PART, value.begin,
                          f"`where` is the test {raw} itself. It must be an array of tests: [{raw}].")
            return
        for place, one in enumerate(value.held, 1):
            yield from self.test(place, one)
        yield from self.too_many("where", value, MOST_TESTS)

    def is_one_test(self, value: Value) -> bool:
        return len(value.held) == 3 and type(value.held[1].held) is str and type(value.held[0].held) in (int, str)

    def test(self, place: int, value: Value) -> Iterator[Finding]:
        if type(value.held) is not list or len(value.held) != 3:
            count = f", which has {len(value.held)} entries" if type(value.held) is list else f", {value.kind()}"
            yield Finding(MISSING_PART, value.begin,
                          f"Test {place} of `where` is {self.raw(value)}{count}. It must be an array of three: a "
                          'column, a comparison and what to compare with, as [0,"=",{"int":5}].')
            return
        left, comparison, right = value.held
        yield from self.column(f"The column of test {place} of `where`", left)
        if comparison.held not in COMPARISONS:
            known = ", ".join(map(quoted, COMPARISONS))
            meant = advice.SAID_FOR_COMPARISONS.get(str(comparison.held).lower())
            wanted = f"It must be one of {known}." + (f" Write {quoted(meant)}." if meant else "")
            yield Finding(MISSING_PART, comparison.begin,
                          f"The comparison of test {place} of `where` is {self.raw(comparison)}. {wanted}")
        yield from self.right_side(place, right)

    def right_side(self, place: int, value: Value) -> Iterator[Finding]:
        side = right_side(value)
        if side is None:
            told, right = self.told(value), self.wanted_side(value)
            yield Finding(MISSING_PART, value.begin,
                          f"What test {place} of `where` compares with is {told}. It must be an object: {right}")
        elif side[0] == "column":
            yield from self.column(f"The column that test {place} of `where` compares with", side[1])
        elif side[0] == "int":
            yield from self.number(f"The `int` of test {place} of `where`", side[1], -(2**63), 2**63 - 1, '{"int":5}')
        elif type(side[1].held) is not str:
            told = self.told(side[1])
            yield Finding(MISSING_PART, side[1].begin,
                          f"The `text` of test {place} of `where` is {told}. It must stand between quotes.")

    def wanted_side(self, value: Value) -> str:
        """How to write what a value is meant as on the right side of a test."""
        if type(value.held) is str:
            return f'{{"text":{self.raw(value)}}} for this text, or {{"column":1}} for a column.'
        if type(value.held) in (int, float):
            return f'{{"int":{self.raw(value)}}} for this number, or {{"column":{self.raw(value)}}} for a column.'
        return '{"column":1} for a column, {"int":5} for a number or {"text":"a"} for a text.'

    def level(self, value: Value) -> Iterator[Finding]:
        if type(value.held) is str:
            if value.held not in LEVELS:
                meant = self.level_meant(value.held)
                yield Finding(BAD_LEVEL, value.begin, f"`level` is {self.raw(value)}. It must be {LEVEL_FORM}.{meant}")
            return
        if type(value.held) is not dict:
            yield self.wrong("level", value, f"It must be {LEVEL_FORM}.")
            return
        found = [one for name in ("block", "memory") for one in self.bound(value, name)]
        yield from found
        block, memory = value.member("block"), value.member("memory")
        # float takes the text "inf" too
        if not found and float(block.held) > float(memory.held):
            yield Finding(BAD_LEVEL, value.begin,
                          f"The level's block, {self.raw(block)}, is over its memory, {self.raw(memory)}. What is "
                          "waited for can't be forgotten before: make the memory as long at least.")

    def level_meant(self, said: str) -> str:
        if said.lower() == "weak":
            return ' A weak level is the object, whose memory says how late a change may be: {"block":0,"memory":60}.'
        near = advice.near(said, LEVELS)
        return f' Write "{near}".' if near else ""

    def bound(self, level: Value, name: str) -> Iterator[Finding]:
        value = level.member(name)
        if value is None:
            yield Finding(MISSING_PART, level.begin,
                          f'The level has no `{name}`. It must have a `block` and a `memory`, each a number or "inf", '
                          'as in {"block":0,"memory":60}.')
        elif value.held != "inf":
            for found in self.number(f"The level's `{name}`", value, 0, LONGEST, f'"{name}":60'):
                yield found._replace(text=f'{found.text} "inf" says without limit.')


def right_side(value: Value) -> tuple[str, Value] | None:
    """Which member counts of what a test compares with, and its value."""
    for name in SIDES:
        if value.member(name) is not None:
            return name, value.member(name)
    return None


def quoted(text: str) -> str:
    return f'"{text}"'
