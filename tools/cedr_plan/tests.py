"""Tests and lists of columns, as a document has them."""
from __future__ import annotations

import cedr_explain.advice as advice
from cedr_explain.language import COMPARISONS, MOST_TESTS
from cedr_plan.columns import Column, Reach, prefixed
from cedr_plan.refused import Refused, listed
from cedr_plan.tree import Path, Test, Word, spelt_path, text_of
from cedr_plan.units import MOST_DIGITS

A_TYPE = {"int": "a number", "text": "a text"}


def tests_of(tests: list, reach: Reach) -> list:
    if len(tests) > MOST_TESTS:
        first = tests[MOST_TESTS].left
        raise Refused(first.place, f"This is test {MOST_TESTS + 1}, and a node has at most {MOST_TESTS}.")
    return [test_of(test, reach) for test in tests]


def test_of(test: Test, reach: Reach) -> list:
    comparison = comparison_of(test.sign)
    if not isinstance(test.left, Path):
        turned = f"; turn it round, as in {spelt_path(test.right.parts)} .. {test.left.text}" if isinstance(test.right, Path) else ""
        raise Refused(test.left.place, f"A test begins with a column, and not with {test.left.text}{turned}.")
    left = reach.find(test.left)
    own = reach.columns[left]
    check_quotes(test.right, own, reach)
    side, kind = side_of(test.right, reach)
    if own.type != kind:
        told = spelt_path(test.right.parts) if isinstance(test.right, Path) else test.right.text
        hint = f' Write "{told}" for the text.' if own.type == "text" and not isinstance(test.right, Path) else ""
        raise Refused(test.left.place, f"`{spelt_path(own.name)}` is {A_TYPE[own.type]}, and {told} is {A_TYPE[kind]}. The two sides of a "
                                       f"test are of one type.{hint}")
    return [left, comparison, side]


def check_quotes(side, own: Column, reach: Reach) -> None:
    """Refuses a word that is no column and is compared with a text: its quotes are missing."""
    if isinstance(side, Path) and len(side.parts) == 1 and own.type == "text" and not reach.places(side.parts):
        shown = spelt_path(side.parts)
        raise Refused(side.place, f'There is no column `{shown}` here. A text stands between double quotes: "{side.parts[0]}". '
                                  f"{reach.meant(side.parts)}")


def comparison_of(sign: Word) -> str:
    if sign.text in COMPARISONS:
        return sign.text
    meant = advice.SAID_FOR_COMPARISONS.get(sign.text)
    hint = f" Write `{meant}`." if meant else ""
    raise Refused(sign.place, f"`{sign.text}` is no comparison. They are {listed(f'`{one}`' for one in COMPARISONS)}.{hint}")


def side_of(side, reach: Reach) -> tuple:
    """The right side of a test as a document has it, and its type."""
    if isinstance(side, Path):
        place = reach.find(side)
        return {"column": place}, reach.columns[place].type
    if side.kind == "TEXT":
        return {"text": text_of(side)}, "text"
    return {"int": whole(side, -(2**63), 2**63 - 1)}, "int"


def whole(word: Word, least: int, most: int) -> int:
    """A whole number in this range."""
    if "." in word.text:
        raise Refused(word.place, f"{word.text} isn't a whole number. {advice.about_number(word.text)}".rstrip())
    value = int(word.text) if len(word.text) <= MOST_DIGITS else most + 1
    if not least <= value <= most:
        shown = word.text if len(word.text) <= MOST_DIGITS else f"{word.text[:MOST_DIGITS]} .."
        raise Refused(word.place, f"{shown} is out of range: it must be from {least:,} to {most:,}.")
    return value


def listed_columns(items: list, reach: Reach, word: str = "") -> tuple:
    """The numbers of the columns of a list, the columns of the result that they give, and their places."""
    numbers, columns, places = [], [], []
    for item in items:
        number = reach.find(item.path)
        column = reach.columns[number]
        if word == "sum" and column.type == "text":
            raise Refused(item.path.place, f"`{spelt_path(item.path.parts)}` is a text, and numbers alone are summed.")
        own = prefixed(word, column.name) if word else column.name
        numbers.append(number)
        columns.append(Column(item.alias.parts if item.alias else own, column.type))
        places.append(item.path.place)
    return numbers, columns, places
