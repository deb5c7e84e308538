"""Spans of time with their units, and times as dates."""
from __future__ import annotations

import re
from datetime import datetime, timedelta, timezone
from fractions import Fraction
from typing import NamedTuple

import cedr_explain.advice as advice
from cedr_explain.language import LONGEST
from cedr_plan.refused import Refused, listed
from cedr_plan.tree import Span, Word

# How many nanoseconds each unit has.
LENGTHS = {"nanosecond": 1, "microsecond": 10**3, "millisecond": 10**6, "second": 10**9, "minute": 60 * 10**9,
           "hour": 3600 * 10**9, "day": 86_400 * 10**9, "week": 604_800 * 10**9}
SHORT = {"ns": "nanosecond", "us": "microsecond", "ms": "millisecond", "s": "second", "sec": "second", "min": "minute",
         "h": "hour", "d": "day", "w": "week"}
WORDS = {**{name: name for name in LENGTHS}, **{f"{name}s": name for name in LENGTHS}, **SHORT}
UNEQUAL = {"month": "28 to 31 days", "year": "365 or 366 days", "quarter": "90 to 92 days"}
# A longer number is beyond every limit, and Python's int takes no text of over 4,300 digits.
MOST_DIGITS = 40
DATE = re.compile(r"(\d{4}-\d{2}-\d{2})(?:T(\d{2}:\d{2})(?::(\d{2}))?(Z|[+-]\d{2}:?\d{2}))?", re.ASCII)


class Unit(NamedTuple):
    """What the times of the files count, by its name and its length in nanoseconds."""
    name: str
    length: int


def unit_named(word: Word) -> Unit:
    name = WORDS.get(word.text)
    if name is None:
        raise Refused(word.place, f"`{word.text}` is no unit. {about_unit(word.text)}".rstrip())
    return Unit(name, LENGTHS[name])


def about_unit(text: str) -> str:
    plain = text.lower()
    singular = plain.removesuffix("s")
    if plain in WORDS:
        return f"Units are written in small letters: `{plain}`."
    if singular in UNEQUAL:
        return f"A {singular} has {UNEQUAL[singular]}; write how many days are meant."
    if plain in ("m", "mn", "mins"):
        return "Write `min` for minutes."
    near = advice.near(plain, WORDS)
    known = f"The units are {listed(LENGTHS)}."
    return f"Perhaps `{near}` is meant. {known}" if near else known


def number_of(word: Word) -> Fraction:
    if len(word.text) > MOST_DIGITS:
        raise Refused(word.place, f"This number has {len(word.text):,} digits, and is beyond every limit.")
    return Fraction(word.text)


def span_in(span: Span, unit: Unit | None, least: int = 1) -> int:
    """The span in the unit of the files, which the plan's document has."""
    total, is_behind = Fraction(0), False
    words = list(span.words)
    while words:
        number = words.pop(0)
        own = words.pop(0) if words and words[0].kind == "WORD" else None
        check_unit(number, own, unit, is_behind)
        length = Fraction(unit_named(own).length, unit.length) if own else 1
        total += number_of(number) * length
        is_behind = True
    return in_range(span, total, unit, least)


def check_unit(number: Word, own: Word | None, unit: Unit | None, is_behind: bool) -> None:
    if own and not unit:
        raise Refused(own.place, f"`{own.text}` stands here, and the text doesn't say what the times of its files count. Write a line "
                                 "such as `unit second` at its top.")
    if not own and is_behind:
        raise Refused(number.place, f"{number.text} stands behind a span. Each number of a span has its unit, as in 1 hour 30 minutes.")
    if not own and unit and number_of(number) != 0:
        raise Refused(number.place, f"{number.text} has no unit. Where a line says `unit {unit.name}`, each span has one: "
                                    f"{number.text} {unit.name}{'s' * (number.text != '1')}.")


def in_range(span: Span, total: Fraction, unit: Unit | None, least: int) -> int:
    told, own = " ".join(word.text for word in span.words), f" {unit.name}s" if unit else ""
    if total.denominator != 1:
        raise Refused(span.place, f"{told} isn't a whole number{f' of{own}' if unit else ''}: {not_whole(total, unit)}")
    if not least <= total <= LONGEST:
        raise Refused(span.place, f"{told} is out of range. A span here is from {least} to {LONGEST:,}{own}.")
    return int(total)


def not_whole(total: Fraction, unit: Unit | None) -> str:
    if not unit:
        return "times are whole numbers, in a unit of the files' own."
    floor = total.numerator // total.denominator
    finer = finer_unit(total, unit)
    hint = f", or count the times of the files in {finer}s, with `unit {finer}`" if finer else ""
    return f"it lies between {floor} and {floor + 1}. Write one of these{hint}."


def finer_unit(total: Fraction, unit: Unit) -> str:
    """The greatest unit in which this span is whole."""
    for name, length in reversed(LENGTHS.items()):
        if length < unit.length and (total * unit.length / length).denominator == 1:
            return name
    return ""


class Calendar(NamedTuple):
    """How times are dates: the moment of the time 0, and the unit that times count."""
    epoch: datetime
    unit: Unit

    def date(self, time: str) -> str:
        """A time as a date in UTC. What lies beyond the year 9999 stays a number, and `inf` stays."""
        if not time.isdigit() or len(time) > 20:
            return time
        seconds, rest = divmod(int(time) * self.unit.length, 10**9)
        try:
            moment = self.epoch + timedelta(seconds=seconds)
        except OverflowError:
            return time
        digits = {1: 9, 10**3: 6, 10**6: 3}.get(self.unit.length, 0)
        part = f".{rest:09d}"[: digits + 1] if digits else ""
        return f"{moment:%Y-%m-%dT%H:%M:%S}".rjust(19, "0") + part + "Z"


def moment_of(word: Word) -> datetime:
    """The moment that a date names, in UTC where it has no zone and no time."""
    found = DATE.fullmatch(word.text)
    try:
        if not found:
            raise ValueError
        day, minute, second, zone = found.groups()
        zone = "+00:00" if zone in (None, "Z") else zone if ":" in zone else f"{zone[:3]}:{zone[3:]}"
        moment = datetime.fromisoformat(f"{day}T{minute or '00:00'}:{second or '00'}{zone}")
        return moment.astimezone(timezone.utc)
    except (ValueError, OverflowError):
        raise Refused(word.place, f"{word.text} isn't a date in the form 1970-01-01 or 1970-01-01T00:00:00Z.") from None
