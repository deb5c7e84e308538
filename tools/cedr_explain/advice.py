"""What people write for what a plan or an event file has: words of other systems, spans with units, near misses."""
from __future__ import annotations

import difflib
import re

SAID_FOR_OPERATORS = {
    "filter": "select", "where": "select", "having": "select",
    "map": "project", "columns": "project", "keep": "project", "fields": "project",
    "merge": "union", "concat": "union", "append": "union", "unionall": "union",
    "lookup": "join", "innerjoin": "join", "inner": "join",
    "aggregate": "group", "groupby": "group", "reduce": "group", "count": "group", "sum": "group", "min": "group",
    "max": "group", "avg": "group",
    "tumble": "hop", "tumbling": "hop", "hopping": "hop", "slide": "hop", "bucket": "hop",
    "sliding": "window", "timeout": "window", "expire": "window",
    "delay": "shift", "lag": "shift", "lead": "shift",
    "begin": "starts", "start": "starts",
    "end": "ends",
    "seq": "sequence", "followedby": "sequence", "then": "sequence", "pattern": "sequence",
    "not": "unless", "absent": "unless", "without": "unless", "missing": "unless",
    "minus": "except", "difference": "except", "antijoin": "except",
    "anyof": "atleast", "any": "atleast",
    "input": "source", "file": "source", "read": "source", "csv": "source", "from": "source", "stream": "source",
    "sink": "output", "result": "output", "write": "output", "print": "output",
}
SAID_FOR_COMPARISONS = {
    "==": "=", "===": "=", "eq": "=", "equals": "=", "is": "=",
    "<>": "!=", "ne": "!=", "not": "!=", "~=": "!=", "/=": "!=", "!==": "!=", "≠": "!=",
    "=<": "<=", "le": "<=", "lte": "<=", "≤": "<=",
    "=>": ">=", "ge": ">=", "gte": ">=", "≥": ">=",
    "lt": "<",
    "gt": ">",
}
SAID_FOR_TYPES = {
    "string": "text", "str": "text", "varchar": "text", "char": "text", "bytes": "text", "keyword": "text",
    "text": "text",
    "int": "int", "integer": "int", "number": "int", "long": "int", "bigint": "int", "int64": "int", "int32": "int",
    "i64": "int",
}
DECIMALS = ("float", "double", "decimal", "real", "numeric", "money", "float64", "f64")
DATES = ("date", "time", "datetime", "timestamp", "instant")
FLAGS = ("bool", "boolean", "flag")

SECONDS = {"s": 1, "sec": 1, "second": 1, "m": 60, "min": 60, "minute": 60, "h": 3600, "hr": 3600, "hour": 3600,
           "d": 86_400, "day": 86_400, "w": 604_800, "week": 604_800}
THOUSANDTHS = ("ms", "msec", "millisecond", "milliseconds")
# Each number of a plan has fewer digits than these, and a longer one is no span. Python's int takes no text of over
# 4,300 digits.
DIGITS = 20
SPAN = re.compile(rf"\s*0*([0-9]{{1,{DIGITS}}})\s*([a-z]+)\s*", re.IGNORECASE)
PLAIN_SPAN = re.compile(rf"0*([0-9]{{1,{DIGITS}}})")
DATE = re.compile(r"\s*[0-9]{4}-[0-9]{2}-[0-9]{2}([T ][0-9:.]+(Z|[+-][0-9:]+)?)?\s*")
DECIMAL = re.compile(r"\s*-?[0-9]+[.][0-9]+\s*")
GROUPED = re.compile(r"\s*-?[0-9]{1,3}([ ,._'][0-9]{3})+\s*")


def near(word: str, known) -> str:
    """The one of the known words that this one is likely meant as, or nothing."""
    known = list(known)
    same = [one for one in known if one.lower() == word.lower().strip()]
    close = same or difflib.get_close_matches(word, known, 1, 0.7)
    return close[0] if close else ""


def operator_for(word: str, known) -> str:
    """The operator that is likely meant by this word."""
    plain = re.sub("[^a-z]", "", word.lower())
    said = SAID_FOR_OPERATORS.get(plain, plain)
    return said if said in known else near(plain, known)


def about_type(word: str) -> str:
    """What stands for a type that there is none of."""
    plain = word.lower().strip()
    if plain in SAID_FOR_TYPES:
        return f'Write "{SAID_FOR_TYPES[plain]}" for it.'
    if plain in DECIMALS:
        return 'There are no decimals: count in a smaller unit, as 1250 cents for 12.50, and write "int".'
    if plain in DATES:
        return 'A date is a whole number of a unit, as 1767225600 seconds for 2026-01-01, and its type is "int".'
    return 'There is no truth value: write 0 and 1 with the type "int".' if plain in FLAGS else ""


def about_span(word: str) -> str:
    """What a span with a unit is as a number."""
    found = SPAN.fullmatch(word)
    unit = found[2].lower() if found else ""
    if unit in THOUSANDTHS:
        return f"{word.strip()} is {int(found[1])} where times are in milliseconds."
    if unit in SECONDS or unit.removesuffix("s") in SECONDS:
        seconds = int(found[1]) * SECONDS.get(unit, SECONDS.get(unit.removesuffix("s")))
        return f"{word.strip()} is {seconds} where times are in seconds, and {seconds * 1000} where in milliseconds."
    plain = PLAIN_SPAN.fullmatch(word.strip().replace(",", "").replace("_", ""))
    return f"Write it without quotes: {int(plain[1])}." if plain else ""


def about_number(word: str) -> str:
    """What keeps a text from being a whole number in digits."""
    if not word:
        return "It is empty."
    if word != word.strip():
        return "It has a blank at its begin or its end."
    if DATE.fullmatch(word):
        return "It is a date; a time is a whole number of a unit, as 1767225600 seconds for 2026-01-01."
    if DECIMAL.fullmatch(word):
        return "It has a decimal point; count in a smaller unit, as 1250 for 12.50."
    if GROUPED.fullmatch(word):
        return "Its digits are grouped; write them without signs between."
    if word.startswith("+"):
        return "It has a sign `+`; write the digits alone."
    return "It is below 0." if word.startswith("-") and word[1:].isdigit() else ""
