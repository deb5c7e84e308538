"""A text from a file or from standard input, cut into its statements."""
from __future__ import annotations

import re
import sys
from typing import Iterator, NamedTuple

import cedr_explain.outside as outside
from cedr_explain.commands import Call
from cedr_explain.json_text import NoJson, decoded
from cedr_plan.refused import BAD_PLAN, UNREAD, Failed, Refused, placed

MARK = b"\xef\xbb\xbf"
MOST_BYTES = 1_048_576
# A line that goes on with the statement before it: one that begins with a blank or a closing bracket, and the parts of a
# pattern. A node may be named as they are.
GOES_ON = re.compile(r"[ \t)}{]|(?:WHEN|WHERE|AND|OUTPUT|WITH)\b(?!\s*=)")
SAYS_NOTHING = re.compile(r"[ \t\r]*(?:#.*)?\Z", re.DOTALL)


class Statement(NamedTuple):
    """The text of a statement, up to the line before the next one, and where it begins."""
    place: int
    text: str


def read_bytes(name: str) -> bytes:
    try:
        if name == "-":
            return sys.stdin.buffer.read() if sys.stdin else b""
        with open(name, "rb") as file:
            return file.read()
    except (OSError, ValueError) as error:
        why = outside.why_not(name) or getattr(error, "strerror", None) or str(error)
        hint = outside.advice_for(name, Call([]), False)
        raise Failed(UNREAD, f"{shown_name(name)}: it can't be read: {why}.{hint}") from None


def shown_name(name: str) -> str:
    return "standard input" if name == "-" else name.encode("utf-8", "surrogateescape").decode("utf-8", "backslashreplace")


def read_text(name: str) -> str:
    """The text of a plan in words. A byte order mark in front says nothing."""
    data = read_bytes(name)
    data = data[len(MARK):] if data.startswith(MARK) else data
    text = data.decode("utf-8", "replace")
    try:
        decoded(data)
    except NoJson as fault:
        raise Failed(BAD_PLAN, *placed(shown_name(name), text, fault.place,
                                       f"This isn't a plan in words: {fault.why.replace('a plan is', 'it must be')}.")) from None
    if len(data) > MOST_BYTES:
        raise Failed(BAD_PLAN, *placed(shown_name(name), text, 0,
                                       f"The text has {len(data):,} bytes. It may have {MOST_BYTES:,}."))
    return text


def statements(text: str) -> Iterator[Statement]:
    """The statements. One begins at the begin of a line, and goes on over the lines that belong to it."""
    begin, place = None, 0
    for line in text.split("\n"):
        if not SAYS_NOTHING.match(line):
            if not GOES_ON.match(line):
                if begin is not None:
                    yield Statement(begin, text[begin:place])
                begin = place
            elif begin is None:
                yield Statement(place, line)
        place += len(line) + 1
    if begin is not None:
        yield Statement(begin, text[begin:])


def check_begin(statement: Statement) -> None:
    """Refuses what stands before the first statement and would go on with one."""
    if GOES_ON.match(statement.text):
        blanks = len(statement.text) - len(statement.text.lstrip())
        raise Refused(statement.place + blanks,
                      "Nothing stands before this line that it could go on with. A statement begins at the begin of its line, "
                      "and a line that begins with a blank goes on with the one before.")
