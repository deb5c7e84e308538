"""A JSON text (RFC 8259) with the place of each value, or where and why it isn't one."""
from __future__ import annotations

import math
import re
from typing import NamedTuple

DEEPEST = 127
BLANK = re.compile(r"[ \t\n\r]*")
NUMBER = re.compile(r"-?(?:0|[1-9][0-9]*)(?:\.[0-9]+)?(?:[eE][+-]?[0-9]+)?")
WORD = re.compile(r"[A-Za-z_0-9.+-]+")
WHOLE = re.compile(r"-?[0-9]{1,20}")
PLAIN = re.compile(r'[^"\\\x00-\x1f]*')
CODE = re.compile("[0-9a-fA-F]{4}")
ESCAPES = {'"': '"', "\\": "\\", "/": "/", "b": "\b", "f": "\f", "n": "\n", "r": "\r", "t": "\t"}
WORDS = {"true": True, "false": False, "null": None}
KINDS = {dict: "an object", list: "an array", str: "a text", bool: "true or false", int: "a number", float: "a number",
         type(None): "null"}


class Value(NamedTuple):
    """A value, and where it begins and ends in the text. An object's members and an array's entries are Values again.

    `twice` has the members that an object names again, of which the last one counts.
    """
    held: object
    begin: int
    end: int
    twice: tuple = ()

    def kind(self) -> str:
        return KINDS[type(self.held)]

    def member(self, name: str) -> Value | None:
        return self.held.get(name) if type(self.held) is dict else None


class NoJson(Exception):
    """Why the text isn't JSON, and at which place."""

    def __init__(self, why: str, place: int) -> None:
        super().__init__(why, place)
        self.why, self.place = why, place


def decoded(data: bytes) -> str:
    """The text of these bytes. Raises NoJson at the number of letters before the first wrong byte."""
    if data.startswith((b"\xff\xfe", b"\xfe\xff")) or len(data) > 1 and data[:2].count(0) == 1:
        raise NoJson("the text is UTF-16; a plan is UTF-8", 0)
    try:
        text = data.decode("utf-8")
    except UnicodeDecodeError as error:
        place = len(data[: error.start].decode("utf-8"))
        raise NoJson(f"the byte {data[error.start]:#04x} stands here, which isn't UTF-8", place) from None
    if text.startswith("\ufeff"):
        raise NoJson("the text begins with a byte order mark; save it as UTF-8 without one", 0)
    return text


def read(text: str) -> Value:
    """The value of the whole text."""
    reader = Reader(text)
    value = reader.value(reader.after_blank(0), 0)
    behind = reader.after_blank(value.end)
    if behind < len(text):
        raise NoJson("the plan has ended before this; nothing may follow its last brace", behind)
    return value


class Reader:
    """Reads values of a text, each from a place that isn't blank."""

    def __init__(self, text: str) -> None:
        self.text = text

    def after_blank(self, place: int) -> int:
        return BLANK.match(self.text, place).end()

    def value(self, place: int, depth: int) -> Value:
        sign = self.text[place: place + 1]
        if sign in ("{", "["):
            if depth == DEEPEST:
                raise NoJson(f"arrays and objects nest over {DEEPEST} deep here", place)
            return (self.members if sign == "{" else self.entries)(place, depth + 1)
        if sign == '"':
            text, end = self.string(place)
            return Value(text, place, end)
        return self.word_or_number(place)

    def members(self, start: int, depth: int) -> Value:
        members, twice = {}, []
        place = self.after_blank(start + 1)
        while self.text[place: place + 1] != "}":
            if members:
                place = self.after_comma(place, start, "}")
            if self.text[place: place + 1] != '"':
                raise NoJson(self.no_name(place, start), place)
            name, end = self.string(place)
            place = self.after_blank(end)
            if self.text[place: place + 1] != ":":
                raise NoJson(f'a colon is missing behind the name "{name}"', place)
            value = self.value(self.after_blank(place + 1), depth)
            twice += [name] * (name in members)
            members[name] = value
            place = self.after_blank(value.end)
        return Value(members, start, place + 1, tuple(twice))

    def entries(self, start: int, depth: int) -> Value:
        entries = []
        place = self.after_blank(start + 1)
        while self.text[place: place + 1] != "]":
            if entries:
                place = self.after_comma(place, start, "]")
            entries.append(self.value(place, depth))
            place = self.after_blank(entries[-1].end)
        return Value(entries, start, place + 1)

    def after_comma(self, place: int, start: int, close: str) -> int:
        """The place behind the comma here, and behind blanks."""
        sign = self.text[place: place + 1]
        if sign != ",":
            raise NoJson(self.no_comma(sign, start, close), place)
        behind = self.after_blank(place + 1)
        if self.text[behind: behind + 1] == close:
            raise NoJson(f"nothing follows this comma before the `{close}`; leave it out", place)
        return behind

    def no_comma(self, sign: str, start: int, close: str) -> str:
        kind = "object" if close == "}" else "array"
        begun = f"the {kind} that begins at {position(self.text, start)}"
        if not sign:
            return f"the text ends here, and {begun} has no `{close}`"
        if sign in "]}":
            return f"`{sign}` stands here, and {begun} ends with `{close}`"
        return comment(sign) or f"a comma or `{close}` is missing here"

    def no_name(self, place: int, start: int) -> str:
        sign = self.text[place: place + 1]
        if not sign:
            return self.no_comma(sign, start, "}")
        if sign == "'":
            return "a member's name stands between double quotes (\"), and not between single ones"
        word = WORD.match(self.text, place)
        if word and not word[0][0].isdigit():
            return f'a member\'s name stands between double quotes: "{word[0]}"'
        return comment(sign) or "a member's name between double quotes is missing here"

    def string(self, start: int) -> tuple[str, int]:
        """The text between the quotes from here on, and the place behind them."""
        parts, place = [], start + 1
        while True:
            plain = PLAIN.match(self.text, place)
            parts.append(plain[0])
            place = plain.end()
            sign = self.text[place: place + 1]
            if sign == '"':
                return "".join(parts), place + 1
            if sign != "\\":
                raise NoJson(self.no_string(sign, start), place)
            part, place = self.escape(place)
            parts.append(part)

    def no_string(self, sign: str, start: int) -> str:
        if sign in ("", "\n", "\r"):
            return f"the text that begins at {position(self.text, start)} has no closing quote in its line"
        return f"a text has the sign {ord(sign):#04x} as an escape alone: \\u{ord(sign):04x}"

    def escape(self, place: int) -> tuple[str, int]:
        """The sign that the escape at this place stands for, and the place behind it."""
        sign = self.text[place + 1: place + 2]
        if sign in ESCAPES:
            return ESCAPES[sign], place + 2
        if sign != "u":
            raise NoJson('a backslash stands before one of " \\ / b f n r t u alone; for itself it is written twice',
                         place)
        high, behind = self.code(place)
        if 0xDC00 <= high < 0xE000:
            raise NoJson("this is the second half of a letter, without the first half before it", place)
        if not 0xD800 <= high < 0xDC00:
            return chr(high), behind
        low = self.code(behind)[0] if self.text[behind: behind + 2] == "\\u" else 0
        if not 0xDC00 <= low < 0xE000:
            raise NoJson("this is the first half of a letter, without the second half behind it", place)
        return chr(0x10000 + ((high - 0xD800) << 10) + (low - 0xDC00)), behind + 6

    def code(self, place: int) -> tuple[int, int]:
        found = CODE.match(self.text, place + 2)
        if not found:
            raise NoJson("four digits of base 16 follow \\u", place)
        return int(found[0], 16), found.end()

    def word_or_number(self, place: int) -> Value:
        word = WORD.match(self.text, place)
        if word and word[0] in WORDS:
            return Value(WORDS[word[0]], place, word.end())
        number = NUMBER.match(self.text, place)
        if not number or word and word.end() != number.end():
            raise NoJson(self.no_value(place, word[0] if word else ""), place)
        return Value(self.number(number[0], place), place, number.end())

    def number(self, digits: str, place: int) -> object:
        """A whole number of 64 bits as an int, and each other number as a float."""
        if WHOLE.fullmatch(digits) and digits != "-0" and -(2**63) <= int(digits) < 2**64:
            return int(digits)
        if math.isinf(float(digits)):
            raise NoJson("this number is too large even for a float of 64 bits", place)
        return float(digits)

    def no_value(self, place: int, word: str) -> str:
        sign = self.text[place: place + 1]
        if not sign:
            return "the text ends here, where a value is missing" if place else "the text is empty"
        if sign == "'":
            return "a text stands between double quotes (\"), and not between single ones"
        if word.lower() in WORDS or word in ("None", "nil"):
            return f"JSON writes true, false and null, in small letters, and not {word}"
        if word.lstrip("+-").lower() in ("nan", "inf", "infinity"):
            return f'JSON has no number {word}; where a plan allows no limit it is the text "inf"'
        if sign in "+.0123456789-":
            right = "digits, perhaps after one `-`, without a sign `+` or a zero in front"
            return f"`{word}` isn't a number of JSON: {right}"
        if word:
            return f'`{word}` is no value; a text stands between double quotes: "{word}"'
        return comment(sign) or f"a value is missing before {sign!r}"


def comment(sign: str) -> str:
    return "JSON has no comments" if sign in ("/", "#") else ""


def position(text: str, place: int) -> str:
    """The line and the column of a place, for people."""
    line, column = line_and_column(text, place)
    return f"line {line}, column {column}"


def line_and_column(text: str, place: int) -> tuple[int, int]:
    return text.count("\n", 0, place) + 1, place - text.rfind("\n", 0, place)
