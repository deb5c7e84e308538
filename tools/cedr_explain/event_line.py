"""One line of an event file: its fields, or its least fault with a sentence for each place that has it."""
from __future__ import annotations

import codecs
import re
from typing import NamedTuple

import cedr_explain.advice as advice

LINE_BYTES = 65_536
FILE_BYTES = 67_108_864
MOST_FIELDS = 16
# IDs and times are below these; an end `inf` counts as the second.
IDS, TIMES = 2**64, 2**62
# So many bytes of a field are shown.
SHOWN = 60
BYTE_ORDER_MARK = b"\xef\xbb\xbf"
HEADER = re.compile(rb"[A-Za-z_][\w .-]*")
INT = re.compile(rb"-?[0-9]+")

# The faults of a line by number.
LONG_LINE, BAD_FORM, BAD_NUMBER, EMPTY_LIFE, BAD_FIELD, KNOWN_ID, UNKNOWN_ID, BAD_END, PASSED, LARGE_FILE = range(1, 11)

# What a fault is where more can't be said, since the file can't be read again.
FAULTS = {
    LONG_LINE: f"The line has over {LINE_BYTES:,} bytes before its line feed.",
    BAD_FORM: "The line isn't in form: its first field is none of `+`, `-`, `~` and `=`, it has a wrong number of "
              "fields, or a quote, a carriage return or a byte order mark stands where none may.",
    BAD_NUMBER: "Its ID, BEGIN, END or TIME isn't a whole number in digits.",
    EMPTY_LIFE: "Its END isn't after its BEGIN.",
    BAD_FIELD: "A field that the plan calls an int isn't a whole number of 64 bits.",
    KNOWN_ID: "An earlier line inserted its ID.",
    UNKNOWN_ID: "No earlier line inserted its ID.",
    BAD_END: "Its new end isn't from the event's begin on and below its end.",
    PASSED: "It changes something before the guarantee.",
    LARGE_FILE: f"The file has over {FILE_BYTES:,} bytes.",
}

NAMES = {b"+": "An insertion", b"~": "A revision", b"-": "A retraction", b"=": "A guarantee"}
FORMS = {b"+": "+,ID,BEGIN,END", b"~": "~,ID,BEGIN,END", b"-": "-,ID,END", b"=": "=,TIME"}
SAID_FOR_KINDS = {"i": "+", "insert": "+", "add": "+", "c": "+", "d": "-", "delete": "-", "remove": "-", "retract": "-",
                  "u": "~", "update": "~", "revise": "~", "watermark": "=", "guarantee": "=", "mark": "="}
KINDS = "It must be `+` for an insertion, `-` for a retraction, `~` for a revision or `=` for a guarantee."
OPEN = ("", "infinity", "inf", "forever", "null", "none", "never", "max", "∞")
SEPARATORS = {b";": "semicolons", b"\t": "tabs", b"|": "bars"}


class Line(NamedTuple):
    """A line in form, with an empty kind where the line is empty. A guarantee has its TIME as its end."""
    kind: bytes
    identity: int = 0
    begin: int = 0
    end: int = 0


class LineFault(Exception):
    """The least fault of a line, and sentences about it."""

    def __init__(self, number: int, *sentences: str) -> None:
        super().__init__(number, sentences)
        self.number, self.sentences = number, sentences


def read_line(data: bytes, types: list | None, is_first: bool) -> Line:
    """Reads a line, without its line feed, of a source of these types, or of any where there are none.

    Raises LineFault.
    """
    if len(data) > LINE_BYTES:
        returns = data.count(b"\r")
        why = f" It has {returns:,} carriage returns: end each line with a line feed." if returns > 1 else ""
        raise LineFault(LONG_LINE, f"It has over {LINE_BYTES:,} bytes before its line feed.{why}")
    text = data[:-1] if data.endswith(b"\r") else data
    if not text:
        return Line(b"")
    check_bytes(text, is_first)
    fields = fields_of(text)
    check_form(text, fields, types, is_first)
    return numbers_of(fields, types)


def check_bytes(text: bytes, is_first: bool) -> None:
    if text.startswith(BYTE_ORDER_MARK):
        what = "The file begins with a byte order mark" if is_first else "It begins with a byte order mark"
        raise LineFault(BAD_FORM, f"{what}, which no line may have in front. Save the file as UTF-8 without one.")
    place = text.find(b"\r")
    if place >= 0:
        before = shown(text[max(0, place - 20): place])
        raise LineFault(BAD_FORM,
                        f"A carriage return stands inside it, behind {before}. One alone is dropped, and that at the "
                        "line's end.")


def fields_of(text: bytes) -> list:
    """The values of the fields. A quoted one may have commas and doubled quotes; a bare one has no quote."""
    fields, place = [], 0
    while True:
        read_field = quoted_field if text[place: place + 1] == b'"' else bare_field
        value, place = read_field(text, place, len(fields) + 1)
        fields.append(value)
        if place == len(text):
            return fields
        place += 1


def bare_field(text: bytes, place: int, number: int) -> tuple[bytes, int]:
    end = text.find(b",", place)
    end = len(text) if end < 0 else end
    value = text[place:end]
    if value.lstrip().startswith(b'"'):
        raise LineFault(BAD_FORM,
                        f"Field {number}, {shown(value)}, has a blank before its quote. A field that stands between "
                        "quotes begins with one: take the blank out.")
    if b'"' in value:
        right = shown(quoted(value), "")
        raise LineFault(BAD_FORM,
                        f"Field {number}, {shown(value)}, has a quote and doesn't begin with one. Such a field stands "
                        f"between quotes, and a quote in it is written twice: {right}.")
    return value, end


def quoted_field(text: bytes, place: int, number: int) -> tuple[bytes, int]:
    start, parts = place, []
    while True:
        end = text.find(b'"', place + 1)
        if end < 0:
            raise LineFault(BAD_FORM,
                            f"Field {number} begins with a quote, and the line has none that closes it. A field has no "
                            "line break; a quote inside it is written twice.")
        parts.append(text[place + 1: end])
        if text[end + 1: end + 2] != b'"':
            break
        place = end + 1
    behind = text[end + 1: end + 2]
    if behind not in (b"", b","):
        field = shown(text[start: end + 1])
        raise LineFault(BAD_FORM,
                        f"Behind field {number}, {field}, a comma or the line's end must follow, and not "
                        f"{shown(behind)}. A quote inside a field is written twice.")
    return b'"'.join(parts), end + 1


def quoted(value: bytes) -> bytes:
    return b'"' + value.replace(b'"', b'""') + b'"'


def check_form(text: bytes, fields: list, types: list | None, is_first: bool) -> None:
    """The first field, and how many there are."""
    kind = fields[0]
    if kind not in FORMS:
        raise LineFault(BAD_FORM, wrong_kind(text, fields, is_first))
    least = most = FORMS[kind].count(",") + 1
    if kind in (b"+", b"~"):
        least += len(types or [])
        most += MOST_FIELDS if types is None else len(types)
    if least <= len(fields) <= most:
        return
    count = f"{len(fields)} field{'s' * (len(fields) > 1)}"
    wanted = wanted_fields(kind, least, most, types)
    raise LineFault(BAD_FORM, f"It has {count}. {wanted}{separated(text, fields, least)}")


def wanted_fields(kind: bytes, least: int, most: int, types: list | None) -> str:
    form = FORMS[kind]
    if kind in (b"-", b"="):
        return f"{NAMES[kind]} has {least}: {form}."
    if types is None:
        return f"{NAMES[kind]} has {least} to {most}: {form} and up to {MOST_FIELDS} of the event."
    told = "".join(f",{one.upper()}" for one in types)
    return f"{NAMES[kind]} has {least}, since its source has {len(types)} by the plan: {form}{told}."


def separated(text: bytes, fields: list, least: int) -> str:
    """What may have made too few or too many fields."""
    if len(fields) > least:
        return " A field with a comma in it stands between quotes." if fields[0] in (b"+", b"~") else ""
    for sign, name in SEPARATORS.items():
        if sign in text:
            return f" It has {name}; fields are separated by commas."
    return ""


def wrong_kind(text: bytes, fields: list, is_first: bool) -> str:
    kind = fields[0]
    for sign, name in SEPARATORS.items():
        if kind[:1] in FORMS and kind[1:2] == sign:
            return f"Its fields are separated by {name}. They must be by commas: {FORMS[kind[:1]]}."
    told = f"Its first field is {shown(kind) if kind else 'empty'}. {KINDS}"
    if text.startswith((b"#", b"//")):
        return f"{told} An event file has no comments."
    if text[:1] in (b"{", b"["):
        return f"{told} The file looks like JSON, and isn't an event file."
    if kind.strip() in FORMS:
        return f"{told} No blank stands beside it."
    if kind.isdigit() and len(fields) > 1:
        return f"{told} A row becomes an event where its kind and an ID stand in front: {shown(b'+,1,' + text, '')}."
    if is_first and len(fields) > 1 and HEADER.fullmatch(kind):
        return f"{told} The line looks like a header, and an event file has none: take it out."
    meant = SAID_FOR_KINDS.get(kind.decode("utf-8", "replace").lower())
    return told + (f" Write `{meant}`." if meant else "")


def numbers_of(fields: list, types: list | None) -> Line:
    """The line of fields that are in form."""
    kind = fields[0]
    if kind == b"=":
        check_number(("TIME", fields[1], TIMES, True))
        return Line(kind, end=time_of(fields[1]))
    if kind == b"-":
        check_number(("ID", fields[1], IDS, False), ("END", fields[2], TIMES, True))
        return Line(kind, whole(fields[1]), end=time_of(fields[2]))
    check_number(("ID", fields[1], IDS, False), ("BEGIN", fields[2], TIMES, False), ("END", fields[3], TIMES, True))
    line = Line(kind, whole(fields[1]), whole(fields[2]), time_of(fields[3]))
    if line.end <= line.begin:
        moment = f" An event of one moment has the END {line.begin + 1}." if line.begin == line.end else ""
        raise LineFault(EMPTY_LIFE,
                        f"Its END, {time_text(line.end)}, isn't after its BEGIN, {line.begin}. An event is valid from "
                        f"BEGIN on and before END.{moment}")
    check_ints(fields[4:], types or [])
    return line


def check_number(*wanted: tuple) -> None:
    """Each is the name of a number, its text, what it is below, and whether it may be `inf`."""
    wrong = []
    for name, value, limit, may_be_open in wanted:
        is_open = may_be_open and value == b"inf"
        if not is_open and not (value.isdigit() and int_below(value, limit)):
            right = f"a whole number from 0 to {limit - 1:,}, in digits alone{', or `inf`' * may_be_open}"
            wrong.append(f"Its {name} is {shown(value)}. It must be {right}. {about(name, value)}".rstrip())
    if wrong:
        raise LineFault(BAD_NUMBER, *wrong)


def int_below(digits: bytes, limit: int) -> bool:
    """Whether the number is below. A long number isn't worked out."""
    return len(digits.lstrip(b"0")) <= 20 and whole(digits) < limit


def whole(digits: bytes) -> int:
    """The number in these digits. A line has room for more zeros in front than Python's int takes."""
    return int(digits.lstrip(b"0") or b"0")


def about(name: str, value: bytes) -> str:
    """What keeps a field from being a number."""
    text = value.decode("utf-8", "replace")
    if name == "END" and text.strip().lower() in OPEN:
        return "The END of what has no end is `inf`."
    if name == "BEGIN" and text == "inf":
        return "An event begins at some time; only its END may be `inf`."
    return "It is too large." if value.isdigit() else advice.about_number(text)


def check_ints(fields: list, types: list) -> None:
    wrong = []
    for place, (value, one) in enumerate(zip(fields, types)):
        if one == "int" and not is_int(value):
            text = value.decode("utf-8", "replace")
            why = "It is out of that range." if INT.fullmatch(value) else advice.about_number(text)
            wrong.append(f"Its field {place}, {shown(value)}, must be an int by the plan: a whole number from -2^63 to "
                         f"2^63 - 1, in digits, perhaps after a `-`. {why}".rstrip())
    if wrong:
        raise LineFault(BAD_FIELD, *wrong)


def is_int(value: bytes) -> bool:
    if not INT.fullmatch(value):
        return False
    return int_below(value.lstrip(b"-"), 2**63 + value.startswith(b"-"))


def time_of(value: bytes) -> int:
    return TIMES if value == b"inf" else whole(value)


def time_text(time: int) -> str:
    return "inf" if time == TIMES else str(time)


def shown(value: bytes, quote: str = "`", most: int = SHOWN) -> str:
    """The bytes for people: signs that can't be seen as escapes, and cut where there are over so many bytes."""
    is_cut = len(value) > most
    text = codecs.getincrementaldecoder("utf-8")("backslashreplace").decode(value[:most], not is_cut)
    text = "".join(one if one.isprintable() else one.encode("unicode_escape").decode() for one in text)
    return f"{quote}{text}{' ..' * is_cut}{quote}"
