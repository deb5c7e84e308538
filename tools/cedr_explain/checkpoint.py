"""Why a file isn't a checkpoint of a plan: the line that was named, what stands in it, and what may stand there.

The file is read again line by line. A pipe can't be read again."""
from __future__ import annotations

import os
from typing import Iterator, NamedTuple

from cedr_explain.event_line import (FORMS, IDS, TIMES, LineFault, about, fields_of, int_below, is_int, quoted, shown,
                                     time_text, whole)
from cedr_explain.events import excerpt, is_regular

LIMIT = 67_174_400
HEAD, END = b"checkpoint,1", b"end"
ANEW = "`cedr save` makes a checkpoint of a script, and each of its lines has one spelling."
BARE = "The file isn't a checkpoint of the plan."
SAVED_OTHERWISE = "Perhaps the checkpoint was saved of another plan, or its sources were changed since."


class Spot(NamedTuple):
    """What stands before a line: how many sources have begun, the last line, whether it was the last one of a checkpoint, and
    the last ID of the last source, which is -1 where it has none."""
    begun: int = 0
    has_ended: bool = False
    last: int = -1


class Beside(NamedTuple):
    """What was called with the checkpoint: the script and the command."""
    script: str
    command: str


def explained(file: str, sources: dict, number: int, script: str, command: str = "resume") -> Iterator[str]:
    """Sentences about the bad line of this number, told by a command. The sources have their types by their names."""
    if not is_regular(file):
        yield f"{file}:{number}: {BARE} The line can't be shown, since {file} is a pipe and can't be read again."
        return
    try:
        if number == 0:
            size = os.stat(file).st_size
            yield f"{file}: It has {size:,} bytes, and a checkpoint has at most {LIMIT:,}."
            return
        lines = list(lines_to(file, number + 1))
        if number > len(lines):
            yield from too_short(file, lines)
        else:
            yield from bad_line(file, sources, number, lines, Beside(script, command))
        lines = [line.removesuffix(b"\n") for line in lines]
        yield from (f"{'>' if place == number else ' '} {place:>{len(str(number + 1))}} | {excerpt(line)}"
                    for place, line in list(enumerate(lines, 1))[max(0, number - 2):])
    except OSError as error:
        yield f"{file}:{number}: {BARE} The line can't be shown: {error.strerror}."


def lines_to(file: str, last: int) -> Iterator[bytes]:
    """The lines up to that of this number, each with its line feed where it has one."""
    with open(file, "rb") as lines:
        for _, line in zip(range(last), lines):
            yield line


def too_short(file: str, lines: list) -> Iterator[str]:
    """The text stops before its last line."""
    if not lines:
        yield f"{file}:1: The file is empty. A checkpoint begins with the line `{HEAD.decode()}`."
    elif not lines[-1].endswith(b"\n"):
        yield (f"{file}:{len(lines)}: The file stops in this line, which has no line feed: it was cut off, or isn't "
               "written to its end. Save it anew.")
    else:
        yield (f"{file}:{len(lines)}: The file stops behind this line. The last line of a checkpoint is `end`: it was cut "
               "off, or isn't written to its end. Save it anew.")


def bad_line(file: str, sources: dict, number: int, lines: list, beside: Beside) -> Iterator[str]:
    line = lines[number - 1].removesuffix(b"\n")
    spot = spot_behind(lines[: number - 1])
    try:
        check(line, spot, sources, beside, number)
        found = [f"{BARE} The file may be another one by now: as it is, nothing is wrong with this line."]
    except LineFault as fault:
        found = list(fault.sentences)
    yield from (f"{file}:{number}: {sentence}" for sentence in found)


def spot_behind(lines: list) -> Spot:
    """What has come with lines that are right."""
    begun, last = 0, -1
    for line in lines:
        first, _, _ = line.partition(b",")
        if first == b"source":
            begun, last = begun + 1, -1
        elif first.isdigit() and int_below(first, IDS):
            last = whole(first)
    return Spot(begun, END + b"\n" in lines[-1:], last)


def check(line: bytes, spot: Spot, sources: dict, beside: Beside, number: int) -> None:
    """Raises what is wrong with a line at this spot."""
    names = list(sources)
    if number == 1:
        check_head(line, names, beside)
    elif spot.has_ended:
        raise LineFault(0, "Behind the line `end` nothing may stand, not even an empty line.")
    elif line.endswith(b"\r"):
        raise LineFault(0, f"A carriage return stands at its end. {ANEW}")
    elif line.startswith(b"source,"):
        check_source(line, names[spot.begun:])
    elif line == END:
        missing = ", ".join(f"`{name}`" for name in names[spot.begun:])
        if missing:
            raise LineFault(0, f"No line has the source {missing} yet, which the plan has. {SAVED_OTHERWISE}")
    elif not spot.begun:
        raise LineFault(0, f"Here the first source of the plan begins: `source,{names[0]},MARK`.")
    elif not line[:1].isdigit():
        raise LineFault(0, f"It is neither {next_line(names[spot.begun:])} nor the line of an event, ID,BEGIN,END,FIELD.. "
                           f"{ANEW}")
    else:
        check_event(line, names[spot.begun - 1], sources[names[spot.begun - 1]], spot.last)


def next_line(names: list) -> str:
    """What stands behind the events of a source."""
    return f"the next source, `source,{names[0]},MARK`," if names else "the last line, `end`,"


def check_head(line: bytes, names: list, beside: Beside) -> None:
    if line == HEAD:
        return
    told = f"The first line of a checkpoint is `{HEAD.decode()}`, and not {shown(line)}."
    if line == HEAD + b"\r":
        told = f"A carriage return stands at its end. {ANEW}"
    elif line.startswith(b"\xef\xbb\xbf"):
        told += " The file begins with a byte order mark, which no checkpoint has."
    elif begins_checkpoint(beside.script):
        told += (f" `{beside.script}` begins with it: the checkpoint stands before the script, "
                 f"`cedr {beside.command} PLAN CHECKPOINT SCRIPT`.")
    elif line[:2] in [kind + b"," for kind in FORMS] or line == b"?" or line.partition(b",")[0].decode("latin-1") in names:
        told += " This is a script or an event file; `cedr save PLAN SCRIPT` makes a checkpoint of a script."
    raise LineFault(0, told)


def begins_checkpoint(file: str) -> bool:
    """Whether a file that can be read again begins as a checkpoint does."""
    try:
        return is_regular(file) and next(lines_to(file, 1), b"").rstrip(b"\r\n") == HEAD
    except (OSError, ValueError):
        return False


def check_source(line: bytes, left: list) -> None:
    """The line of a source, behind which these of the plan are left."""
    _, name, mark = [*line.split(b",", 2), b"", b""][:3]
    told = name.decode("utf-8", "replace")
    if not left:
        raise LineFault(0, f"The plan has no further source, and this line begins {shown(name)}. {SAVED_OTHERWISE}")
    if told != left[0]:
        raise LineFault(0, f"It begins the source {shown(name)}. In the order of the plan the next one is `{left[0]}`. "
                           f"{SAVED_OTHERWISE}")
    check_times(("MARK", mark, TIMES, True))


def check_times(*wanted: tuple) -> None:
    """Each is the name of a number, its text, what it is below, and whether it may be `inf`."""
    for name, value, limit, may_be_open in wanted:
        if may_be_open and value == b"inf":
            continue
        right = f"a whole number from 0 to {limit - 1:,}, in digits alone{', or `inf`' * may_be_open}"
        if not value.isdigit() or not int_below(value, limit):
            raise LineFault(0, f"Its {name} is {shown(value)}. It must be {right}. {about(name, value)}".rstrip())
        if value != b"%d" % whole(value):
            raise LineFault(0, f"Its {name}, {shown(value)}, is written `{whole(value)}`. {ANEW}")


def check_event(line: bytes, source: str, types: list, last: int) -> None:
    """The line of an event of a source, behind the one with the last ID."""
    form = ",".join(["ID,BEGIN,END", *(one.upper() for one in types)])
    if b"\r" in line:
        raise LineFault(0, "A carriage return stands in it, which no field has.")
    fields = fields_of(line)
    check_times(("ID", fields[0], IDS, False))
    if whole(fields[0]) <= last:
        raise LineFault(0, f"Its ID, {whole(fields[0])}, isn't above that of the event before it, {last}. The IDs of a source "
                           "ascend.")
    check_times(*[("BEGIN", one, TIMES, False) for one in fields[1:2] if one])
    if len(fields) < 3:
        raise LineFault(0, f"It has {len(fields)} field{'s' * (len(fields) > 1)}. The line of an event of `{source}` is {form}, "
                           "and ID,BEGIN,BEGIN where it is withdrawn.")
    identity, begin, end, *payload = fields
    check_times(("BEGIN", begin, TIMES, False), ("END", end, TIMES, True))
    until = TIMES if end == b"inf" else whole(end)
    if until < whole(begin):
        raise LineFault(0, f"Its END, {time_text(until)}, is before its BEGIN, {whole(begin)}.")
    if until == whole(begin) and payload:
        raise LineFault(0, "Its END is its BEGIN, so the event is withdrawn, and such a one has no fields.")
    if until > whole(begin) and len(payload) != len(types):
        raise LineFault(0, f"It has {len(payload)} field{'s' * (len(payload) != 1)} behind its END. An event of `{source}` has "
                           f"{len(types)} by the plan: {form}. {SAVED_OTHERWISE}")
    check_payload(payload, types)
    if line != b",".join([identity, begin, end, *map(written, payload)]):
        raise LineFault(0, f"A field stands between quotes that it doesn't need. {ANEW}")


def check_payload(payload: list, types: list) -> None:
    for place, (value, one) in enumerate(zip(payload, types)):
        if one == "int" and not is_int(value):
            raise LineFault(0, f"Its field {place}, {shown(value)}, must be an int by the plan, a whole number from -2^63 to "
                               f"2^63 - 1. {SAVED_OTHERWISE}")
        if one == "int" and value != b"%d" % signed(value):
            raise LineFault(0, f"Its field {place}, {shown(value)}, is written `{signed(value)}`. {ANEW}")


def signed(value: bytes) -> int:
    """The number in these digits, perhaps behind a minus."""
    return -whole(value[1:]) if value.startswith(b"-") else whole(value)


def written(field: bytes) -> bytes:
    """A field as rows have it."""
    return quoted(field) if b"," in field or b'"' in field else field
