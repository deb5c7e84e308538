"""The faulty line of an event file or of a script: its neighbours, and what the lines before it say of its event.

The file is read again line by line, and no more of it is kept than is told. A pipe can't be read again."""
from __future__ import annotations

import math
import os
import stat
from itertools import count, takewhile
from typing import Iterator, NamedTuple

from cedr_explain.event_line import (BAD_END, BAD_FORM, FAULTS, FILE_BYTES, IDS, KNOWN_ID, LARGE_FILE, LINE_BYTES,
                                     PASSED, TIMES, UNKNOWN_ID, Line, LineFault, int_below, read_line, shown,
                                     time_text, whole)

SPLITTING = 'docs/program.md says in "A source of more than 64 MiB" how to divide a file.'
CORRECTING = 'docs/guide.md says in "Corrections" what can still be put right once a guarantee has passed.'
SHOWN_BYTES = 120


class Place(NamedTuple):
    """Where a line is: the file, and the types of its fields.

    `source` is the name of the source, where one file is read for it; `types` are None for a file without a plan. Where
    the file is a script, `script` has the types of the plan's sources by their names, and `checkpoint` is the file of the
    checkpoint that it goes on from, if there is one. A script that `is_followed` goes on behind a faulty line, and has no limit.
    """
    file: str
    source: str = ""
    types: list | None = None
    script: dict | None = None
    checkpoint: str = ""
    is_followed: bool = False

    def limit(self) -> float:
        return math.inf if self.is_followed else FILE_BYTES


class Raw(NamedTuple):
    """A line as it stands: its number, its first bytes, and whether the file's limit cuts it."""
    number: int
    data: bytes
    is_cut: bool


def explained(place: Place, number: int, fault: int) -> Iterator[str]:
    """Sentences about this fault of this line, with the line between its neighbours."""
    if not is_regular(place.file):
        why = f"since {place.file} is a pipe and can't be read again"
        yield f"{place.file}:{number}: {named(fault)} The line can't be shown, {why}."
        return
    try:
        yield from of_file(place, number, fault)
    except OSError as error:
        yield f"{place.file}:{number}: {named(fault)} The line can't be shown: {error.strerror}."


def is_regular(file: str) -> bool:
    try:
        return stat.S_ISREG(os.stat(file).st_mode)
    except OSError:
        return True


def of_file(place: Place, number: int, fault: int) -> Iterator[str]:
    near = list(lines_of(place, number - 1, number + 1))
    line = next((raw for raw in near if raw.number == number), Raw(number, b"", False))
    found = Judged(place, line)
    if found.fault != fault:
        told = f"{named(fault)} The file may be another one by now: as it is, {found.now()}."
        found.fault, found.sentences = fault, [told]
    source = f"{place.file}:{number}"
    yield from (f"{source}: {sentence}" for sentence in found.sentences)
    for raw in near:
        yield f"{'>' if raw.number == number else ' '} {raw.number:>{len(str(number + 1))}} | {excerpt(raw.data)}"


def named(fault: int) -> str:
    """What a fault is where more can't be said."""
    return FAULTS.get(fault, "The line has a fault that this tool knows nothing of.")


def excerpt(data: bytes) -> str:
    return shown(data[:-1] if data.endswith(b"\r") else data, "", SHOWN_BYTES)


def lines_of(place: Place, first: int, last: float) -> Iterator[Raw]:
    """The lines of these numbers, of the bytes that a file may have; of a long one only as much as shows that it is."""
    left = place.limit()
    with open(place.file, "rb") as events:
        is_larger = os.fstat(events.fileno()).st_size > left
        for number in takewhile(lambda one: one <= last, count(1)):
            data = events.readline(min(left, LINE_BYTES + 2))
            left -= len(data)
            kept = data
            while data and not data.endswith(b"\n") and left:
                data = events.readline(min(left, LINE_BYTES))
                left -= len(data)
            if not kept and not is_larger:
                return
            has_ended = data.endswith(b"\n") or not is_larger
            if number >= first:
                yield Raw(number, kept[:-1] if kept.endswith(b"\n") else kept, not has_ended)
            if not has_ended:
                return


class EarlierFault(Exception):
    """A line before the faulty one has a fault, so the file is another one than the program read."""

    def __init__(self, number: int) -> None:
        super().__init__(number)
        self.number = number


class Judged:
    """The fault of a line, 0 where it has none, with its sentences.

    `earlier` is the number of a line before it that has a fault, so that nothing is known of this one; else 0.
    """

    def __init__(self, place: Place, raw: Raw) -> None:
        self.place, self.raw = place, raw
        self.fault, self.sentences, self.source, self.types = 0, [], place.source, place.types
        self.earlier = 0
        try:
            self.judge()
        except LineFault as fault:
            self.fault, self.sentences = fault.number, list(fault.sentences)
        except EarlierFault as fault:
            self.earlier = fault.number

    def now(self) -> str:
        """What is wrong in the file as it is."""
        if self.earlier:
            return f"line {self.earlier}, which stands before, has a fault"
        return f"this line has the fault {self.fault}" if self.fault else "this line has no fault"

    def judge(self) -> None:
        if self.raw.is_cut and len(self.raw.data) <= LINE_BYTES:
            size = os.stat(self.place.file).st_size
            limit = f"a source has at most {FILE_BYTES:,}"
            raise LineFault(LARGE_FILE, f"The file has {size:,} bytes, and {limit}. {SPLITTING}")
        line = read_line(self.event_text(), self.types, self.raw.number == 1 and self.place.script is None)
        if line.kind in (b"+", b"~", b"-"):
            trace_of = FollowedTrace if self.place.is_followed else Trace
            self.judge_event(line, trace_of(self.place, self.source, self.raw.number, line.identity))

    def event_text(self) -> bytes:
        """The event line: of a script's line what stands behind the name of its source."""
        data, script = self.raw.data, self.place.script
        if script is None or len(data) > LINE_BYTES:
            return data
        name, comma, text = data.partition(b",")
        plain = data[:-1] if data.endswith(b"\r") else data
        if not plain or plain == b"?":
            return b""
        told = name.decode("utf-8", "replace")
        if not comma or told not in script:
            raise LineFault(BAD_FORM, self.no_source(told, bool(comma), plain))
        if text in (b"", b"\r"):
            raise LineFault(BAD_FORM, f"Nothing stands behind `{told},`. An event line of that source must.")
        self.source, self.types = told, script[told]
        return text

    def no_source(self, told: str, has_comma: bool, plain: bytes) -> str:
        form = "A line of a script is `?` alone, or the name of a source, a comma and an event line of it."
        names = f"The plan's sources are {', '.join(self.place.script)}."
        if plain.strip() == b"?":
            return f"{form} A blank or another sign stands beside this `?`."
        if plain[:2] in (b"+,", b"-,", b"~,", b"=,"):
            first = next(iter(self.place.script), "NAME")
            right = shown(first.encode() + b"," + plain, "")
            return f"{form} The name of the source is missing in front, as in {right}. {names}"
        return f"{form} {shown(told.encode()) if has_comma else shown(plain)} is no source. {names}"

    def judge_event(self, line: Line, trace: Trace) -> None:
        identity = line.identity
        if line.kind == b"+" and trace.inserted:
            raise LineFault(KNOWN_ID,
                            f"Its ID, {identity}, was inserted before, by {trace.inserted}. Each insertion has an "
                            "ID of its own, even where that event was withdrawn. A line "
                            f"`~,{identity},BEGIN,END,FIELD..` gives that event another begin, end and other fields.")
        if line.kind != b"+" and trace.over:
            raise LineFault(UNKNOWN_ID,
                            f"The event {identity} is over: by {trace.over}. A script that is followed forgets such an event, and "
                            f"no line changes it any more. A line `+,{identity},BEGIN,END,FIELD..` makes a new event of that ID.")
        if line.kind != b"+" and not trace.inserted:
            later = f" Line {trace.inserted_later} does: it must stand before." if trace.inserted_later else ""
            also = " or that the checkpoint has" if self.place.checkpoint else ""
            raise LineFault(UNKNOWN_ID,
                            f"Its ID, {identity}, was inserted by no line before.{later} A line `-` or `~` names an "
                            f"event that a line `+` of the same file inserted{also}.")
        if line.kind == b"-" and not trace.begin <= line.end < trace.end:
            raise LineFault(BAD_END, self.bad_end(line, trace))
        if trace.sync_of(line) < trace.mark:
            raise LineFault(PASSED, self.passed(line, trace))

    def bad_end(self, line: Line, trace: Trace) -> str:
        identity, begin, end = line.identity, trace.begin, time_text(trace.end)
        if trace.begin == trace.end:
            return (f"The event {identity} was withdrawn before, by {trace.ended}. A line "
                    f"`~,{identity},BEGIN,END,FIELD..` alone can bring it back.")
        by = trace.version if trace.ended == trace.version else f"{trace.version} and {trace.ended}"
        last = "any time" if end == "inf" else trace.end - 1
        told = (f"The event {identity} is valid from {begin} on and before {end} by {by}. A retraction makes an end "
                f"earlier: its END must be from {begin}, which withdraws the event, to {last}.")
        if line.end == trace.end:
            return f"{told} Before this line it ends at {end} already."
        revision = f"`~,{identity},{begin},{time_text(line.end)},FIELD..`"
        return f"{told} For a later end write {revision}." if line.end > trace.end else told

    def passed(self, line: Line, trace: Trace) -> str:
        sync = trace.sync_of(line)
        if line.kind == b"-":
            why = "its END"
        elif line.kind == b"+" or sync == line.begin:
            why = "its BEGIN"
        else:
            why = f"the begin that the event had by {trace.version}"
        mark = time_text(trace.mark)
        return (f"It changes something from {time_text(sync)} on, {why}, and {trace.marked}, "
                f"guarantees that no later line does so before {mark}. Such a line is best left out, or the guarantee "
                f"comes later. {CORRECTING}")


class Trace:
    """What the lines before one say of its event and of the guarantee, and which lines do. These are empty where none does."""

    def __init__(self, place: Place, source: str, before: int, identity: int) -> None:
        self.identity = identity
        self.inserted = self.version = self.ended = self.marked = self.over = ""
        self.types = (place.script or {}).get(source)
        self.begin = self.end = self.mark = self.inserted_later = 0
        if place.checkpoint:
            self.go_on(place.checkpoint, source.encode())
        name = source.encode() + b"," if place.script is not None else b""
        digits = b"%d" % identity
        for raw in lines_of(place, 1, place.limit()):
            # most lines are about other events, and are passed over by a look for its digits
            if (digits in raw.data or b"=" in raw.data) and raw.data.startswith(name):
                self.take(raw.number, raw.data[len(name):], raw.number < before)
            if (raw.number >= before and self.inserted) or self.inserted_later:
                return

    def take(self, number: int, data: bytes, is_before: bool) -> None:
        """Takes a line. The lines before the faulty one have no fault, so their first fields have no commas."""
        kind, *fields = [one.strip(b'"') for one in data.rstrip(b"\r").split(b",", 4)[:4]]
        if kind == b"=" and is_before and fields:
            self.guarantee(number, number_of(fields[0]))
        elif kind in (b"+", b"-", b"~") and len(fields) > 1 and number_of(fields[0]) == self.identity:
            if is_before:
                self.event(number, kind, [number_of(one) for one in fields[1:]])
            elif kind == b"+" and not self.inserted:
                self.inserted_later = number

    def go_on(self, file: str, source: bytes) -> None:
        """Takes what a checkpoint says of the event and of the guarantee of its source."""
        lines, is_its_own = [], False
        if is_regular(file):
            with open(file, "rb") as events:
                lines = [line.rstrip(b"\n") for line in events]
        for number, line in enumerate(lines, 1):
            first, *fields = line.split(b",", 3)
            if first == b"source":
                is_its_own = fields[:1] == [source]
                if is_its_own:
                    self.mark, self.marked = number_of(fields[-1]), f"line {number} of `{file}`, `{shown(line, '')}`"
            elif is_its_own and first == b"%d" % self.identity and len(fields) > 1:
                self.begin, self.end = map(number_of, fields[:2])
                self.inserted = self.version = self.ended = f"line {number} of `{file}`"

    def guarantee(self, number: int, time: int) -> None:
        if time > self.mark:
            self.mark, self.marked = time, f"line {number}, `=,{time_text(time)}`"

    def event(self, number: int, kind: bytes, times: list) -> None:
        wanted = 1 if kind == b"-" else 2
        if len(times) < wanted or -1 in times[:wanted]:
            raise EarlierFault(number)
        if kind == b"-":
            self.end, self.ended = times[0], f"line {number}"
            return
        self.inserted = self.inserted or f"line {number}"
        self.begin, self.end = times
        self.version = self.ended = f"line {number}"

    def sync_of(self, line: Line) -> int:
        """From which time on the line changes something."""
        if line.kind == b"-":
            return line.end
        if line.kind == b"+" or self.begin == self.end:
            return line.begin
        return min(line.begin, self.begin)


class FollowedTrace(Trace):
    """The same of a script that is followed: a faulty line of it says nothing, and an event that is over is forgotten. `over` says
    by what it is."""

    def take(self, number: int, data: bytes, is_before: bool) -> None:
        try:
            line = read_line(data, self.types, False)
        except LineFault:
            return
        if line.kind == b"=" and is_before:
            self.guarantee(number, line.end)
        elif line.identity == self.identity and line.kind and (is_before or line.kind == b"+"):
            self.follow(number, line, is_before)

    def follow(self, number: int, line: Line, is_before: bool) -> None:
        """Takes a line about the event that is in form, where it has no fault."""
        is_known = line.kind == b"+" and not self.inserted or line.kind != b"+" and bool(self.inserted)
        has_end = line.kind != b"-" or self.begin <= line.end < self.end
        if not is_known or not has_end or self.sync_of(line) < self.mark:
            return
        if not is_before:
            self.inserted_later = number
            return
        if line.kind == b"+":
            self.inserted = self.over = ""
        self.event(number, line.kind, [line.end] if line.kind == b"-" else [line.begin, line.end])

    def guarantee(self, number: int, time: int) -> None:
        super().guarantee(number, time)
        self.forget()

    def go_on(self, file: str, source: bytes) -> None:
        super().go_on(file, source)
        self.forget()

    def forget(self) -> None:
        """An event that ends below the guarantee isn't known any more."""
        if self.inserted and self.end < self.mark:
            self.over = f"{self.ended} it ends at {time_text(self.end)}, and {self.marked}, is above that"
            self.inserted, self.begin, self.end = "", 0, 0


def number_of(text: bytes) -> int:
    """The ID or the time, or -1 where the text is none."""
    if text == b"inf":
        return TIMES
    return whole(text) if text.isdigit() and int_below(text, IDS) else -1
