"""What `cedr follow` must write and tell, by the definitions, and what it wrote read as a stream.

A source remembers of its lines what is open. Where its guarantee rose, the events that end below it are forgotten: from then
on their ids are like ids that were never inserted. Which changes are written is free, so they are held to what they must come
to: the rows and the guarantee that the output shows.
"""
from collections import Counter
from typing import NamedTuple

import asked
from answer_lines import Unlawful, change_of, lines_of
from messages import Cut, apply, in_order, sync
from network_texts import rows_text
from query_reference import by_place, output_place, port_standing, standing
from reference import COMMA, Fault, Judge, change_text, field_text, fields_of, number_of, time_of, time_text, without_return

MARK = b"=,"


class OpenJudge(Judge):
    """A judge that forgets the events that are over."""

    def promise(self, time: int) -> list:
        messages = super().promise(time)
        if messages:
            self.forget()
        return messages

    def forget(self) -> None:
        self.events = {identity: row for identity, row in self.events.items() if row.end >= self.mark}


class Line(NamedTuple):
    """A line of a script: the place of its source among the sources and the messages, where it has any, and what is told of it
    where it is faulty. `spelt` is an accepted line again, with an id that no other event of the script has."""

    source: int
    messages: list
    told: bytes
    spelt: bytes


class Script:
    """A script for a plan as it is judged line by line."""

    def __init__(self, plan: list, name: str, judges: list = None) -> None:
        sources = asked.sources_of(plan)
        self.name = name
        self.judges = judges or [OpenJudge(node.types) for node in sources]
        self.by_name = {node.name.encode(): one for node, one in zip(sources, enumerate(self.judges))}
        self.count = 0
        self.events = 0
        self.fresh = {}

    def take(self, line: bytes) -> Line:
        """What becomes of the next line, which has no line feed any more."""
        self.count += 1
        try:
            step = asked.script_step(line, self.by_name)
        except Fault as fault:
            told = f"events {self.name} line {self.count} fault {fault.number}{fault.carried}\n"
            return Line(0, [], told.encode(), b"")
        return Line(0, [], b"", b"") if step in ("", "?") else Line(*step, b"", self.spelt(line))

    def spelt(self, line: bytes) -> bytes:
        name, _, event = without_return(line).partition(COMMA)
        kind, *fields = fields_of(event)
        if kind != b"=":
            key = name, number_of(fields[0], 2**64)
            if kind == b"+":
                self.events += 1
                self.fresh[key] = self.events
            fields[0] = b"%d" % self.fresh.get(key, key[1])
        return COMMA.join([name, *map(field_text, [kind, *fields])]) + b"\n"


def cut(script: bytes) -> list:
    """The lines of a script. What stands behind the last line feed is one too, where there is something."""
    *lines, rest = script.split(b"\n")
    return lines + [rest] if rest else lines


class Followed:
    """A script as far as it came: the messages of each source, and what was told and spelt."""

    def __init__(self, plan: list, name: str, judges: list = None, before: list = None) -> None:
        self.plan = plan
        self.script = Script(plan, name, judges)
        self.lists = list(map(list, before or [[] for _ in self.script.judges]))
        self.told, self.spelt = b"", b""

    def take(self, line: bytes) -> None:
        judged = self.script.take(line)
        self.lists[judged.source] += judged.messages
        self.told += judged.told
        self.spelt += judged.spelt

    def take_all(self, script: bytes) -> None:
        for line in cut(script):
            self.take(line)

    def status(self) -> int:
        return 3 if self.told else 0

    def shown(self) -> tuple[Counter, int]:
        """The rows of the output, and how far its stream is decided."""
        output = self.plan[output_place(self.plan)]
        return port_standing(output, output.inputs[0], by_place(self.plan, self.lists), standing(self.plan, self.lists))

    def at_a_question(self) -> bytes:
        """What `live` shows where these lines have come. The guarantee of what comes to the output is told there."""
        mark = standing(self.plan, self.lists)[self.plan[output_place(self.plan)].inputs[0]][1]
        return rows_text(in_order(self.shown()[0])) + f". {time_text(mark)}\n".encode()


class Stream:
    """What was written so far: the table that its changes lead to, and its greatest guarantee."""

    def __init__(self, plan: list, table: Counter = None, mark: int = 0) -> None:
        self.types = plan[output_place(plan)].types
        self.table, self.mark = Counter(table), mark

    def take(self, line: bytes) -> None:
        if line.startswith(MARK):
            self.take_mark(line)
            return
        change = change_of(line, self.types)
        if change_text(change) != line:
            raise Unlawful(f"this change is written as {change_text(change)}: {line}")
        if sync(change) < self.mark:
            raise Unlawful(f"nothing changes before {time_text(self.mark)} any more: {line}")
        if isinstance(change, Cut) and not self.table[change.row]:
            raise Unlawful(f"no such row is there: {line}")
        apply(self.table, change)

    def take_mark(self, line: bytes) -> None:
        try:
            time = time_of(line.removeprefix(MARK).removesuffix(b"\n"))
        except Fault:
            raise Unlawful(f"this guarantee is in no form: {line}") from None
        if line != mark_text(time) or time <= self.mark:
            raise Unlawful(f"no such guarantee comes behind {time_text(self.mark)}: {line}")
        self.mark = time

    def take_all(self, text: bytes) -> None:
        for line in lines_of(text):
            self.take(line)

    def see(self, table: Counter, mark: int) -> None:
        """Raises what isn't as it must be."""
        if self.table != table:
            lacks, has = (rows_text(in_order(one)) for one in (table - self.table, self.table - table))
            raise Unlawful(f"the rows lack {lacks} and have {has}")
        if self.mark != mark:
            raise Unlawful(f"the guarantee is {time_text(self.mark)} and not {time_text(mark)}")


def mark_text(time: int) -> bytes:
    return f"=,{time_text(time)}\n".encode()


def expected(stream: Stream, followed: Followed, out: bytes) -> bytes:
    """What had to be written where this was: the same, where it is right. The stream goes on by it."""
    try:
        stream.take_all(out)
        stream.see(*followed.shown())
    except Unlawful as reason:
        return f"something else, since {reason}\n".encode()
    return out


def opened(judge: Judge) -> OpenJudge:
    """A judge that goes on from the state of another one."""
    found = OpenJudge(judge.types)
    found.mark, found.events = judge.mark, dict(judge.events)
    found.forget()
    return found
