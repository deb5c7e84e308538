#!/usr/bin/env python3
"""Feeds the aligner of a port with many random lists of messages, and compares what it passes on, what it forgets and
why, its front and its greatest time with what the definitions of aligner.py say. And it holds many rows at once, which
have to be released in order.

Status 0: all right. 1: something differs; the first differences are printed, and their cases kept. 2: the program isn't
there.

usage: checks/ports.py [PROGRAM]
"""
import math
import random
import subprocess
import sys
import tempfile
from collections import Counter
from pathlib import Path
from typing import NamedTuple

sys.dont_write_bytecode = True

from aligner import Aligner
from messages import FOREVER, Add, Cut, End, Mark, Row, apply, in_order, is_change
from program import SECONDS, Check, built_program

LEVELS = {
    "strong": (math.inf, math.inf),
    "middle": (0, math.inf),
    "block 3 memory inf": (3, math.inf),
    "block 0 memory 5": (0, 5),
    "block 2 memory 4": (2, 4),
}
LISTS, MESSAGES = 300, 50
MANY, STEP = 65_536, 40_503


class Broken(NamedTuple):
    """Nothing comes any more, and what came isn't whole: it is passed on alone."""


class Maker:
    """Makes messages that may come one after the other."""

    def __init__(self, rng: random.Random) -> None:
        self.rng = rng
        self.mark = 0
        self.table = Counter()

    def messages(self, count: int) -> list:
        """So many messages, and the last one."""
        return [self.next() for _ in range(count)] + [self.rng.choice([End(), End(), Broken()])]

    def next(self):
        kind = self.rng.randrange(9)
        if kind == 0:
            self.mark += self.rng.randint(1, 4)
            return Mark(self.mark)
        change = self.retraction() if kind < 5 else None
        change = change or self.addition()
        apply(self.table, change)
        return change

    def addition(self) -> Add:
        begin = self.mark + self.rng.randrange(8)
        end = begin + self.rng.randint(1, 12) if self.rng.random() < 0.95 else FOREVER
        return Add(Row(end, begin, (self.rng.randrange(2),)))

    def retraction(self):
        """A cut of one of the rows that came, or nothing where it may not be cut any more."""
        if not self.table:
            return None
        row = self.rng.choice(in_order(self.table))
        earliest = max(row.begin, self.mark)
        return Cut(row, self.rng.randrange(earliest, min(row.end, earliest + 12))) if earliest < row.end else None


def time_word(time: int) -> str:
    return "inf" if time == FOREVER else str(time)


def words(message) -> str:
    """A message as the program's lines have it."""
    if is_change(message):
        sign, to = ("+", "") if isinstance(message, Add) else ("-", f" {time_word(message.end)}")
        row = message.row
        return f"{sign} {row.payload[0]} {time_word(row.begin)} {time_word(row.end)}{to}"
    return f"= {time_word(message.time)}" if isinstance(message, Mark) else type(message).__name__.lower()


def answer(aligner: Aligner, message) -> list:
    """The lines that a message leads to: what became of it, and what is passed on."""
    known = len(aligner.forgotten)
    passed_on = [message] if isinstance(message, Broken) else aligner.take(message)
    fate = [f"{one.cause} {time_word(one.high)}" for one in aligner.forgotten[known:]] or ["kept"]
    return [f"{words(message)}: {fate[0]}"] + [f"  {words(one)}" for one in passed_on]


def random_case(level: str, seed: int) -> tuple[list, list]:
    """The lines of a random list, and those that it must lead to."""
    head = [f"seed {seed}", f"port {level}"]
    messages = Maker(random.Random(seed)).messages(MESSAGES)
    aligner = Aligner(*LEVELS[level])
    wanted = [line for message in messages for line in answer(aligner, message)]
    wanted += [f"front: {time_word(aligner.front)}", f"high: {time_word(aligner.high)}"]
    return head + [words(message) for message in messages] + ["front", "high"], head + wanted


def many_rows() -> tuple[list, list]:
    """Rows that end at all times up to a last one come out of order, and then all marks up to the one above it."""
    head = [f"{MANY} rows are held, and released in order", "port strong"]
    rows = [f"+ 1 0 {1 + place * STEP % MANY}" for place in range(MANY)]
    marks = [f"= {mark}" for mark in range(1, MANY + 2)]
    wanted = [f"{row}: kept" for row in rows] + [f"{marks[0]}: kept"]
    for mark in range(2, MANY + 2):
        wanted += [f"= {mark}: kept", f"  + 1 0 {mark - 1}"]
    return head + rows + marks, head + wanted + [f"  = {MANY + 1}"]


class PortCheck(Check):
    """A check whose cases are lines that the program reads."""

    def feed(self, lines: list) -> tuple[int, bytes, bytes]:
        """What the program answers where it reads these lines."""
        try:
            done = subprocess.run([self.program], input=text(lines), capture_output=True, timeout=SECONDS)
        except subprocess.TimeoutExpired:
            return -1, b"", f"no answer within {SECONDS} s".encode()
        return done.returncode, done.stdout, done.stderr

    def cases(self, name: str, made: list) -> int:
        """Plays cases in one run, and compares each case's lines. How many lines they were."""
        given = [line for lines, _ in made for line in lines + [""]]
        status, out, err = self.feed(given)
        came = out.decode().split("\n\n")
        for place, (lines, wanted) in enumerate(made):
            own = came[place].split("\n") if place < len(came) else []
            told = f"{name}, {first_other(wanted, own)}"
            self.compare(told, text(lines), (0, text(wanted), b""), (status, text(own), err))
        return sum(len(wanted) for _, wanted in made)


def first_other(wanted: list, came: list) -> str:
    """The first line that isn't the wanted one."""
    for place in range(max(len(wanted), len(came))):
        one, other = (lines[place] if place < len(lines) else None for lines in (wanted, came))
        if one != other:
            return f"{wanted[0]}: line {place + 1} must be {one!r}, and is {other!r}"
    return f"{wanted[0]}: all lines are as wanted"


def text(lines: list) -> bytes:
    return "".join(f"{line}\n" for line in lines).encode()


def main() -> int:
    causes = Counter()
    with tempfile.TemporaryDirectory(prefix="cedr-check-") as folder:
        check = PortCheck(built_program("message_cases", ""), Path(folder), ".txt")
        lines = check.cases("port strong", [many_rows()])
        for level in LEVELS:
            made = [random_case(level, seed) for seed in range(LISTS)]
            lines += check.cases(f"port {level}", made)
            causes.update(line.split(": ")[1].split()[0] for _, wanted in made for line in wanted if ": " in line)
    print(f"ports: {LISTS} random lists of {MESSAGES} messages at each of {len(LEVELS)} levels ({causes['kept']} messages "
          f"kept, {causes['late']} late, {causes['orphan']} orphans) and {MANY} rows that are held, {lines} lines: "
          f"{check.differences} differences")
    return 1 if check.differences else 0


sys.exit(main())
