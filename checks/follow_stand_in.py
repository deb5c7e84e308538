#!/usr/bin/env python3
"""A stand-in for the program, for wrong_follows.py: it answers by a run of the reference, and follows a script by one. In one
thing it is other than it should be, whose name CEDR_WAY has.

usage: checks/follow_stand_in.py WORD..
"""
import os
import random
import sys
from pathlib import Path

sys.dont_write_bytecode = True

import asked
import checkpoint_reference
import network_texts
import nodes
import plan_reference
from aligner import Aligner
from follow_reference import OpenJudge, Script, mark_text, opened
from messages import End, Mark, is_change
from network import Network
from program import USAGE
from reference import LINE_LIMIT, Judge, change_text

WAY = os.environ.get("CEDR_WAY", "")
READ = 100 if WAY == "it reads in small pieces" else 1 << 16


class Given(Network):
    """A network whose output's messages are taken as they come."""

    def next_waiting(self):
        waiting = [port for port, messages in self.waiting.items() if messages]
        return (random.choice(waiting) if WAY == "nodes take in any order" else waiting[0]) if waiting else None

    def take_given(self) -> bytes:
        given, self.given = self.given, []
        return b"".join(map(message_text, given))


def message_text(message) -> bytes:
    if isinstance(message, Mark):
        return b"" if WAY == "no guarantee is written" else mark_text(message.time)
    return change_text(message) if is_change(message) else b""


def front_is_the_mark(self) -> list:
    rose, self.front = self.mark > self.front, self.mark
    return [Mark(self.front)] if rose else []


class Ended(Exception):
    """The status with which it ends, and what is told."""


class Lines:
    """The lines of a script as their bytes come."""

    def __init__(self, script: int) -> None:
        self.script, self.begun, self.leaves, self.has_ended = script, b"", False, False

    def read(self) -> list:
        """The lines that are whole behind another read."""
        try:
            piece = os.read(self.script, READ)
        except OSError:
            raise Ended(4, b"read fault\n") from None
        self.has_ended = not piece
        *lines, self.begun = (self.begun + piece).split(b"\n")
        if self.leaves and lines:
            lines, self.leaves = lines[1:], False
        if self.leaves:
            self.begun = b""
        elif len(self.begun) > LINE_LIMIT and WAY != "a line that is too long is kept":
            lines.append(self.begun[: LINE_LIMIT + 1])
            self.begun, self.leaves = b"", WAY != "the rest of a line that is too long is a line"
        if self.has_ended and self.begun and WAY != "the last line is lost":
            lines.append(self.begun)
        return lines


class Follow:
    """A script that is followed."""

    def __init__(self, plan: list, judges: list, name: str) -> None:
        self.network, self.held, self.faulty = Given(plan), b"", False
        self.script = Script(plan, name, judges)
        for source, judge in enumerate(judges):
            self.network.feed(source, asked.restored(judge))
        self.network.settle()
        before = self.network.take_given()
        if WAY == "the rows of the checkpoint are written":
            write(before)

    def forget(self) -> None:
        for judge in self.script.judges if WAY != "what is over in a checkpoint stays known" else []:
            judge.forget()

    def take(self, line: bytes) -> None:
        judged = self.script.take(line)
        if judged.told:
            self.faulty = True
            if WAY != "faulty lines aren't told":
                tell(judged.told)
            if WAY == "the first faulty line ends it":
                raise Ended(3, b"")
        if WAY != "some lines are dropped" or self.script.count % 7:
            self.network.feed(judged.source, judged.messages)
        if WAY != "the network settles once for a piece":
            self.settle()

    def settle(self) -> None:
        self.network.settle()
        if WAY == "an answer waits for the next line":
            write(self.held)
            self.held = b""
        self.held += self.network.take_given()
        if WAY not in ("all is written at the end", "an answer waits for the next line"):
            self.write()

    def write(self) -> None:
        write(self.held)
        self.held = b""

    def end(self) -> int:
        if WAY == "the script's end is that of the sources":
            for source in range(len(self.script.judges)):
                self.network.feed(source, [End()])
        self.settle()
        self.write()
        return 3 if self.faulty and WAY != "faulty lines leave the status 0" else 0


def write(text: bytes) -> None:
    """Standard output, which may take no more."""
    try:
        while text:
            text = text[os.write(1, text) :]
    except OSError:
        if WAY != "a reader that goes isn't noticed":
            raise Ended(5, b"write fault\n") from None


def tell(text: bytes) -> None:
    """Standard error, which may be closed."""
    try:
        os.write(2, text)
    except OSError:
        if WAY == "a closed standard error ends it":
            raise Ended(3, b"") from None


def find(name: str):
    place = Path(name)
    return place.read_bytes() if place.is_file() else None


def found(name: str) -> bytes:
    data = find(name)
    if data is None:
        raise Ended(4, b"read fault\n")
    return data


def opened_script(name: str) -> int:
    try:
        return os.open(name, os.O_RDONLY)
    except OSError:
        raise Ended(4, b"read fault\n") from None


def followed_plan(name: str) -> list:
    data = found(name)
    status, _, err = plan_reference.check(data)
    if status:
        raise Ended(status, err)
    plan = nodes.read_nodes(data)
    unsaved = checkpoint_reference.first_unsaved(plan)
    if unsaved:
        raise Ended(2, b"plan fault 15 node %d\n" % unsaved)
    return plan


def follow(plan: str, *operands: str) -> int:
    if WAY == "the script is asked for first":
        opened_script(operands[-1])
    plan = followed_plan(plan)
    judges = [Judge(node.types) for node in asked.sources_of(plan)]
    if len(operands) > 1:
        line, judges = checkpoint_reference.read(checkpoint_reference.sources_of(plan), found(operands[0]))
        if line is not None:
            raise Ended(7, b"checkpoint line %d\n" % line)
    lines = Lines(opened_script(operands[-1]))
    # what is forgotten is fed to the network too
    run = Follow(plan, list(map(restored, judges)), operands[-1])
    run.forget()
    while not lines.has_ended:
        for line in lines.read():
            run.take(line)
        if WAY == "the network settles once for a piece":
            run.settle()
    return run.end()


def restored(judge: Judge) -> OpenJudge:
    open_judge = opened(judge)
    open_judge.events = dict(judge.events)
    return open_judge


def keep_all(self) -> None:
    """For a judge that forgets nothing."""


def main() -> int:
    if WAY == "the front jumps over what is held":
        Aligner.raise_front = front_is_the_mark
    if WAY == "nothing is forgotten":
        OpenJudge.forget = keep_all
    if sys.argv[1:2] != ["follow"]:
        status, out, err = network_texts.answer(sys.argv[1:], find)
        sys.stdout.buffer.write(out)
        sys.stderr.buffer.write(err)
        return status
    try:
        if len(sys.argv) not in (4, 5):
            raise Ended(1, USAGE)
        return follow(*sys.argv[2:])
    except Ended as ended:
        status, err = ended.args
        tell(err)
        return status


if __name__ == "__main__":
    sys.exit(main())
