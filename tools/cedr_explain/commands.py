"""The commands of the program, and which of their words are files."""
from __future__ import annotations

import os

# A new command is a row here, with each way in which it is called; checks/explained.py holds the rows to the table of commands in
# docs/program.md.
COMMANDS = {
    "run": [("PLAN",)],
    "stream": [("PLAN",)],
    "pool": [("N", "PLAN")],
    "parts": [("N", "PLAN")],
    "live": [("PLAN", "SCRIPT")],
    "save": [("PLAN", "SCRIPT")],
    "resume": [("PLAN", "CHECKPOINT", "SCRIPT")],
    "follow": [("PLAN", "SCRIPT"), ("PLAN", "CHECKPOINT", "SCRIPT")],
    "serial": [("PLAN",)],
    "audit": [("PLAN",)],
    "check": [("PLAN",)],
    "history": [("FILE",)],
    "make": [("N",)],
}
ALONE = ("--help", "--version")
MOST = {"pool": 16, "parts": 16, "make": 100_000}
# These read a plan, and none of its sources' files.
WITHOUT_SOURCES = ("check", "live", "save", "resume", "follow")


def kinds_of(command: str, count: int) -> tuple | None:
    """What so many words behind a command are, or nothing where it isn't called with so many."""
    return next((kinds for kinds in COMMANDS.get(command, []) if len(kinds) == count), None)


class Call:
    """The words of a command line by what they are; a part of them where they match no command."""

    def __init__(self, words: list) -> None:
        self.command = words[0] if words else ""
        self.words = dict(zip(kinds_of(self.command, len(words) - 1) or (), words[1:]))

    def plan(self) -> str | None:
        return self.words.get("PLAN")

    def events(self) -> str | None:
        """The file that the command names besides the plan."""
        return self.words.get("FILE", self.words.get("SCRIPT"))

    def checkpoint(self) -> str | None:
        return self.words.get("CHECKPOINT")

    def has_script(self) -> bool:
        return "SCRIPT" in self.words

    def follows(self) -> bool:
        """Whether it goes on behind a faulty line of its script."""
        return self.command == "follow" and self.has_script()

    def plan_bytes(self) -> bytes | None:
        """The plan once more, where it is a file that can be read again."""
        name = self.plan()
        try:
            if name and os.path.isfile(name):
                with open(name, "rb") as plan:
                    return plan.read()
        except (OSError, ValueError):
            pass
        return None

    def reads_sources(self) -> bool:
        return "PLAN" in self.words and self.command not in WITHOUT_SOURCES
