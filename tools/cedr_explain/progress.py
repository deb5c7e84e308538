"""How far the files of a run are read, by the system's own account of the program's open files (Linux: /proc)."""
from __future__ import annotations

import os
import re
import stat
import sys
from typing import NamedTuple

PLACE = re.compile(r"^pos:\s*([0-9]+)$", re.MULTILINE)
MEMORY = re.compile(r"^VmRSS:\s*([0-9]+) kB$", re.MULTILINE)
CLEAR = "\r\x1b[K"


class Open(NamedTuple):
    """An open file: what tells it from others, its place, and its size, which a pipe has none of."""
    identity: tuple
    place: int
    size: int | None


class Progress:
    """Tells how far each of these files is read. They stand by the names of their sources."""

    def __init__(self, files: dict, out) -> None:
        self.files, self.out = files, out
        self.seen = set()
        self.is_terminal = out.isatty()

    def tell(self, process: int) -> bool:
        """Writes a line, over the last one at a terminal, and answers whether it came to its end."""
        told = self.told(process)
        self.write(f"{CLEAR}{told}" if self.is_terminal else f"{told}\n")
        return True

    def end(self) -> None:
        if self.is_terminal:
            self.write(CLEAR)

    def write(self, text: str) -> None:
        """Where standard error takes nothing, there is nobody to tell."""
        try:
            self.out.write(text.encode("utf-8", "surrogateescape"))
            self.out.flush()
        except OSError:
            pass

    def told(self, process: int) -> str:
        found = open_files(process)
        parts = [f"{name} {self.state(name, file, found)}" for name, file in self.files.items()]
        return "; ".join(parts + memory(process)) or "no file is read"

    def state(self, name: str, file: str, found: list) -> str:
        """How far one file is read. Where two sources have one file, the first open one is the first source's."""
        identity = identity_of(file)
        one = next((each for each in found if each.identity == identity), None)
        if one is None:
            return "is read" if name in self.seen else "isn't open"
        found.remove(one)
        self.seen.add(name)
        if one.size is None:
            return "is open, a pipe of no known length"
        if one.place >= one.size:
            return "is read"
        return f"{100 * one.place // one.size} % of {size_text(one.size)}"


def size_text(size: int) -> str:
    for unit, name in ((1_000_000, "MB"), (1_000, "kB")):
        if size >= unit:
            return f"{size / unit:,.1f} {name}"
    return f"{size} bytes"


def identity_of(file: str) -> tuple | None:
    try:
        found = os.stat(file)
    except (OSError, ValueError):
        return None
    return found.st_dev, found.st_ino


def open_files(process: int) -> list:
    """The files that a process has open, in the order of their numbers."""
    found = []
    for number in sorted(listed(f"/proc/{process}/fd"), key=int):
        try:
            state = os.stat(f"/proc/{process}/fd/{number}")
            with open(f"/proc/{process}/fdinfo/{number}", encoding="ascii") as told:
                place = PLACE.search(told.read())
        except OSError:
            continue
        if not place:
            continue
        size = state.st_size if stat.S_ISREG(state.st_mode) else None
        found.append(Open((state.st_dev, state.st_ino), int(place[1]), size))
    return found


def listed(folder: str) -> list:
    try:
        return os.listdir(folder)
    except OSError:
        return []


def memory(process: int) -> list:
    try:
        with open(f"/proc/{process}/status", encoding="ascii", errors="replace") as told:
            found = MEMORY.search(told.read())
    except OSError:
        return []
    return [f"memory {int(found[1]) / 1000:,.0f} MB"] if found else []


def is_possible() -> bool:
    return os.path.isdir(f"/proc/{os.getpid()}/fdinfo") and sys.platform.startswith("linux")
