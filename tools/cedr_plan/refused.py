"""What keeps a text from being a plan, and the form in which it is told."""
from __future__ import annotations

from typing import Iterator

from cedr_explain.command import excerpt
from cedr_explain.json_text import position

# The exit statuses are those of the program.
DONE, USAGE, BAD_PLAN, BAD_EVENTS, UNREAD, UNWRITTEN, NO_MEMORY, BAD_CHECKPOINT = range(8)
UNSTARTED, NO_PROGRAM = 126, 127
MOST_TOLD = 10


class Refused(Exception):
    """A fault of a text, with the place that it is at and what is said of it."""

    def __init__(self, place: int, told: str) -> None:
        super().__init__(place, told)
        self.place, self.told = place, told


class Failed(Exception):
    """Why nothing was done, where that is no fault at a place of a text, and the exit status."""

    def __init__(self, status: int, *lines: str) -> None:
        super().__init__(status, *lines)
        self.status, self.lines = status, lines


def placed(name: str, text: str, place: int, told: str) -> Iterator[str]:
    """The sentence behind the file, the line and the column, then the line itself with a caret under the place."""
    line, column = position(text, place).removeprefix("line ").split(", column ")
    yield f"{name}:{line}:{column}: {told}"
    yield from excerpt(text, place)


def all_placed(name: str, text: str, faults: list) -> Iterator[str]:
    """The faults in the order of their places; of many the first ones."""
    for one in sorted(faults, key=lambda fault: fault.place)[:MOST_TOLD]:
        yield from placed(name, text, one.place, one.told)


def listed(names, last: str = "and") -> str:
    """Names as a sentence has them: a, b and c."""
    names = list(names)
    return f" {last} ".join([", ".join(names[:-1]), names[-1]] if len(names) > 1 else names)


def a_word(word: str) -> str:
    return f"{'an' if word[0] in 'aeiou' and word != 'union' else 'a'} `{word}`"
