"""What a port keeps, forgets, holds and passes on, by definition."""
from collections import Counter
from typing import NamedTuple

from messages import FOREVER, Add, Cut, End, Mark, apply, in_order, is_change, sync


class Forgotten(NamedTuple):
    """A change that a port left out, why, and the greatest sync or guarantee that had come before it."""

    cause: str
    high: int
    change: object


class Aligner:
    """One port: its level, and what its messages so far have come to."""

    def __init__(self, block: float, memory: float) -> None:
        self.block, self.memory = block, memory
        self.mark, self.high, self.front = 0, 0, 0
        self.ended = False
        self.kept = Counter()
        self.passed = Counter()
        self.forgotten = []

    def take(self, message) -> list:
        """The messages that are passed on after this one."""
        passed_on = []
        if is_change(message):
            cause = self.cause(message)
            if cause:
                self.forgotten.append(Forgotten(cause, self.high, message))
            else:
                passed_on += self.keep(message)
            self.high = max(self.high, sync(message))
        elif isinstance(message, Mark):
            self.mark, self.high = message.time, max(self.high, message.time)
        else:
            self.ended = True
        passed_on += self.release() + self.raise_front()
        return passed_on + ([message] if isinstance(message, End) else [])

    def cause(self, change) -> str:
        """Why a change is forgotten, or nothing where it is kept."""
        if sync(change) + self.memory < self.high:
            return "late"
        return "orphan" if isinstance(change, Cut) and not self.kept[change.row] else ""

    def keep(self, change) -> list:
        """The change itself, where it cuts a row that has passed."""
        has_passed = isinstance(change, Cut) and not self.is_held(change.row)
        apply(self.kept, change)
        if has_passed:
            apply(self.passed, change)
        return [change] if has_passed else []

    def release(self) -> list:
        """An addition of each row that needn't wait any longer."""
        passed = Counter({row: count for row, count in self.kept.items() if not self.is_held(row)})
        gained = in_order(passed - self.passed)
        self.passed = passed
        return [Add(row) for row in gained]

    def raise_front(self) -> list:
        held = [row.begin for row in self.kept if self.is_held(row)]
        front = FOREVER if self.ended else min(held + [self.mark])
        rose, self.front = front > self.front, front
        return [Mark(front)] if rose else []

    def is_held(self, row) -> bool:
        return not self.ended and row.end >= self.mark and row.begin + self.block > self.high


def aligned(block: float, memory: float, messages: list) -> tuple[Aligner, list]:
    """The aligner of a whole list, and all that it passed on."""
    aligner = Aligner(block, memory)
    return aligner, [one for message in messages for one in aligner.take(message)]
