#!/usr/bin/env python3
"""Writes an event file of about SIZE bytes: of four lines three insert and one retracts; one in 1,000 guarantees.

Times move on with the lines, and a guarantee tells where they are. An event begins anywhere in a wide range
behind that, and lengths are spread wider still, so that neither begins nor ends come in order. A retraction picks
any of the events that are still valid and weren't retracted; one in eight ends its event as early as may be, which
mostly withdraws it. Every file is accepted. The same SIZE and SEED give the same file.

usage: history.py SIZE [SEED] > events.csv
"""
import random
import sys

BEGINS = 2_000_000
LENGTHS = 8_000_000


class Generator:
    """The events so far that weren't retracted, and the time from which on all later events begin."""

    def __init__(self, seed: int) -> None:
        self.chance = random.Random(seed).random
        self.inserted = 0
        self.now = 0
        self.valid = []

    def line(self, number: int) -> str:
        self.now += int(self.chance() * 3)
        if number % 1_000 == 999:
            return f"=,{self.now}\n"
        if number % 4 == 3:
            return self.retraction()
        return self.insertion()

    def insertion(self) -> str:
        begin = self.now + int(self.chance() * BEGINS)
        end = begin + 1 + int(self.chance() * LENGTHS)
        self.valid.append((self.inserted, begin, end))
        self.inserted += 1
        return f"+,{self.inserted - 1},{begin},{end},machine-{int(self.chance() * 1_000)}\n"

    def retraction(self) -> str:
        """Ends an event at some time from its begin and from now on; one that ended already is left out for good."""
        while True:
            identity, begin, end = self.take_any()
            least = max(begin, self.now)
            if least < end:
                later = int(self.chance() * (end - least)) if self.chance() > 1 / 8 else 0
                return f"-,{identity},{least + later}\n"

    def take_any(self) -> tuple[int, int, int]:
        place = int(self.chance() * len(self.valid))
        taken = self.valid[place]
        self.valid[place] = self.valid[-1]
        self.valid.pop()
        return taken


def main() -> None:
    left = int(sys.argv[1])
    generator = Generator(int(sys.argv[2]) if len(sys.argv) > 2 else 1)
    number = 0
    while True:
        line = generator.line(number)
        left -= len(line)
        if left < 0:
            return
        sys.stdout.write(line)
        number += 1


main()
