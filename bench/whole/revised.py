#!/usr/bin/env python3
"""Writes an event file of at most SIZE bytes: of four lines three insert, and one revises one of the last 1,000 events.

A revision moves the begin of its event by up to 4, gives it another length and another payload. No event is retracted, and no
guarantee is told. Every file is accepted. The same SIZE and SEED give the same file, and without the lines that begin with `~`
that is the same file without revisions.

usage: revised.py SIZE [SEED] > events.csv
"""
import random
import sys

NEAR = 1_000
APART = 3


def lines(size: int, seed: int = 1):
    chance = random.Random(seed).random
    inserted, written, number = 0, 0, 0
    while True:
        number += 1
        revises = number % 4 == 0
        identity = max(0, inserted - 1 - int(chance() * NEAR)) if revises else inserted
        begin = identity * APART + (int(chance() * 5) if revises else 0)
        end = begin + 10 + int(chance() * 50)
        line = f"{'~' if revises else '+'},{identity},{begin},{end},machine-{int(chance() * 1_000)},{number}\n"
        written += len(line)
        if written > size:
            return
        inserted += not revises
        yield line


sys.stdout.writelines(lines(*map(int, sys.argv[1:])))
