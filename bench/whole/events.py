#!/usr/bin/env python3
"""Writes an event file of SIZE events, of which one in eight gets an earlier end.

Time moves on by 1 with each event. An event begins within 50 behind that, is of one of so many MACHINES, 100 unless said
otherwise, and is valid for up to as many times, so that about one event of another such file has the same machine and is
valid at the same time. A guarantee tells every 100 events where time is. The same arguments give the same file, and every
file is accepted. Machines count from FIRST, 0 unless said otherwise, and of so many tenths of the events the first of them is told,
HEAVY, whatever the others are.

usage: events.py SIZE SEED [MACHINES [FIRST [HEAVY]]] > events.csv
"""
import random
import sys

SPREAD = 50


def lines(size: int, seed: int, machines: int = 100, first: int = 0, heavy: int = 0):
    chance = random.Random(seed).random
    for now in range(size):
        begin = now + int(chance() * SPREAD)
        length = 1 + int(chance() * machines)
        machine = int(chance() * machines)
        if heavy and chance() * 10 < heavy:
            machine = 0
        yield f"+,{now},{begin},{begin + length},machine-{first + machine},{int(chance() * 1_000)}\n"
        if now % 8 == 7:
            yield f"-,{now},{begin + length // 2}\n"
        if now % 100 == 99:
            yield f"=,{now + 1}\n"


sys.stdout.writelines(lines(*map(int, sys.argv[1:])))
