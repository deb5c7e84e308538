#!/usr/bin/env python3
"""Writes a script of COUNT lines for the plan `window.json` of follow.py, to a pipe that is followed as it is written.

Time moves on by 1 with each line. An event is of one of 100 machines and is valid for 300; every 1,000th line is a guarantee
that tells where time is. So at most some 1,300 events are open at any time, however many lines there are. The same COUNT gives
the same lines.

usage: lines.py COUNT | cedr follow window.json /dev/stdin
"""
import os
import sys

MACHINES, LENGTH, GUARANTEED, AT_ONCE = 100, 300, 1_000, 10_000


def line(number: int) -> str:
    if number % GUARANTEED == GUARANTEED - 1:
        return f"s,=,{number}\n"
    return f"s,+,{number},{number},{number + LENGTH},machine-{number % MACHINES},{number % 1_000}\n"


def pieces(count: int):
    """All lines, 10,000 at a time, each time with how many there are by then."""
    for at in range(0, count, AT_ONCE):
        until = min(at + AT_ONCE, count)
        yield until, "".join(map(line, range(at, until))).encode()


def main() -> None:
    for _, piece in pieces(int(sys.argv[1])):
        while piece:
            piece = piece[os.write(1, piece) :]


if __name__ == "__main__":
    main()
