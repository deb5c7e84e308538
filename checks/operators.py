#!/usr/bin/env python3
"""Runs the built driver of the operators, crates/op_cases, on many histories, and compares what comes with what must.

A history is made at random by random_operators.py: additions, cuts, withdrawals and marks on the ports of one
operator. The rows that its answers lead to, and its bound, are worked out by the definitions in nodes.py, and asked
for after each step. Status 0: all right. 1: something differs; the first difference is printed with its seed, and its
history kept. 2: the program isn't there. With a seed it looks at the history of that seed alone.

usage: checks/operators.py [PROGRAM [SEED]]
"""
import sys
import tempfile
from collections import Counter
from pathlib import Path

sys.dont_write_bytecode = True

import pipes
from program import Check, built_program
from random_operators import OPERATORS, History, random_history

HISTORIES = 2_400


def compare(check: Check, seed: int, history: History) -> None:
    """Compares what comes of a history with what must come."""
    expected, came = (0, history.out(), b""), pipes.on_standard_input(check, [], history.given())
    if came != expected:
        print(f"operators: seed {seed}, {history.lines[1]}: {first_difference(expected[1], came[1])}")
    check.compare(f"seed {seed}", history.given(), expected, came)


def first_difference(expected: bytes, came: bytes) -> str:
    wanted, found = (text.decode(errors="replace").splitlines() + ["the end"] for text in (expected, came))
    for number, (one, other) in enumerate(zip(wanted, found), 1):
        if one != other:
            return f"line {number} must be {one!r}, and is {other!r}"
    return "the lines are the same, and its status or what it told isn't"


def compare_all(check: Check, seeds: range) -> Counter:
    """Compares the histories of these seeds up to the first that differs, and answers what was compared."""
    kinds = Counter()
    for seed in seeds:
        history = random_history(seed)
        compare(check, seed, history)
        kinds += history.kinds + Counter(histories=1)
        if check.differences:
            break
    return kinds


def main() -> int:
    seeds = range(int(sys.argv[2]), int(sys.argv[2]) + 1) if len(sys.argv) > 2 else range(HISTORIES)
    with tempfile.TemporaryDirectory(prefix="cedr-check-") as folder:
        check = Check(built_program("op_cases", ""), Path(folder), ".txt")
        kinds = compare_all(check, seeds)
    changes = ", ".join(f"{kinds[kind]} {kind}" for kind in ("additions", "cuts", "withdrawals", "marks"))
    print(f"operators: {kinds['histories']} random histories of {len(OPERATORS)} operators ({changes}), "
          f"{kinds['rows']} rows and {kinds['bounds']} bounds: {check.differences} differences")
    return 1 if check.differences else 0


if __name__ == "__main__":
    sys.exit(main())
