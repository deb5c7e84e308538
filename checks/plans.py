#!/usr/bin/env python3
"""Runs `cedr check` of the built program on many plans, and compares what comes with what must come.

What must come is written out by hand in plan_cases.py and in docs/plans.md, and for random plans worked out by
plan_reference.py, which is also held to the cases. Status 0: all right. 1: something differs; the first differences
are printed, and their plans kept. 2: the program isn't there.

usage: checks/plans.py [PROGRAM]
"""
import random
import sys
import tempfile
from collections import Counter
from pathlib import Path

sys.dont_write_bytecode = True

import plan_cases
import plan_page
import plan_reference
import random_plans
from program import ROOT, USAGE, Check, built_program, check_cases

RANDOM = 1_500
GOOD = plan_cases.plan(*plan_cases.GOOD)
GOOD_LINES = b"s,source,text,int\nout,output,text,int\n"

FILES = {"p.json": GOOD, "p.json ": b"{}", " p.json": b"x", "\u00e9 ,\".json": b"{}"}

COMMAND_LINES = [(words, 1, b"", USAGE) for words in (
    [b"check"], [b"check", b"p.json", b"p.json"], [b"check", b"p.json", b""], [b"p.json"], [b"Check", b"p.json"],
    [b"checks", b"p.json"], [b"p.json", b"check"], [b"check", b"\xff"], [b"--check", b"p.json"],
    [b"check", b"p.json", b"--help"],
)] + [
    ([b"check", b"missing.json"], 4, b"", b"read fault\n"),
    ([b"check", b""], 4, b"", b"read fault\n"),
    ([b"check", b"."], 4, b"", b"read fault\n"),
    ([b"check", b"p.json/p.json"], 4, b"", b"read fault\n"),
    ([b"check", b"--help"], 4, b"", b"read fault\n"),
    ([b"check", b"./p.json"], 0, GOOD_LINES, b""),
    # A file has the name that it is asked for by, blanks at its ends and all.
    ([b"check", b"p.json "], 2, b"", b"plan fault 3 node 0\n"),
    ([b"check", b" p.json"], 2, b"", b"plan fault 2 node 0\n"),
    ([b"check", b"p.json  "], 4, b"", b"read fault\n"),
    ([b"check", "\u00e9 ,\".json".encode()], 2, b"", b"plan fault 3 node 0\n"),
]


def answer(check: Check, data: bytes) -> tuple[int, bytes, bytes]:
    check.write("p.json", data)
    return check.run([b"check", b"p.json"])


def check_command_lines(check: Check) -> int:
    for name, data in FILES.items():
        check.write(name, data)
    for words, *expected in COMMAND_LINES:
        check.compare(f"the words {words}", b"", tuple(expected), check.run(words))
    with open("/dev/full", "wb") as full:
        came = check.run([b"check", b"p.json"], full)
        check.compare("lines to a full device", GOOD, (5, b"", b"write fault\n"), came)
        check.write("p.json", b"{}")
        came = check.run([b"check", b"p.json"], full)
        check.compare("no lines to a full device", b"{}", (2, b"", b"plan fault 3 node 0\n"), came)
    return len(COMMAND_LINES) + 2


def check_random(check: Check) -> Counter:
    """Compares random plans with the reference, and answers how many of them came to which fault, 0 being none."""
    faults = Counter()
    for seed in range(RANDOM):
        data = random_plans.random_plan(random.Random(seed))
        expected = plan_reference.check(data)
        check.compare(f"the plan of seed {seed}", data, expected, answer(check, data))
        faults[int(expected[2].split()[2]) if expected[2] else 0] += 1
    return faults


def main() -> int:
    with tempfile.TemporaryDirectory(prefix="cedr-check-") as folder:
        check = Check(built_program(), Path(folder), ".json")
        by_hand = check_cases(check, plan_cases.all_cases(), plan_reference.check, answer)
        on_page = check_cases(check, plan_page.all_cases(ROOT), plan_reference.check, answer)
        words = check_command_lines(check)
        faults = check_random(check)
    print(f"check: {by_hand} plans by hand, {on_page} of docs/plans.md, {words} command lines, {RANDOM} random plans "
          f"({faults[0]} accepted, {len(faults) - 1} kinds of fault): {check.differences} differences")
    return 1 if check.differences else 0


sys.exit(main())
