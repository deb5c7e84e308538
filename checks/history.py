#!/usr/bin/env python3
"""Runs the built program on many event files and command lines, and compares what comes with what must come.

What must come is written out by hand in cases.py and docs/, and for random files worked out by reference.py, which is
also held to the cases. Status 0: all right. 1: something differs; the first differences are printed, and their
files kept. 2: the program isn't there.

usage: checks/history.py [PROGRAM]
"""
import random
import sys
import tempfile
from pathlib import Path

sys.dont_write_bytecode = True

import cases
import pages
import pipes
import random_files
import reference
import terminal
from program import ROOT, USAGE, Check, built_program, check_cases, limit_files

EVENT = b"+,1,1,2,a\n"

# A file has the name that it is asked for by, blanks at its ends and all.
FILES = {"e.csv": EVENT, "e.csv ": b"+,1,3,4,b\n", " e.csv": b"x\n", "\u00e9 ,\".csv": b"x\n"}

# Words that match no command.
NO_COMMAND = [
    [], [b"history"], [b"history", b"e.csv", b"e.csv"], [b"history", b"e.csv", b""], [b"e.csv"], [b"", b"e.csv"],
    [b"History", b"e.csv"], [b"hist", b"e.csv"], [b"running", b"x"], [b"make", b"0"], [b"--help", b"history"],
    [b"--version", b"--help"], [b"history", b"\xff"], [b"\xff", b"e.csv"],
]

COMMAND_LINES = [(words, 1, b"", USAGE) for words in NO_COMMAND] + [
    ([b"history", b"missing.csv"], 4, b"", b"read fault\n"),
    ([b"history", b""], 4, b"", b"read fault\n"),
    ([b"history", b"."], 4, b"", b"read fault\n"),
    ([b"history", b"e.csv/e.csv"], 4, b"", b"read fault\n"),
    ([b"history", b"./e.csv"], 0, b"1,2,a\n", b""),
    ([b"history", b"e.csv "], 0, b"3,4,b\n", b""),
    ([b"history", b" e.csv"], 3, b"", b"events  e.csv line 1 fault 2\n"),
    ([b"history", b"e.csv  "], 4, b"", b"read fault\n"),
    ([b"history", "\u00e9 ,\".csv".encode()], 3, b"", "events \u00e9 ,\".csv line 1 fault 2\n".encode()),
]


def history(check: Check, data: bytes, *settings) -> tuple[int, bytes, bytes]:
    check.write("e.csv", data)
    return check.run([b"history", b"e.csv"], *settings)


def by_reference(data: bytes) -> tuple[int, bytes, bytes]:
    return reference.history("e.csv", data)


def check_command_lines(check: Check) -> int:
    for name, data in FILES.items():
        check.write(name, data)
    for words, *expected in COMMAND_LINES:
        check.compare(f"the words {words}", b"", tuple(expected), check.run(words))
    return len(COMMAND_LINES) + check_texts(check)


def check_texts(check: Check) -> int:
    """The version is one line; the help has each command once, with an example, and each number of a fault."""
    status, out, err = check.run([b"--version"])
    is_line = out.startswith(b"cedr ") and out.count(b"\n") == 1
    check.compare("the version", b"", (0, out if is_line else b"one line", b""), (status, out, err))
    status, out, err = check.run([b"--help"])
    lines, commands = out.decode().splitlines(), USAGE.decode().strip().removeprefix("usage: cedr ").split(" | ")
    for words in commands:
        starts = [line.split()[1 + len(words.split()):][:2] for line in lines if line.startswith(f"cedr {words} ")]
        expected = [["cedr", words.split()[0]]]
        check.compare(f"the help on {words}", b"", (0, str(expected).encode(), b""), (status, str(starts).encode(), err))
    numbers = [line.split()[0] for line in lines if line.startswith("    ") and line.split()[0].isdigit()]
    expected = [str(number) for last in (10, 15) for number in range(1, last + 1)]
    check.compare("the faults in the help", b"", (0, str(expected).encode(), b""), (status, str(numbers).encode(), err))
    return 2 + len(commands)


def check_outside(check: Check) -> int:
    """What the outside refuses, and answers how many calls that were."""
    with open("/dev/full", "wb") as full:
        for words in ([b"history", b"e.csv"], [b"--help"], [b"--version"]):
            came = check.run(words, full)
            check.compare(f"the words {words} to a full device", EVENT, (5, b"", b"write fault\n"), came)
        came = history(check, b"", full)
        check.compare("no rows to a full device", b"", (0, b"", b""), came)
    return 4 + check_limited_output(check) + check_refused_read(check) + check_pipes(check)


def check_limited_output(check: Check) -> int:
    """A write that takes only a part of the rows, since their file may not grow over a limit."""
    data = b"".join(b"+,%d,1,2,%050d\n" % (identity, identity) for identity in range(400))
    rows = by_reference(data)[1]
    limits = 1, 4_096, 10_001, len(rows) - 1, len(rows)
    for limit in limits:
        with open(check.folder / "rows", "wb") as out:
            status, _, err = history(check, data, out, lambda: limit_files(limit))
        written = (check.folder / "rows").read_bytes()
        whole = limit == len(rows)
        expected = (0, rows, b"") if whole else (5, rows[: min(limit, len(written))], b"write fault\n")
        check.compare(f"rows to a file of up to {limit} bytes", data, expected, (status, written, err))
    return len(limits)


def check_refused_read(check: Check) -> int:
    """A read that is refused behind one that gave a line."""
    try:
        came = terminal.refused_read(check.program, check.folder, ["history", terminal.NAME])
    except terminal.NoTerminal as reason:
        print(f"history: a read that fails in the middle is skipped: there is no terminal ({reason})")
        return 0
    check.compare("a read that fails in the middle", terminal.FIRST, (4, b"", b"read fault\n"), came)
    return 1


def check_pipes(check: Check) -> int:
    """A file that is a pipe, of more bytes than a pipe holds, is read to its end."""
    data = random_files.long_file(random.Random(0))
    status, rows, err = by_reference(data)
    told = err.replace(b"e.csv", b"/dev/stdin")
    came = pipes.on_standard_input(check, [b"history", b"/dev/stdin"], data)
    check.compare("standard input", data, (status, rows, told), came)
    with pipes.named(check.folder, {"pipe": data}):
        came = check.run([b"history", b"pipe"])
    check.compare("a named pipe", data, (status, rows, err.replace(b"e.csv", b"pipe")), came)
    return 2


def check_random(check: Check, make, count: int) -> int:
    """Compares so many random files with the reference, and answers how many of them were accepted."""
    accepted = 0
    for seed in range(count):
        data = make(random.Random(seed))
        expected = by_reference(data)
        check.compare(f"{make.__name__} of seed {seed}", data, expected, history(check, data))
        accepted += expected[0] == 0
    return accepted


def check_arrival(check: Check, count: int) -> None:
    """In what order the lines of different events arrive doesn't matter."""
    for seed in range(count):
        one, other = random_files.shuffled_pair(random.Random(seed))
        first = history(check, one)
        check.compare(f"one arrival order of seed {seed}", one, by_reference(one), first)
        check.compare(f"another arrival order of seed {seed}", other, first, history(check, other))


def main() -> int:
    with tempfile.TemporaryDirectory(prefix="cedr-check-") as folder:
        check = Check(built_program(), Path(folder), ".csv")
        small = check_cases(check, cases.SMALL, by_reference, history)
        on_page = check_cases(check, pages.of_history(ROOT), by_reference, history)
        words = check_command_lines(check)
        refused = check_outside(check)
        good = check_random(check, random_files.small_file, 1_500)
        good_long = check_random(check, random_files.long_file, 20)
        check_arrival(check, 40)
        large = check_cases(check, cases.large(), by_reference, history)
    print(f"history: {small} small and {large} large files by hand, {on_page} of docs/, {words} command lines, {refused} "
          f"with what the outside refuses, 1500 random files ({good} accepted), 20 long ones ({good_long} accepted), "
          f"40 in two orders: {check.differences} differences")
    return 1 if check.differences else 0


sys.exit(main())
