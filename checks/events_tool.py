#!/usr/bin/env python3
"""Runs tools/cedr-events on many CSVs and command lines, and compares what comes with what must come.

What must come is written out by hand; and for random changes of some keys the built program's `history` over the tool's lines must
be the rows that follow from what each change means, as this script works them out. Status 0: all right. 1: something differs. 2:
the program isn't there.

usage: checks/events_tool.py [PROGRAM]
"""
import contextlib
import os
import random
import subprocess
import sys
import tempfile
import threading
from pathlib import Path

sys.dont_write_bytecode = True

from program import ROOT, Check, built_program

TOOL = ROOT / "tools/cedr-events"
RANDOM = 60
SECONDS = 10
BY_TIME = "--time t --key k --keep k,v"
BY_LIFE = "--begin b --end e --key k --keep k,v"
KINDS = "--kind op --insert i --update u --set s --delete d --clear c --skip x"
DATED = "--time t --key k --keep k --unit"

# The options, the CSV and the lines that come, with ` / ` between lines.
ACCEPTED = [
    (BY_TIME, "t,k,v", ""),
    (BY_TIME, "t,k,v / 1,a,x", "+,1,1,inf,a,x"),
    (BY_TIME, "v,t,k / x,1,a", "+,1,1,inf,a,x"),
    (BY_TIME, "t,k,v / 1,a,x / 1,b,y / 3,a,z / 2,b,y",
     "+,1,1,inf,a,x / +,2,1,inf,b,y / -,1,3 / +,3,3,inf,a,z / -,2,2 / +,4,2,inf,b,y"),
    ("--time t --key k,v --keep v", "t,k,v / 1,a,x / 2,a,y / 3,a,x", "+,1,1,inf,x / +,2,2,inf,y / -,1,3 / +,3,3,inf,x"),
    ("--time t --key k --keep=", "t,k / 1,a", "+,1,1,inf"),
    # an event that ends when it begins
    (BY_TIME, "t,k,v / 1,a,x / 1,a,y", "+,1,1,inf,a,x / -,1,1 / +,2,1,inf,a,y"),
    (f"{BY_TIME} {KINDS}", "op,t,k,v / i,1,a,x / u,2,a,y / d,3,a, / i,3,a,z / s,4,a,w / c,5,a, / c,6,a, / s,7,a,q / x,,,",
     "+,1,1,inf,a,x / -,1,2 / +,2,2,inf,a,y / -,2,3 / +,3,3,inf,a,z / -,3,4 / +,4,4,inf,a,w / -,4,5 / +,5,7,inf,a,q"),
    (f"{BY_LIFE} {KINDS}", "op,b,e,k,v / i,5,9,a,x / u,3,,a,y / s,4,inf,a,z / d,,,a, / i,1,2,a,w / c,,,b, / s,6,7,b,q / c,,,b,",
     "+,1,5,9,a,x / ~,1,3,inf,a,y / ~,1,4,inf,a,z / -,1,4 / +,2,1,2,a,w / +,3,6,7,b,q / -,3,6"),
    (f"{BY_TIME} --kind op --insert i,c --delete d", "op,t,k,v / i,1,a,x / c,1,b,y", "+,1,1,inf,a,x / +,2,1,inf,b,y"),
    # guarantees
    (f"{BY_TIME} --delay 0", "t,k,v / 0,a,x / 5,a,y / 5,b,z", "+,1,0,inf,a,x / -,1,5 / +,2,5,inf,a,y / =,5 / +,3,5,inf,b,z"),
    (f"{BY_TIME} --delay 3", "t,k,v / 3,a,x / 9,a,y / 6,b,z", "+,1,3,inf,a,x / -,1,9 / +,2,9,inf,a,y / =,6 / +,3,6,inf,b,z"),
    (f"{BY_LIFE} --delay 3", "b,e,k,v / 5,6,a,x / 9,,b,y / 7,9,b,z", "+,1,5,6,a,x / =,2 / +,2,9,inf,b,y / =,6 / ~,2,7,9,b,z"),
    # CSV
    (BY_TIME, 't,k,v / 1,"a,b","say ""x""" / 2,a b,', '+,1,1,inf,"a,b","say ""x""" / +,2,2,inf,a b,'),
    (BY_TIME, "\ufefft,k,v / 1,é,ö", "+,1,1,inf,é,ö"),
    (BY_TIME, '\ufeff"t",k,v / 1,a,x', "+,1,1,inf,a,x"),
    (BY_TIME, " / t,k,v /  / 1,a,x / ", "+,1,1,inf,a,x"),
    (BY_TIME, "t,k,v\r / 1,a,x\r", "+,1,1,inf,a,x"),
    ("--time t --key k --keep k", 't,k,note / 1,a,"two\nlines" / 2,b,', "+,1,1,inf,a / +,2,2,inf,b"),
    ("--time t --key k --keep ä,\"x,y\"", 't,k,ä,"x,y" / 1,a,p,q', "+,1,1,inf,p,q"),
    (f"{BY_TIME} --separator ;", "t;k;v / 1;a,b;x", '+,1,1,inf,"a,b",x'),
    (f"{BY_TIME} --separator tab", "t\tk\tv / 1\ta\tx", "+,1,1,inf,a,x"),
    (BY_TIME, "t,k,v / 1,a," + "x" * 65_524, "+,1,1,inf,a," + "x" * 65_524),
    (BY_TIME, f"t,k,v / {2**62 - 1},a,x", f"+,1,{2**62 - 1},inf,a,x"),
    # dates; 2026-03-02 is 20514 days after 1970-01-01
    (f"{DATED} d --zone UTC", "t,k / 2026-03-02,a / 1970-01-01,b", "+,1,20514,inf,a / +,2,0,inf,b"),
    (f"{DATED} s", "t,k / 2026-03-02T09:15:00Z,a", "+,1,1772442900,inf,a"),
    (f"{DATED} s", "t,k / 2026-03-02 09:15Z,a", "+,1,1772442900,inf,a"),
    (f"{DATED} s", "t,k / 2026-03-02 10:15:00 +01:00,a / 2026-03-02T10:15:00+0100,b / 2026-03-02T02:15-07,c",
     "+,1,1772442900,inf,a / +,2,1772442900,inf,b / +,3,1772442900,inf,c"),
    (f"{DATED} min", "t,k / 2026-03-02T09:15:00Z,a", "+,1,29540715,inf,a"),
    (f"{DATED} h --start 2026-03-01T00:00Z", "t,k / 2026-03-02T09:00:00Z,a", "+,1,33,inf,a"),
    (f"{DATED} ms", "t,k / 1970-01-01T00:00:01.002Z,a / 1970-01-01T00:00:01.0020000Z,b / 1970-01-01T00:00:00Z,c",
     "+,1,1002,inf,a / +,2,1002,inf,b / +,3,0,inf,c"),
    (f"{DATED} ns", "t,k / 1970-01-01T00:00:01.000000002Z,a", "+,1,1000000002,inf,a"),
    (f"{DATED} us", "t,k / 1970-01-02T00:00:00Z,a", "+,1,86400000000,inf,a"),
    # on the clock of Berlin it is one hour later than in UTC, and in summer two
    (f"{DATED} h --zone Europe/Berlin", "t,k / 1970-01-01 03:00,a / 1986-07-01 02:00,b / 1970-01-01T03:00:00Z,c",
     f"+,1,2,inf,a / +,2,{(16 * 365 + 4 + 181) * 24},inf,b / +,3,3,inf,c"),
    # decimals
    (f"{BY_TIME} --scale v=100", "t,k,v / 1,a,12.50 / 2,b,-0.07 / 3,c,7 / 4,d,0.000",
     "+,1,1,inf,a,1250 / +,2,2,inf,b,-7 / +,3,3,inf,c,700 / +,4,4,inf,d,0"),
    (f"{BY_TIME} --scale v=1000 --decimal-comma --separator ;", "t;k;v / 1;a;19,999", "+,1,1,inf,a,19999"),
    (f"{BY_TIME} --scale v=1", "t,k,v / 1,a,123456789012345678901234567890", "+,1,1,inf,a,123456789012345678901234567890"),
]

# The options, the CSV, the lines before, and what is said of the row that can't be taken, with the number of its line.
REFUSED = [
    (BY_TIME, "", "", "1: there is no header, since there is no row"),
    (BY_TIME, " /  / ", "", "1: there is no header, since there is no row"),
    (BY_TIME, "t,k / 1,a", "", "1: there is no column 'v'; the header has 't', 'k'"),
    (BY_TIME, "t,k,v,v / 1,a,x,y", "", "1: the header has the column 'v' 2 times"),
    (BY_TIME, "t,k,v / 1,a", "", "2: the row has 2 cells, and the header 3"),
    (BY_TIME, "t,k,v / 1,a,x / 1,a,x,y", "+,1,1,inf,a,x", "3: the row has 4 cells, and the header 3"),
    (BY_TIME, "t,k,v /  / 1,,x", "", "3: the key is empty"),
    (BY_TIME, "t,k,v / x,a,x", "", "2: t: 'x' isn't a whole number below 2^62 (dates are read with --unit)"),
    (BY_TIME, "t,k,v / -1,a,x", "", "2: t: '-1' isn't a whole number below 2^62 (dates are read with --unit)"),
    (BY_TIME, f"t,k,v / {'9' * 5_000},a,x", "", f"2: t: '{'9' * 5_000}' isn't a whole number below 2^62 (dates are read with --unit)"),
    (f"{BY_TIME} --scale v=1", f"t,k,v / 1,a,{'9' * 5_000}", "", f"2: v: '{'9' * 5_000}' isn't a decimal number"),
    (BY_TIME, "t,k,v / 1.0,a,x", "", "2: t: '1.0' isn't a whole number below 2^62 (dates are read with --unit)"),
    (BY_TIME, f"t,k,v / {2**62},a,x", "", f"2: t: '{2**62}' isn't a whole number below 2^62 (dates are read with --unit)"),
    (BY_TIME, "t,k,v / 5,a,x / 4,a,y", "+,1,5,inf,a,x", "3: 4 is before 5, the time of an earlier row of the key 'a'"),
    (BY_TIME, 't,k,v / 1,a,"x\ny"', "", "2: v has a line break, which no field of an event may have"),
    (BY_TIME, 't,k,v / 1,b,"\n\n" / 2,a,x', "", "2: v has a line break, which no field of an event may have"),
    (BY_TIME, 't,k,v / 1,a,"x"y', "", "2: this isn't CSV: ',' expected after '\"'"),
    (BY_TIME, 't,k,v / 1,a,"x', "", "2: this isn't CSV: unexpected end of data"),
    (BY_TIME, "t,k,v / 1,a," + "x" * 65_525, "", "2: its event line has 65537 bytes, and a line has at most 65536"),
    (f"{BY_TIME} {KINDS}", "op,t,k,v / i,1,a,x / i,2,a,y", "+,1,1,inf,a,x", "3: an insert, and the key 'a' has an event already"),
    (f"{BY_TIME} {KINDS}", "op,t,k,v / u,1,a,x", "", "2: an update, and the key 'a' has no event"),
    (f"{BY_TIME} {KINDS}", "op,t,k,v / i,1,a,x / d,2,a, / d,2,a,", "+,1,1,inf,a,x / -,1,2", "4: a delete, and the key 'a' has no event"),
    (f"{BY_TIME} {KINDS}", "op,t,k,v / i,3,a,x / d,5,a, / i,4,a,y", "+,1,3,inf,a,x / -,1,5",
     "4: 4 is before 5, the time of an earlier row of the key 'a'"),
    (f"{BY_TIME} {KINDS}", "op,t,k,v / I,1,a,x", "", "2: op is 'I', and no option says what such a row does"),
    (BY_LIFE, "b,e,k,v / 2,2,a,x", "", "2: e isn't after b"),
    (BY_LIFE, "b,e,k,v / inf,,a,x", "", "2: b: 'inf' isn't a whole number below 2^62 (dates are read with --unit)"),
    (BY_LIFE, "b,e,k,v / ,,a,x", "", "2: b: '' isn't a whole number below 2^62 (dates are read with --unit)"),
    (f"{BY_TIME} --delay 3", "t,k,v / 9,a,x / 5,b,y", "+,1,9,inf,a,x / =,6",
     "3: it changes something from 5 on, 4 before 9, which came earlier, and --delay allows 3"),
    (f"{BY_LIFE} --delay 3", "b,e,k,v / 5,6,a,x / 9,10,b,y / 11,12,a,x", "+,1,5,6,a,x / =,2 / +,2,9,10,b,y / =,6",
     "4: it changes something from 5 on, 4 before 9, which came earlier, and --delay allows 3"),
    # a key whose event ended is forgotten once a guarantee is past it; a row of it that is too early is refused all the same
    (f"{BY_TIME} {KINDS} --delay 0", "op,t,k,v / i,1,a,x / d,2,a, / i,7,b,y / i,1,a,z",
     "+,1,1,inf,a,x / =,1 / -,1,2 / =,2 / +,2,7,inf,b,y / =,7",
     "5: it changes something from 1 on, 6 before 7, which came earlier, and --delay allows 0"),
    (f"{DATED} s", "t,k / 2026-02-30T00:00:00Z,a", "", "2: t: '2026-02-30T00:00:00Z' isn't a date: day is out of range for month"),
    (f"{DATED} d", "t,k / 2026-03-02,a", "", "2: t: '2026-03-02' doesn't say its zone: --zone UTC or another one is needed"),
    (f"{DATED} s", "t,k / yesterday,a", "", "2: t: 'yesterday' isn't a date in the form 2026-03-02T09:15:00Z"),
    (f"{DATED} s", "t,k / 1772442900,a", "", "2: t: '1772442900' isn't a date in the form 2026-03-02T09:15:00Z"),
    (f"{DATED} s", "t,k / 2026-03-02T09:15:00.5Z,a", "",
     "2: t: '2026-03-02T09:15:00.5Z' isn't a whole number of s: a smaller --unit is needed"),
    (f"{DATED} s", "t,k / 1969-12-31T23:59:59Z,a", "", "2: t: '1969-12-31T23:59:59Z' is before the --start, or 2^62 s after it"),
    (f"{DATED} s", "t,k / 2026-03-02T10:15:00+01:60,a", "",
     "2: t: '2026-03-02T10:15:00+01:60' isn't a date: minutes of a zone must be in 0..59"),
    (f"{DATED} s", "t,k / 2026-03-02T09:15:00,a", "",
     "2: t: '2026-03-02T09:15:00' doesn't say its zone: --zone UTC or another one is needed"),
    (f"{DATED} s --zone Europe/Berlin", "t,k / 2026-10-25 02:30,a", "",
     "2: t: '2026-10-25 02:30' comes twice on a clock in Europe/Berlin, where summer time begins or ends"),
    (f"{DATED} s --zone Europe/Berlin", "t,k / 2026-03-29 02:30,a", "",
     "2: t: '2026-03-29 02:30' doesn't come on a clock in Europe/Berlin, where summer time begins or ends"),
    (f"{BY_TIME} --scale v=100", "t,k,v / 1,a,1.005", "", "2: v: '1.005' times 100 isn't a whole number"),
    (f"{BY_TIME} --scale v=100", 't,k,v / 1,a,"1,50"', "", "2: v: '1,50' isn't a decimal number"),
    (f"{BY_TIME} --scale v=100", "t,k,v / 1,a,", "", "2: v: '' isn't a decimal number"),
    (f"{BY_TIME} --scale v=100", "t,k,v / 1,a,1e2", "", "2: v: '1e2' isn't a decimal number"),
]

# Command lines that are wrong, and how what is said of them ends.
WRONG = [
    ("--time t --key k", "the following arguments are required: --keep"),
    ("--key k --keep k", "either --time is given, or --begin and --end"),
    ("--key k --keep k --begin b", "either --time is given, or --begin and --end"),
    ("--key k --keep k --begin b --end e --time t", "either --time is given, or --begin and --end"),
    (f"{BY_TIME} --kind op", "--kind and the words that its rows have are given together"),
    (f"{BY_TIME} --insert i", "--kind and the words that its rows have are given together"),
    (f"{BY_TIME} --kind op --insert i --delete i", "a word says one thing that a row does"),
    (f"--time t --key k --keep {','.join('abcdefghijklmnopq')}", "an event has at most 16 fields"),
    ("--time t --key= --keep k", "--key names a column at least"),
    ("--time t --key k --keep k --scale v=100", "--scale names a column that --keep doesn't"),
    (f"{BY_TIME} --scale v", "'v' isn't COLUMN=N with a whole number N from 1 on"),
    (f"{BY_TIME} --scale v=0", "'v=0' isn't COLUMN=N with a whole number N from 1 on"),
    (f"{BY_TIME} --zone UTC", "--start and --zone are of dates, and need a --unit"),
    (f"{BY_TIME} --unit s --zone Mars", "there is no zone 'Mars'; zones such as Europe/Berlin are in Debian's package tzdata"),
    (f"{BY_TIME} --unit s --start soon", "'soon' isn't a date in the form 2026-03-02T09:15:00Z"),
    (f"{BY_TIME} --delay -1", "'-1' isn't a whole number below 2^62"),
    (f"{BY_TIME} --separator ab", "'ab' isn't one letter, or `tab`"),
    (f"{BY_TIME} --ti t", "unrecognized arguments: --ti"),
    (f"{BY_TIME} --unit weeks", "(choose from"),
]


class ToolCheck(Check):
    """The tool, called with options that are told with spaces between them."""

    def tool(self, options: str, data: bytes, *settings) -> tuple[int, bytes, bytes]:
        return self.fed([TOOL, *options.split(), *settings], data)

    def fed(self, words: list, data: bytes, out=subprocess.PIPE) -> tuple[int, bytes, bytes]:
        done = subprocess.run([sys.executable, *words], input=data, stdout=out, stderr=subprocess.PIPE, cwd=self.folder, check=False)
        return done.returncode, done.stdout or b"", done.stderr


def text(lines: str) -> bytes:
    return "".join(line + "\n" for line in lines.split(" / ")).encode() if lines else b""


def check_by_hand(check: ToolCheck) -> int:
    for options, data, lines in ACCEPTED:
        check.compare(options, text(data), (0, text(lines), b""), check.tool(options, text(data)))
    for options, data, lines, told in REFUSED:
        told = f"standard input line {told}\n".encode()
        expected = 1, text(lines) + b"! " + told, b"cedr-events: " + told
        check.compare(f"{options}, refused", text(data), expected, check.tool(options, text(data)))
    for options, told in WRONG:
        status, out, err = check.tool(options, b"t,k,v\n")
        is_told = told in err.decode().splitlines()[-1]
        check.compare(f"{options}, wrong", b"", (2, b"", told.encode()), (status, out, told.encode() if is_told else err))
    return len(ACCEPTED) + len(REFUSED) + len(WRONG)


def check_bytes(check: ToolCheck) -> int:
    """Bytes that aren't UTF-8 go through as they are."""
    data, lines = b"t,k,v\n1,\xff\xfea,\xe9\n", b"+,1,1,inf,\xff\xfea,\xe9\n"
    check.compare("bytes that aren't UTF-8", data, (0, lines, b""), check.tool(BY_TIME, data))
    return 1


def check_outside(check: ToolCheck) -> int:
    """Files that aren't there, and an output that takes no more. An empty output would be a file without events."""
    check.write("there.csv", b"t,k,v\n1,a,x\n")
    came = check.tool(BY_TIME, b"", "there.csv")
    check.compare("a file", b"", (0, b"+,1,1,inf,a,x\n", b""), came)
    for name, why in (("none.csv", "No such file or directory"), (".", "Is a directory")):
        told = f"{name}: {why}\n".encode()
        check.compare(name, b"", (1, b"! " + told, b"cedr-events: " + told), check.tool(BY_TIME, b"", name))
    with open("/dev/full", "wb") as full:
        came = check.fed([TOOL, *BY_TIME.split()], b"t,k,v\n1,a,x\n", full)
    check.compare("a full device", b"", (1, b"", b"cedr-events: standard output: No space left on device\n"), came)
    words = [sys.executable, TOOL, *BY_TIME.split()]
    tool = subprocess.Popen(words, stdin=subprocess.PIPE, stdout=subprocess.PIPE, stderr=subprocess.PIPE)
    tool.stdout.close()
    tool.stdin.write(b"t,k,v\n1,a,x\n")
    tool.stdin.close()
    came = tool.wait(), b"", tool.stderr.read()
    check.compare("a reader that left", b"", (1, b"", b"cedr-events: standard output: Broken pipe\n"), came)
    return 5


def check_as_it_reads(check: ToolCheck) -> int:
    """The lines of a row come before the next row is written."""
    env = {name: value for name, value in os.environ.items() if name != "PYTHONUNBUFFERED"}
    tool = subprocess.Popen([sys.executable, TOOL, *BY_TIME.split()], stdin=subprocess.PIPE, stdout=subprocess.PIPE, env=env)
    late, came = threading.Timer(SECONDS, tool.kill), []
    late.start()
    for row in (b"t,k,v\n1,a,x\n", b"2,b,y\n"):
        with contextlib.suppress(BrokenPipeError):
            tool.stdin.write(row)
            tool.stdin.flush()
        came.append(tool.stdout.readline())
    with contextlib.suppress(BrokenPipeError):
        tool.stdin.close()
    late.cancel()
    check.compare("row by row", b"", (0, b"+,1,1,inf,a,x\n+,2,2,inf,b,y\n", b""), (tool.wait(), b"".join(came), b""))
    return 1


def changes(rng: random.Random) -> tuple[str, list]:
    """Random rows that change some keys, and the rows that these lead to: what holds of each key from when to when."""
    rows, held, led_to, time = ["op,t,k,v"], {}, [], 0
    for number in range(rng.randrange(1, 40)):
        time += rng.randrange(3)
        key = rng.choice("abc")
        op = rng.choice("ud") if key in held else "i"
        rows.append(f"{op},{time},{key},{number}")
        if key in held:
            begin, value = held.pop(key)
            led_to += [(time, begin, key, value)] if begin < time else []
        if op != "d":
            held[key] = time, str(number)
    led_to += [(2**62, begin, key, value) for key, (begin, value) in held.items()]
    return "\n".join(rows) + "\n", led_to


def lives(rng: random.Random) -> tuple[str, list]:
    """Random rows that say the whole lives of some keys again and again, and the lives that are left."""
    rows, held = ["op,b,e,k,v"], {}
    for number in range(rng.randrange(1, 40)):
        key, begin = rng.choice("abc"), rng.randrange(20)
        end = rng.choice([begin + 1 + rng.randrange(9), 2**62])
        op = rng.choice("ud") if key in held else "i"
        rows.append(f"{op},{begin},{'' if end == 2**62 else end},{key},{number}")
        held[key] = end, begin, key, str(number)
        if op == "d":
            del held[key]
    return "\n".join(rows) + "\n", list(held.values())


def check_random(check: ToolCheck) -> int:
    words = "--kind op --insert i --update u --delete d"
    for seed in range(RANDOM):
        make, options = ((changes, f"{BY_TIME} {words}"), (lives, f"{BY_LIFE} {words}"))[seed % 2]
        data, led_to = make(random.Random(seed))
        rows = "".join(f"{begin},{'inf' if end == 2**62 else end},{key},{value}\n" for end, begin, key, value in sorted(led_to))
        status, out, err = check.tool(options, data.encode())
        check.write("events.csv", out)
        came = check.run(["history", "events.csv"]) if not status else (status, out, err)
        check.compare(f"{make.__name__} of seed {seed}", data.encode(), (0, rows.encode(), b""), came)
    return RANDOM


def main() -> int:
    with tempfile.TemporaryDirectory(prefix="cedr-check-") as folder:
        check = ToolCheck(built_program(), Path(folder), ".csv")
        by_hand = check_by_hand(check) + check_bytes(check)
        outside = check_outside(check) + check_as_it_reads(check)
        made = check_random(check)
    print(f"events tool: {by_hand} cases by hand, {outside} of files and pipes, {made} random ones: "
          f"{check.differences} differences")
    return 1 if check.differences else 0


if __name__ == "__main__":
    sys.exit(main())
