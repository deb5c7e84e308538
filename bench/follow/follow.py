#!/usr/bin/env python3
"""Times `follow`, and prints a table for each part that is asked for, or for all three.

- `speed [EVENTS [RUNS]]`: the lines of the sources of bench/whole/ in one script, which `follow` reads, beside `serial` over
  the same lines in files, and how many lines a second each of them takes. Each of two sources has EVENTS events, 100,000 unless
  said otherwise, and one alone has twice as many; the lines of the script are the next one of each source in turn, in which order
  `serial` feeds them too. Of RUNS runs each, 3 unless said otherwise, the quickest one counts. What `follow` writes must come to
  the rows of `serial`, or the status is 1.
- `delay [LINES]`: over a pipe each of LINES lines, 10,000 unless said otherwise, is sent when the one before was answered:
  after how long its answer comes, of the first one and of all.
- `memory [LINES]`: over a pipe LINES lines, 100,000,000 unless said otherwise, as lines.py writes them, and the resident set
  after each tenth of them.

Status 2: the program isn't there.

usage: bench/follow/follow.py [PROGRAM [PART [NUMBER..]]]
"""
import json
import os
import subprocess
import sys
import tempfile
import time
from collections import Counter
from itertools import zip_longest
from pathlib import Path
from typing import NamedTuple

sys.dont_write_bytecode = True
HERE = Path(__file__).resolve().parent
sys.path.insert(0, str(HERE.parent.parent / "checks"))

from following import resident, write_all
from program import built_program

import lines

EVENTS, RUNS, DELAYS, MEMORY = 100_000, 3, 10_000, 100_000_000
WORKLOADS = {"sums": "a", "join": "ab", "join_group": "ab", "sequence": "ab", "unless": "ab", "except": "ab"}
WINDOW = {"version": 1, "nodes": [
    {"name": "s", "op": "source", "file": "s.csv", "fields": ["text", "int"]},
    {"name": "recent", "op": "window", "from": ["s"], "width": 50},
    {"name": "out", "op": "output", "from": ["recent"]}]}
START = 0.5


class Came(NamedTuple):
    """Seconds of wall and of processor time, and the peak of memory in MB."""

    wall: float
    processor: float
    memory: float


def timed(program: Path, words: list, out: str) -> Came:
    """What a call of the program took. What it writes goes into a file."""
    done = subprocess.run([sys.executable, HERE / "once.py", out, program, *words], stdout=subprocess.PIPE, check=False)
    if done.returncode:
        sys.exit(f"{' '.join(words)} ended with the status {done.returncode}")
    return Came(*map(float, done.stdout.split()))


def speed(program: Path, count: int = EVENTS, runs: int = RUNS) -> bool:
    """Prints what each workload takes, and answers whether both commands come to the same rows."""
    subprocess.run([sys.executable, HERE.parent / "whole/plans.py", "."], check=True)
    print("| workload | call | wall | processor | MB | lines | lines a second | of those of `serial` |")
    print("|---|---|---|---|---|---|---|---|")
    return all([compare(program, workload, count, runs) for workload in WORKLOADS])


def compare(program: Path, workload: str, count: int, runs: int) -> bool:
    sources = WORKLOADS[workload]
    number = make_script(sources, count * 2 // len(sources))
    calls = {"serial": ["serial", f"{workload}.json"], "follow": ["follow", f"{workload}.json", "script.txt"]}
    came = {call: min(timed(program, words, f"{call}.txt") for _ in range(runs)) for call, words in calls.items()}
    for call, took in came.items():
        print(f"| {workload} | `{call}` | {took.wall:.2f} | {took.processor:.2f} | {took.memory:,.0f} | {number:,} | "
              f"{number / took.wall:,.0f} | {came['serial'].wall / took.wall:.2f} |", flush=True)
    if rows_of("follow.txt") == Counter(Path("serial.txt").read_bytes().splitlines()):
        return True
    print(f"{workload}: what `follow` writes doesn't come to the rows of `serial`")
    return False


def make_script(sources: str, count: int) -> int:
    """Writes the sources and the script of their lines, and answers how many these are."""
    for seed, name in enumerate(sources, 1):
        with open(f"{name}.csv", "wb") as file:
            subprocess.run([sys.executable, HERE.parent / "whole/events.py", str(count), str(seed)], stdout=file, check=True)
    contents = [Path(f"{name}.csv").read_text().splitlines() for name in sources]
    with open("script.txt", "w", encoding="ascii") as script:
        for turn in zip_longest(*contents):
            script.writelines(f"{name},{line}\n" for name, line in zip(sources, turn) if line)
    return sum(map(len, contents))


def rows_of(name: str) -> Counter:
    """The lines of the rows that changes come to."""
    rows = Counter()
    for line in Path(name).read_bytes().splitlines():
        kind, _, rest = line.partition(b",")
        if kind == b"+":
            rows[rest] += 1
        elif kind == b"-":
            end, begin, before, *fields = rest.split(b",")
            rows[b",".join([begin, before, *fields])] -= 1
            if begin != end:
                rows[b",".join([begin, end, *fields])] += 1
    return +rows


def following(program: Path, **settings) -> subprocess.Popen:
    Path("window.json").write_text(json.dumps(WINDOW))
    return subprocess.Popen([program, "follow", "window.json", "/dev/stdin"], bufsize=0, stdin=subprocess.PIPE, **settings)


def delay(program: Path, count: int = DELAYS) -> bool:
    """Prints after how long answers come. Each line has one."""
    with following(program, stdout=subprocess.PIPE) as process:
        time.sleep(START)
        seen = [answered(process, lines.line(number).encode()) for number in range(count)]
        process.stdin.close()
    ordered = [1_000_000 * one for one in sorted(seen)]
    print("| lines | the first answer, in microseconds | the median | 99 of 100 within | all within |\n|---|---|---|---|---|")
    print(f"| {count:,} | {1_000_000 * seen[0]:.0f} | {ordered[count // 2]:.0f} | {ordered[count * 99 // 100]:.0f} | "
          f"{ordered[-1]:.0f} |", flush=True)
    return process.returncode == 0


def answered(process: subprocess.Popen, line: bytes) -> float:
    """How long the answer to a line takes."""
    begin = time.monotonic()
    write_all(process.stdin.fileno(), line)
    if not os.read(process.stdout.fileno(), 1 << 16):
        sys.exit("it ended before its script did")
    return time.monotonic() - begin


def memory(program: Path, count: int = MEMORY) -> bool:
    """Prints the resident set after each tenth of the lines, and how many a second there were. What is written is left out."""
    print("| lines | MB | lines a second |\n|---|---|---|")
    begin, shown = time.monotonic(), max(count // 10, 1)
    with following(program, stdout=subprocess.DEVNULL) as process:
        for until, piece in lines.pieces(count):
            if not write_all(process.stdin.fileno(), piece):
                sys.exit("it ended before its script did")
            if until // shown > (until - lines.AT_ONCE) // shown:
                took = time.monotonic() - begin
                print(f"| {until:,} | {resident(process):.1f} | {until / took:,.0f} |", flush=True)
        process.stdin.close()
    return process.returncode == 0


PARTS = {"speed": speed, "delay": delay, "memory": memory}


def main() -> int:
    program = built_program()
    asked, numbers = sys.argv[2:3] or [*PARTS], list(map(int, sys.argv[3:]))
    with tempfile.TemporaryDirectory(prefix="cedr-follow-") as folder:
        os.chdir(folder)
        right = [PARTS[part](program, *numbers) for part in asked]
        os.chdir(HERE)
    return 0 if all(right) else 1


if __name__ == "__main__":
    sys.exit(main())
