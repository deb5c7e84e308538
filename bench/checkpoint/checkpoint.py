#!/usr/bin/env python3
"""Times `save` and `resume` beside `live` on scripts of so many events, and prints a table of what they took.

A script has EVENTS insertions, 1,000,000 unless said otherwise. Time moves on by 1 with each. An event begins within 50 behind
that, is of one of 100 machines, and is valid for up to 100. One in eight gets an earlier end, and one in 64 is withdrawn so; one in
sixteen is revised, as long as no guarantee has passed its begin; and a guarantee tells every 100 events where time is. The last line
is a `?`.
In the workload `group` all are of one source, whose counts and sums by machine are shown where a count is 5 or more. In `join` they
are of two sources in turn, which are joined by machine, and shown where both amounts are 990 or more.

For each workload: `live` over the script; `save` of it; `resume` from that checkpoint, with a script of one `?`. Both must show
the same. Of several RUNS each the quickest one counts. Status 0: all right. 1: they don't show the same. 2: the program isn't there.

usage: bench/checkpoint/checkpoint.py [PROGRAM [EVENTS [RUNS]]]
"""
import json
import os
import random
import subprocess
import sys
import tempfile
import time
from pathlib import Path
from typing import NamedTuple

sys.dont_write_bytecode = True
sys.path.insert(0, str(Path(__file__).resolve().parent.parent.parent / "checks"))

from program import built_program

EVENTS, RUNS = 1_000_000, 2
SPREAD, MACHINES, LONGEST = 50, 100, 100
LARGEST = 67_108_864


class Came(NamedTuple):
    """Seconds of wall and of processor time, and the peak of memory in MB."""

    wall: float
    processor: float
    memory: float


def source(name: str) -> dict:
    return {"name": name, "op": "source", "file": f"{name}.csv", "fields": ["text", "int"]}


def plan(*nodes: dict) -> bytes:
    return json.dumps({"version": 1, "nodes": [*nodes, {"name": "out", "op": "output", "from": [nodes[-1]["name"]]}]}).encode()


AMOUNTS = [[column, ">=", {"int": 990}] for column in (1, 3)]
WORKLOADS = {
    "group": ("s", plan(source("s"), {"name": "load", "op": "group", "from": ["s"], "keys": [0], "count": True, "sum": [1]},
                        {"name": "high", "op": "select", "from": ["load"], "where": [[1, ">=", {"int": 5}]]})),
    "join": ("ab", plan(source("a"), source("b"), {"name": "both", "op": "join", "from": ["a", "b"],
                                                   "where": [[0, "=", {"column": 2}], *AMOUNTS]})),
}


def script(names: str, count: int):
    """The lines of so many events of these sources in turn. The same words give the same lines."""
    chance = random.Random(1).random
    begins, mark = {}, 0
    for now in range(count):
        name = names[now % len(names)]
        begin = begins[now] = now + int(chance() * SPREAD)
        length = 1 + int(chance() * LONGEST)
        yield f"{name},+,{now},{begin},{begin + length},{fields(chance)}\n"
        if now % 8 == 7:
            yield f"{name},-,{now},{begin if now % 64 == 63 else begin + length // 2}\n"
        revised = now - 2 * len(names)
        if now % 16 == 13 and begins.get(revised, -1) >= mark:
            begin = begins[revised]
            yield f"{name},~,{revised},{begin},{begin + length},{fields(chance)}\n"
        if now % 100 == 99:
            mark = now + 1
            begins.clear()
            yield from (f"{one},=,{mark}\n" for one in names)
    yield "?\n"


def fields(chance) -> str:
    return f"machine-{int(chance() * MACHINES)},{int(chance() * 1_000)}"


def timed(program: Path, folder: Path, words: list, out: str) -> Came:
    """What a call of the program took. What it writes goes into a file."""
    with open(folder / out, "wb") as written:
        begin = time.monotonic()
        process = subprocess.Popen([program, *words], cwd=folder, stdout=written)
        _, status, used = os.wait4(process.pid, 0)
        wall = time.monotonic() - begin
    if status:
        sys.exit(f"{' '.join(words)} ended with the status {os.waitstatus_to_exitcode(status)}")
    return Came(wall, used.ru_utime + used.ru_stime, used.ru_maxrss / 1_000)


def quickest(program: Path, folder: Path, words: list, out: str, runs: int) -> Came:
    return min(timed(program, folder, words, out) for _ in range(runs))


def row(workload: str, call: str, came: Came, size: int) -> str:
    return f"| {workload} | `{call}` | {came.wall:.2f} | {came.processor:.2f} | {came.memory:,.0f} | {size:,} |"


def measure(program: Path, folder: Path, workload: str, count: int, runs: int) -> bool:
    """Prints the rows of a workload, and answers whether `resume` showed what `live` did."""
    names, data = WORKLOADS[workload]
    (folder / "plan.json").write_bytes(data)
    (folder / "x.txt").write_text("".join(script(names, count)))
    (folder / "question.txt").write_text("?\n")
    size = (folder / "x.txt").stat().st_size
    if size > LARGEST:
        sys.exit(f"{count} events are a script of {size} bytes, and it may have {LARGEST}")
    calls = [("live", ["live", "plan.json", "x.txt"], "live.txt"), ("save", ["save", "plan.json", "x.txt"], "saved.txt"),
             ("resume", ["resume", "plan.json", "saved.txt", "question.txt"], "resumed.txt")]
    for call, words, out in calls:
        read = folder / ("saved.txt" if call == "resume" else "x.txt")
        print(row(workload, call, quickest(program, folder, words, out, runs), read.stat().st_size), flush=True)
    return (folder / "live.txt").read_bytes() == (folder / "resumed.txt").read_bytes()


def main() -> int:
    program = built_program()
    count, runs = [*map(int, sys.argv[2:]), *[EVENTS, RUNS][len(sys.argv[2:]):]]
    print("| workload | call | wall | processor | MB | bytes read |\n|---|---|---|---|---|---|")
    with tempfile.TemporaryDirectory(prefix="cedr-checkpoint-") as folder:
        same = [measure(program, Path(folder), workload, count, runs) for workload in WORKLOADS]
    if not all(same):
        print("`resume` doesn't show what `live` does")
    return 0 if all(same) else 1


if __name__ == "__main__":
    sys.exit(main())
