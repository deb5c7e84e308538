#!/usr/bin/env python3
"""Compares what `cedr parts` answers with what `cedr serial` does, in 1, 2, 3 and 16 parts: status, rows and standard error.

- Random plans that are keyed by the way they are made (random_keyed.py), and others, of which most keep no key or have a finite
  memory. What `serial` answers to such plans is compared with the definitions by networks.py and scale.py.
- The same with odd lines, so that sources are refused.
- Sources of one key alone, and of more keys than parts.

Status 0: all right. 1: something differs; the first differences are printed with their seeds, and their files kept. 2: the
program isn't there.

usage: checks/parts.py [PROGRAM]
"""
from __future__ import annotations

import random
import sys
import tempfile
from collections import Counter
from concurrent.futures import ThreadPoolExecutor
from pathlib import Path

sys.dont_write_bytecode = True

import random_keyed
import random_networks
from networks import NetworkCheck, write_files
from program import Check, built_program

KEYED, OTHERS, FAULTY, AT_ONCE = 900, 900, 100, 4
ODD = 0.05
PARTS = ("1", "2", "3", "16")
JOINED = ('{"version":1,"nodes":[{"name":"u","op":"source","file":"u.csv","fields":["text"]},'
          '{"name":"v","op":"source","file":"v.csv","fields":["text"]},'
          '{"name":"j","op":"join","from":["u","v"],"where":[[0,"=",{"column":1}]]},'
          '{"name":"out","op":"output","from":["j"]}]}').encode()


def answered(check: NetworkCheck, case: tuple) -> tuple:
    """A case's name and files, what `serial` answers, and what each number of parts does."""
    name, files = case
    with tempfile.TemporaryDirectory(dir=check.folder) as place:
        write_files(Path(place), files)
        one = Check(check.program, Path(place), "")
        return name, files, one.run(["serial", "plan.json"]), [one.run(["parts", parts, "plan.json"]) for parts in PARTS]


def compared(check: NetworkCheck, cases: list) -> Counter:
    """Compares the answers of some cases, and counts the statuses of `serial`."""
    statuses = Counter()
    with ThreadPoolExecutor(AT_ONCE) as threads:
        for name, files, wanted, came in threads.map(lambda case: answered(check, case), cases):
            for parts, answer in zip(PARTS, came):
                check.compare(f"{name}, in {parts} parts", files, wanted, answer)
            statuses[wanted[0]] += 1
    return statuses


def random_cases(title: str, make, count: int, odd: float) -> list:
    return [(f"{title}, seed {seed}" + (" with odd lines" if odd else ""), make(random.Random(seed), odd)) for seed in range(count)]


def many_keys(keys: int, lines: int) -> dict:
    """Two sources of so many lines each, over so many keys, with a guarantee every 50 lines."""
    def source(shift: int) -> bytes:
        rows = []
        for number in range(lines):
            rows.append(f"+,{number},{number},{number + 9},k{(number + shift) % keys}")
            if number % 50 == 49:
                rows.append(f"=,{number}")
        return "\n".join(rows).encode() + b"\n"
    return {"plan.json": JOINED, "u.csv": source(0), "v.csv": source(1)}


def key_cases() -> list:
    """Sources of one key, of a few, and of as many as there are lines."""
    return [(f"{keys} keys", many_keys(keys, 500)) for keys in (1, 2, 17, 500)]


def main() -> int:
    program = built_program()
    with tempfile.TemporaryDirectory() as place:
        check = NetworkCheck(program, Path(place), "")
        plans = random_cases("a keyed plan", random_keyed.keyed_network, KEYED, 0)
        plans += random_cases("any plan", random_networks.random_network, OTHERS, 0)
        plans += random_cases("a keyed plan", random_keyed.keyed_network, FAULTY, ODD)
        plans += random_cases("any plan", random_networks.random_network, FAULTY, ODD)
        statuses = compared(check, plans + key_cases())
    print(f"parts: {len(plans)} random plans in {', '.join(PARTS)} parts, of which serial refused the events of {statuses[3]}: "
          f"{check.differences} differences")
    return 1 if check.differences else 0


if __name__ == "__main__":
    sys.exit(main())
