#!/usr/bin/env python3
"""Runs `cedr_keys` of the built program on many plans, and compares what comes with what must come.

What must come is written out by hand in key_cases.py, and for random plans worked out by key_reference.py, which is also held to
the cases: where it finds columns that all nodes keep the program must find some, and the reference must be able to keep those.
Status 0: all right. 1: something differs; the first differences are printed, and their plans kept. 2: the program isn't there.

usage: checks/keys.py [PROGRAM]
"""
import json
import random
import resource
import sys
import tempfile
from collections import Counter
from pathlib import Path

sys.dont_write_bytecode = True

import key_cases
import key_reference
import random_networks
from program import Check, built_program

RANDOM = 1_500
MOST_SOURCES = 4
MOST_SECONDS = 0.010
CALLS = 5
UNKEYED = b"no column of the output is kept by all nodes: it ends at "
UNDECIDED = b"no column of the output was found in 2000 tries\n"


class Maker(random_networks.Maker):
    """Makes plans whose tests tie columns more often, and whose sources have few columns."""

    def tests(self, types: list) -> list:
        return [self.test(types) for _ in range(self.rng.choice([0, 1, 2, 3, 4]))] if types else []

    def test(self, types: list) -> list:
        left, comparison, right = super().test(types)
        return [left, self.rng.choice(["=", "=", "=", comparison]), right]


def random_document(rng: random.Random) -> dict:
    while True:
        document = Maker(rng).document()
        if sum(node["op"] == "source" for node in document["nodes"]) <= MOST_SOURCES:
            return document


def answer(check: Check, data: bytes) -> tuple[int, bytes, bytes]:
    check.write("p.json", data)
    return check.run([b"p.json"])


def lines_of(nodes: list, columns: tuple) -> bytes:
    return "".join(f"{node['name']},{column}\n" for node, column in zip(nodes, columns) if node["op"] == "source").encode()


def check_cases(check: Check) -> int:
    for case in key_cases.all_cases():
        check.compare(case.name, case.data, (case.status, case.out, case.err), answer(check, case.data))
        if case.status < 2:
            nodes = key_reference.nodes_of(json.loads(case.data))
            if case.status == 0 or sum(node["op"] == "source" for node in nodes) <= MOST_SOURCES:
                check.compare(f"{case.name}, by the definition", case.data, (0, case.out, b""), by_definition(nodes, case.out))
    return len(key_cases.all_cases())


def by_definition(nodes: list, out: bytes) -> tuple[int, bytes, bytes]:
    """The lines, where the definition keeps their columns, or none where it keeps none; else those that it keeps."""
    lines = [line.rsplit(",", 1) for line in out.decode().splitlines()]
    columns = key_reference.choice(nodes, {name: int(column) for name, column in lines})
    return 0, lines_of(nodes, columns) if columns else b"", b""


def check_random(check: Check) -> Counter:
    kinds = Counter()
    for seed in range(RANDOM):
        document = random_document(random.Random(seed))
        data = json.dumps(document).encode()
        nodes = key_reference.nodes_of(document)
        status, out, err = answer(check, data)
        keyed = key_reference.choice(nodes, {}) is not None
        told = err[len(UNKEYED):-1].decode()
        names = [node["name"] for node in nodes]
        expected = (0, out, b"") if keyed else (1, b"", UNKEYED + (told if told in names else names[0]).encode() + b"\n")
        check.compare(f"seed {seed}", data, expected, (status, out, err))
        if keyed:
            check.compare(f"seed {seed}, by the definition", data, (0, out, b""), by_definition(nodes, out))
            wanted = [node["name"] for node in nodes if node["op"] == "source"]
            check.compare(f"seed {seed}, names", data, (0, b"", b""), (0, b"", b"") if [line.rsplit(",", 1)[0] for line in out.decode().splitlines()] == wanted else (1, out, b""))
        kinds["keyed" if keyed else "not"] += 1
    return kinds


def seconds(check: Check) -> float:
    """The processor time that the program takes over the plan that was written, at best of some calls."""
    def one() -> float:
        before = resource.getrusage(resource.RUSAGE_CHILDREN)
        check.run([b"p.json"])
        after = resource.getrusage(resource.RUSAGE_CHILDREN)
        return after.ru_utime + after.ru_stime - before.ru_utime - before.ru_stime
    return min(one() for _ in range(CALLS))


def check_hard(check: Check) -> int:
    """Plans that are as large as may be are answered in a few milliseconds, those of several readers too."""
    for name, data, keyed in key_cases.hard_plans():
        status, out, err = answer(check, data)
        kind = True if status == 0 else None if err == UNDECIDED else False
        check.compare(name, data, (0, str(keyed).encode(), b""), (0, str(kind).encode(), b""))
        if keyed:
            check.compare(f"{name}, by the definition", data, (0, out, b""), by_definition(key_reference.nodes_of(json.loads(data)), out))
        spent = seconds(check)
        check.compare(f"{name}, in time", data, (0, b"", b""), (0, b"", b"" if spent < MOST_SECONDS else f"{spent:.3f} s".encode()))
    return len(key_cases.hard_plans())


def check_words(check: Check) -> int:
    check.write("p.json", key_cases.all_cases()[0].data)
    usage = 1, b"", b"usage: cedr_keys PLAN\n"
    for words in ([], [b"p.json", b"p.json"], [b"\xff"]):
        check.compare(f"the words {words}", b"", usage, check.run(words))
    check.compare("a missing file", b"", (4, b"", b"read fault\n"), check.run([b"missing.json"]))
    with open("/dev/full", "wb") as full:
        came = check.run([b"p.json"], full)
    check.compare("a full disk", b"", (5, b"", b"write fault\n"), came)
    return 5


def main() -> int:
    with tempfile.TemporaryDirectory(prefix="cedr-check-") as folder:
        check = Check(built_program("cedr_keys", ""), Path(folder), ".json")
        by_hand = check_cases(check)
        words = check_words(check)
        hard = check_hard(check)
        kinds = check_random(check)
    print(f"keys: {by_hand} plans by hand, {hard} hard ones, {words} command lines, {RANDOM} random plans ({kinds['keyed']} keyed): {check.differences} differences")
    return 1 if check.differences else 0


sys.exit(main())
