#!/usr/bin/env python3
"""Counts the instructions of the program on six small workloads by callgrind (Debian's package valgrind), which doesn't depend on how
busy the machine is. Beside them stands what a program takes that was written by hand for these six alone, without proofs: the
least that was found, with hash tables, payloads that stand in the row, and rows that leave as soon as they are final. That program
isn't in this repository.

usage: instructions.py [PROGRAM.. [-- WORKLOAD..]]     PROGRAM is a built cedr: crates/cedr/out/cedr unless said otherwise
"""
import json
import os
import random
import re
import subprocess
import sys
import tempfile
from pathlib import Path

BUILT = Path(__file__).resolve().parents[2] / "crates/cedr/out/cedr"
DEPTH = 40
EQUAL = [[0, "=", {"column": 2}]]
# a workload: how many events each source has, of how many keys, and millions of instructions of the program by hand
WORKLOADS = {
    "join": (10_000, 1_000, 49.2),
    "joingroup": (10_000, 10, 84.2),
    "sequence": (10_000, 100, 78.7),
    "unless": (10_000, 100, 51.2),
    "chain": (5_000, 1_000, 60.5),
    "make": (5_000, 2, 159.5),
}


def source(name: str) -> dict:
    return {"name": name, "op": "source", "file": name, "fields": ["text", "int"]}


def chained(depth: int) -> list:
    """A select, a projection, a window and a shift, again and again."""
    kinds = [{"op": "select", "where": [[1, ">=", {"int": depth // 4}]]}, {"op": "project", "keep": [0, 1]},
             {"op": "window", "width": 90 + depth}, {"op": "shift", "by": 3}]
    return {"name": f"c{depth}", "from": [f"c{depth - 1}" if depth else "a"], **kinds[depth % 4]}


def nodes_of(workload: str, keys: int) -> list:
    both, equal = {"from": ["a", "b"]}, {"where": EQUAL}
    if workload == "chain":
        return [source("a"), *map(chained, range(DEPTH))]
    if workload == "sequence":
        last = [{"name": "q", "op": "sequence", **both, "scope": 20 * keys, **equal}]
    elif workload == "unless":
        last = [{"name": "q", "op": "unless", **both, "scope": 20 * keys, "hold": 5, **equal}]
    else:
        last = [{"name": "j", "op": "join", **both, **equal}]
    if workload == "joingroup":
        last.append({"name": "g", "op": "group", "from": ["j"], "keys": [0], "count": True, "sum": [1]})
    return [source("a"), source("b"), *last]


def event_lines(chance, events: int, keys: int):
    """An event begins within 50 behind 10 for each before it and is valid for up to 100. Every fifth gets half its life."""
    for number in range(events):
        begin = 10 * number + int(chance() * 50)
        life = 1 + int(chance() * 100)
        yield f"+,{number},{begin},{begin + life},k{int(chance() * keys)},{int(chance() * 1_000)}\n"
        if number % 5 == 4:
            yield f"-,{number},{begin + life // 2}\n"
        if number % 16 == 15:
            yield f"=,{10 * (number + 1)}\n"


def words_of(workload: str, folder: Path) -> list:
    """The words for the program, once the files that they need are in the folder."""
    events, keys, _ = WORKLOADS[workload]
    if workload == "make":
        return ["make", str(events)]
    nodes = nodes_of(workload, keys)
    nodes.append({"name": "out", "op": "output", "from": [nodes[-1]["name"]]})
    (folder / "plan").write_text(json.dumps({"version": 1, "nodes": nodes}))
    chance = random.Random(f"{workload} {events} {keys} 1").random
    for name in [node["name"] for node in nodes if node["op"] == "source"]:
        (folder / name).write_text("".join(event_lines(chance, events, keys)))
    return ["serial", "plan"]


def count(program: Path, words: list, folder: Path) -> float:
    """Millions of instructions of a call."""
    with tempfile.NamedTemporaryFile() as told:
        call = ["valgrind", "--tool=callgrind", f"--callgrind-out-file={told.name}", program, *words]
        done = subprocess.run(call, cwd=folder, stdout=subprocess.DEVNULL, stderr=subprocess.PIPE, text=True)
        if done.returncode:
            sys.exit(f"{program} {' '.join(words)}: status {done.returncode}: {done.stderr[-300:]}")
        return int(re.search(r"^(?:totals|summary): (\d+)", Path(told.name).read_text(), re.M)[1]) / 1e6


def main() -> None:
    given, names = sys.argv[1:], list(WORKLOADS)
    if "--" in given:
        at = given.index("--")
        given, names = given[:at], given[at + 1 :]
    programs = [Path(os.path.abspath(word)) for word in given] or [BUILT]
    for name in names:
        by_hand = WORKLOADS[name][2]
        with tempfile.TemporaryDirectory() as folder:
            words = words_of(name, Path(folder))
            counts = [count(program, words, Path(folder)) for program in programs]
        told = ", ".join(f"{millions:.1f} million ({millions / by_hand:.2f} times)" for millions in counts)
        print(f"{name}: {told}; by hand {by_hand}", flush=True)


main()
