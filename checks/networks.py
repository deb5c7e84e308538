#!/usr/bin/env python3
"""Runs the commands of the built program that run a plan, and compares what comes with what must come.

What must come is written out by hand in network_cases.py, README.md and docs/, and for random plans, files and scripts
worked out by answer_reference.py from the definitions. What is written by hand is also compared with that, and with a
run of the reference in network.py. Status 0: all right. 1: something differs; the first differences are printed with
their seeds, and their files kept. 2: the program isn't there. With a seed it looks at the random plans, scripts and
orders of that seed alone.

usage: checks/networks.py [PROGRAM [SEED]]
"""
import random
import sys
import tempfile
from collections import Counter
from pathlib import Path

sys.dont_write_bytecode = True

import answer_reference
import asked
import network_cases
import network_texts
import pages
import pipes
import random_networks
import terminal
from network_cases import SCRIPT_WORDS
from program import ROOT, Check, built_program

PLANS, SCRIPTS, FAULTY_PLANS, FAULTY_SCRIPTS, HISTORIES, ORDERS = 2_000, 500, 150, 50, 15, 20
ODD = 0.1
POOLS = ("1", "2", "4")
SIZES = [3, 16, 40]


class NetworkCheck(Check):
    """A check whose cases have several files each."""

    def answer(self, files: dict, words: list, *settings) -> tuple[int, bytes, bytes]:
        write_files(self.folder, files)
        return self.run(words, *settings)

    def keep(self, data: dict, place: Path) -> str:
        place.mkdir()
        write_files(place, data)
        return f"the files are in {place}"


def write_files(folder: Path, files: dict) -> None:
    """Each file has its bytes; one that has none is a folder."""
    for name, data in files.items():
        if data is None:
            (folder / name).mkdir(exist_ok=True)
        else:
            (folder / name).write_bytes(data)


def check_by_hand(check: NetworkCheck, cases) -> int:
    count = 0
    for case in cases:
        expected = case.status, case.out, case.err
        read = asked.read(case.words, case.files.get)
        by_definition = read.status, answer_reference.expected(read, case.out), read.err
        by_run = network_texts.answer(case.words, case.files.get)
        check.compare(f"{case.name}, by the definitions", case.files, expected, by_definition)
        check.compare(f"{case.name}, by a run of the reference", case.files, expected, by_run)
        check.compare(case.name, case.files, expected, check.answer(case.files, case.words))
        count += 1
    return count


def check_asked(check: NetworkCheck, name: str, files: dict, words: list, read: asked.Asked) -> bytes:
    """Compares what a command answers with what it must, and gives what it wrote."""
    came = check.answer(files, words)
    expected = read.status, answer_reference.expected(read, came[1]), read.err
    check.compare(f"{' '.join(words)}, {name}", files, expected, came)
    return came[1]


def seed_name(seed: int, odd: float) -> str:
    return f"seed {seed}" + (" with odd lines" if odd else "")


def check_plans(check: NetworkCheck, seeds: range, odd: float) -> Counter:
    """Compares the four commands and a pool on random plans, and answers how many had which answer of `serial`."""
    kinds = Counter()
    for seed in seeds:
        files = random_networks.random_network(random.Random(seed), odd)
        read = asked.read(["serial", "plan.json"], files.get)
        pooled = "run", ["pool", POOLS[seed % len(POOLS)], "plan.json"]
        for command, words in [*((command, [command, "plan.json"]) for command in asked.ON_SOURCES), pooled]:
            out = check_asked(check, seed_name(seed, odd), files, words, read._replace(command=command))
            kinds["late"] += command == "serial" and b",late," in out
            kinds["orphans"] += command == "serial" and b",orphan," in out
        kinds["refused"] += read.status == 3
        kinds["several"] += read.err.count(b"\n") > 1
    return kinds


def check_scripts(check: NetworkCheck, seeds: range, odd: float) -> int:
    """The same of random scripts, and answers how many of them were refused."""
    refused = 0
    for seed in seeds:
        files = random_networks.random_script(random.Random(seed), odd)
        read = asked.read(SCRIPT_WORDS, files.get)
        check_asked(check, seed_name(seed, odd), files, SCRIPT_WORDS, read)
        refused += read.status == 3
    return refused


def check_orders(check: NetworkCheck, seeds: range) -> None:
    """Files of the same events in other orders give the same bytes, where no port has a finite memory."""
    for seed in seeds:
        rng = random.Random(seed)
        files = random_networks.remembering_network(rng)
        first = check.answer(files, ["run", "plan.json"])
        for _ in range(ORDERS):
            other = {name: data if name == "plan.json" else random_networks.shuffled(rng, data)
                     for name, data in files.items()}
            check.compare(f"another order, seed {seed}", other, first, check.answer(other, ["run", "plan.json"]))


def check_made(check: NetworkCheck) -> int:
    for size in SIZES:
        words = ["make", str(size)]
        check_asked(check, "by the query", {}, words, asked.read(words, {}.get))
    return len(SIZES)


def check_full_device(check: NetworkCheck) -> int:
    """What can't be written is told, but not where nothing is to be written."""
    rows = network_cases.files_of(network_cases.passing('"strong"'), {"s": "+,1,1,2,a"})
    none = network_cases.files_of(network_cases.passing('"strong"'), {"s": ""})
    faulty = network_cases.files_of(network_cases.passing('"strong"'), {"s": "x"})
    script = {**rows, "x.txt": b"?\n"}
    refused, done, told = (5, b"", b"write fault\n"), (0, b"", b""), (3, b"", b"events s line 1 fault 2\n")
    commands = [*([command] for command in asked.ON_SOURCES), ["pool", "3"], ["parts", "3"]]
    table = [(rows, [*words, "plan.json"], refused) for words in commands]
    table += [(none, [*words, "plan.json"], done) for words in commands if words != ["audit"]]
    table += [(faulty, [*words, "plan.json"], told) for words in commands]
    table += [(none, ["audit", "plan.json"], refused), (script, SCRIPT_WORDS, refused), ({}, ["make", "1"], refused)]
    with open("/dev/full", "wb") as full:
        for files, words, expected in table:
            check.compare(f"{' '.join(words)} to a full device", files, expected, check.answer(files, words, full))
    return len(table)


def check_refused_reads(check: NetworkCheck) -> int:
    """A read that is refused behind one that gave a line."""
    data = network_cases.UNION.replace(b"v.csv", terminal.NAME.encode())
    files = {"plan.json": data, "u.csv": b"+,1,1,3,b\n=,50\n"}
    write_files(check.folder, files)
    try:
        for command in (*asked.ON_SOURCES, "pool 3", "parts 3"):
            words = [*command.split(), "plan.json"]
            status, out, err = terminal.refused_read(check.program, check.folder, words)
            front = out if command == "stream" and b"+,1,2,a\n+,1,3,b\n".startswith(out) else b""
            expected = 4, front, b"read fault\n"
            check.compare(f"{command}, a read that fails in the middle", files, expected, (status, out, err))
    except terminal.NoTerminal as reason:
        print(f"networks: reads that fail in the middle are skipped: there is no terminal ({reason})")
        return 0
    return len(asked.ON_SOURCES) + 2


def check_pipes(check: NetworkCheck) -> int:
    """Sources that are named pipes are read like files."""
    folder = ROOT / "examples/monday"
    plan, sources = folder / "failed.json", {one.name: one.read_bytes() for one in folder.glob("*.csv")}
    for command in ("run", "serial", "parts 2"):
        with pipes.named(check.folder, sources):
            came = check.run([*command.split(), plan])
        check.compare(f"{command} over named pipes", sources, (0, b"1300,1301,oven-1\n", b""), came)
    return 3


def main() -> int:
    only = range(int(sys.argv[2]), int(sys.argv[2]) + 1) if len(sys.argv) > 2 else None
    with tempfile.TemporaryDirectory(prefix="cedr-check-") as folder:
        check = NetworkCheck(built_program(), Path(folder), "")
        told = check_seeds(check, *[only] * 5) if only else check_all(check)
    print(f"networks: {told}: {check.differences} differences")
    return 1 if check.differences else 0


def check_all(check: NetworkCheck) -> str:
    tables = network_cases.all_cases(), pages.of_plans(ROOT), network_cases.large()
    small, on_page, large = (check_by_hand(check, cases) for cases in tables)
    outside, sizes = check_full_device(check) + check_refused_reads(check), check_made(check)
    piped = check_pipes(check)
    told = (f"{small} small and {large} large cases by hand, {on_page} of README.md and docs/, {outside} that the outside "
            f"refuses, {piped} over named pipes, {sizes} sizes of make, ")
    return told + check_seeds(check, *map(range, (PLANS, SCRIPTS, FAULTY_PLANS, FAULTY_SCRIPTS, HISTORIES)))


def check_seeds(check: NetworkCheck, plans: range, scripts: range, odd_plans: range, odd_scripts: range,
                histories: range) -> str:
    """Compares what is made of these seeds, and tells what it was."""
    kinds, _ = check_plans(check, plans, 0), check_scripts(check, scripts, 0)
    odd_kinds, refused = check_plans(check, odd_plans, ODD), check_scripts(check, odd_scripts, ODD)
    check_orders(check, histories)
    return (f"{len(plans)} random plans by four commands and a pool of {', '.join(POOLS)} threads in turn "
            f"({kinds['late']} with late changes, {kinds['orphans']} with orphans), {len(scripts)} scripts, "
            f"{len(odd_plans)} plans with odd lines ({odd_kinds['refused']} refused, {odd_kinds['several']} of them for "
            f"several sources), {len(odd_scripts)} scripts with odd lines "
            f"({refused} refused), {len(histories)} histories in {ORDERS} orders")


if __name__ == "__main__":
    sys.exit(main())
