#!/usr/bin/env python3
"""Runs the gate, stamps each of its lines, and tells its longest way: which crate began when, when it ended, and what it waited for.

The longest way is that of checks of which each waits for the one before: on more processors the gate takes that long at least.

It runs `rt ci` at the top of the repository and writes to LOG each line of it behind the seconds since the begin. `rt ci` tells a
crate when it has ended. When its checks began is seen in the table of processes, twice a second: a check names its crate, and
that of an edit runs in a folder of its own. So LOG has a line more where the first check of a crate, of its tests or of its edits
begins (`>`) and where one ends (`<`), with the processor seconds of these checks so far. Its last lines have the status and which
parts of the processors' time checks and all else took, were idle, or went to other machines of the same host.

usage: python3 bench/gate/chain.py LOG          runs `rt ci`, and then tells the way; RT_JOBS is handed on
       python3 bench/gate/chain.py --read LOG   tells the way of an earlier run
"""
import os
import re
import subprocess
import sys
import threading
import time
from pathlib import Path

ROOT = Path(__file__).resolve().parents[2]
EVENT = re.compile(r"^ *([\d.]+) ([<>]) (\w+) (proof|tests|edits)(?: (\d+))?$")
STAMP = re.compile(r"^ *([\d.]+) (.*)$")
TICKS = os.sysconf("SC_CLK_TCK")


# ---- what runs

def processes():
    """Of each process the one that started it, its words, its folder, and the processor seconds of it and of those below it that ended."""
    found = {}
    for folder in Path("/proc").glob("[0-9]*"):
        try:
            words = (folder / "cmdline").read_bytes().decode(errors="replace").split("\0")
            place, numbers = os.readlink(folder / "cwd"), (folder / "stat").read_text().rpartition(")")[2].split()
        except OSError:
            continue
        found[int(folder.name)] = int(numbers[1]), words, place, sum(map(int, numbers[11:15])) / TICKS
    return found


def is_below(number: int, top: int, found: dict) -> bool:
    """Whether a process was started by another one, or by one that was."""
    while number in found and number != top:
        number = found[number][0]
    return number == top


def checks(gate: int) -> dict:
    """The checks that the gate runs: the crate and the part of each, and the processor seconds that it took."""
    found, running = processes(), {}
    for number, (starter, words, place, seconds) in found.items():
        if "--crate-name" in words and words[0].endswith("/rattle") and is_below(number, gate, found):
            name = words[words.index("--crate-name") + 1]
            part = "edits" if place != str(ROOT / "crates" / name) else "tests" if "--test" in words else "proof"
            running[number] = starter, (name, part), seconds
    # a job of a check is a process below it, whose seconds it counts once that ended
    return {number: it[1:] for number, it in running.items() if it[0] not in running}


def shares(before: list, after: list) -> str:
    """What became of the processors' time between two looks, in percent."""
    spent = [late - early for early, late in zip(before, after)]
    user, nice, system, idle, waiting, interrupts, soft, stolen = spent[:8]
    whole = max(1, sum(spent[:8]))
    parts = {"used": user + nice + system + interrupts + soft, "idle": idle + waiting, "other machines": stolen}
    return ", ".join(f"{name} {round(100 * part / whole)}" for name, part in parts.items())


def processor_ticks() -> list:
    return list(map(int, Path("/proc/stat").read_text().split("\n")[0].split()[1:]))


class Watch:
    """Notes in the log which checks begin and end."""

    def __init__(self, log):
        self.log, self.begun, self.lock = log, time.monotonic(), threading.Lock()
        self.running, self.spent, self.seen = {}, {}, set()

    def write(self, text: str) -> None:
        with self.lock:
            self.log.write(f"{time.monotonic() - self.begun:9.1f} {text}\n")
            self.log.flush()

    def look(self, gate: int) -> None:
        now = checks(gate)
        for key in sorted({key for key, _ in now.values()} - self.seen):
            self.seen.add(key)
            self.write(f"> {' '.join(key)}")
        for number, (key, seconds) in self.running.items():
            if number not in now:
                self.spent[key] = self.spent.get(key, 0) + seconds
                self.write(f"< {' '.join(key)} {round(self.spent[key])}")
        self.running = now


def run(log: Path) -> int:
    """Runs `rt ci`, and writes its lines and what ran to the log."""
    with open(log, "w", encoding="utf-8") as file:
        watch, ended, before = Watch(file), threading.Event(), processor_ticks()
        how = {"cwd": ROOT, "stdout": subprocess.PIPE, "stderr": subprocess.STDOUT, "text": True, "errors": "replace"}
        with subprocess.Popen(["rt", "ci"], **how) as gate:

            def look_on():
                while not ended.wait(0.5):
                    watch.look(gate.pid)

            looking = threading.Thread(target=look_on)
            looking.start()
            for line in gate.stdout:
                watch.write(line.rstrip("\n"))
            ended.set()
            looking.join()
        watch.look(gate.pid)
        watch.write(f"processors, in percent: {shares(before, processor_ticks())}")
        watch.write(f"status {gate.returncode}")
    return gate.returncode


# ---- what is told

def below() -> dict:
    """All crates of the repository below each one."""
    lines = (line.partition("#")[0].partition(":") for line in (ROOT / "crates.txt").read_text().splitlines())
    used = {head.split()[0]: names.split() for head, _, names in lines if head.strip()}

    def reached(name, found):
        for one in used[name]:
            if one in used and one not in found:
                found.add(one)
                reached(one, found)
        return found

    return {name: reached(name, set()) for name in used}


def read(log: Path):
    """When the checks of each crate's part began and ended and what they took; and when the last line came."""
    begins, ends, spent, last = {}, {}, {}, 0.0
    for line in log.read_text(encoding="utf-8").splitlines():
        event, stamp = EVENT.match(line), STAMP.match(line)
        if event:
            key, at = (event[3], event[4]), float(event[1])
            if event[2] == ">":
                begins[key] = at
            else:
                ends[key], spent[key] = at, int(event[5])
        if stamp:
            last = float(stamp[1])
    return {key: (begins[key], ends.get(key, last), spent.get(key, 0)) for key in begins}, last


def needed(key, times: dict, under: dict) -> list:
    """What the checks of a crate's part wait for."""
    name, part = key
    first = [(name, "proof"), (name, "tests")] if part == "edits" else [(one, "proof") for one in under[name]]
    return [one for one in first if one in times]


def waited_for(key, times: dict, under: dict):
    """What ended last of all that these checks wait for, if there is any."""
    return max(needed(key, times, under), key=lambda one: times[one][1], default=None)


def longest_way(times: dict, under: dict):
    """The checks of which each waits for the one before and that take longest together, and how long that is."""
    ways = {}
    for key in sorted(times, key=lambda one: times[one][1]):
        before = max((ways[one] for one in needed(key, times, under)), default=(0.0, []))
        ways[key] = before[0] + times[key][1] - times[key][0], [*before[1], key]
    return max(ways.values())


def minutes(seconds: float) -> str:
    return f"{int(seconds) // 60}:{int(seconds) % 60:02}"


def row(key, times: dict, under: dict) -> str:
    begin, end, spent = times[key]
    before = waited_for(key, times, under)
    waited = f"{before[0]} ({before[1]}), until {minutes(times[before][1])}" if before else "nothing"
    return f"| {key[0]} | {key[1]} | {minutes(begin)} | {minutes(end)} | {minutes(spent)} | {waited} |"


def tell(log: Path) -> None:
    """Writes the longest way, and what all took."""
    times, last = read(log)
    under = below()
    longest, way = longest_way(times, under)
    head = "| crate | checks of its | begin | end | processor time | waited for |\n|---|---|---|---|---|---|"
    print("\n".join([f"The longest way, which would take {minutes(longest)} if no check waited for a processor:", "", head,
                     *(row(one, times, under) for one in way), ""]))
    print("\n".join(["All, by when they began:", "", head, *(row(one, times, under) for one in sorted(times, key=lambda one: times[one][0])), ""]))
    for part in ("proof", "tests", "edits"):
        spent = [times[one][2] for one in times if one[1] == part]
        print(f"{part}: {minutes(sum(spent))} of processors, {len(spent)} crates")
    print(f"the last check ended at {minutes(max(end for _, end, _ in times.values()))}, the last line came at {minutes(last)}")
    print(re.findall(r"processors, in percent: .*|$", log.read_text(encoding="utf-8"))[0])


def main() -> int:
    words = sys.argv[1:]
    if not words or words[0].startswith("-") and (words[0] != "--read" or len(words) != 2):
        print(f"usage: {__doc__.rpartition('usage: ')[2]}", end="", file=sys.stderr)
        return 2
    status = 0 if words[0] == "--read" else run(Path(words[0]))
    tell(Path(words[-1]))
    return status


if __name__ == "__main__":
    sys.exit(main())
