#!/usr/bin/env python3
"""Times `examples/scale/scale` step by step on two sources of MIB mebibytes together, 640 unless said otherwise, in PARTS parts, 16
unless said otherwise, with 1, 2 and 4 of them at a time, and prints tables of what it took.

The events are those of `bench/whole/events.py`, of 1,000 machines. The plan asks which events of the first source aren't followed by one
of the second of their machine within 1,000. Before, sources that one process still reads, 60 MiB each at most, are answered whole and
in parts: the same bytes, or the status is 1, as it is where an answer isn't the sum of those of the parts. Status 2: a program isn't
there. The files are made under $TMPDIR, some four times MIB.

usage: bench/scale/scale.py [CEDR [CEDR_KEYS [MIB [PARTS]]]]
"""
import importlib.machinery
import importlib.util
import json
import os
import resource
import subprocess
import sys
import tempfile
import time
from concurrent.futures import ProcessPoolExecutor
from pathlib import Path
from typing import NamedTuple

sys.dont_write_bytecode = True
TOP = Path(__file__).resolve().parent.parent.parent
MACHINES, MOST_WHOLE, EVENT_BYTES, MIB = 1_000, 60, 42, 1 << 20
AT_A_TIME = (1, 2, 4)
SOURCES = [{"name": name, "op": "source", "file": f"{name}.csv", "fields": ["text", "int"]} for name in "ab"]
UNLESS = {"name": "alarms", "op": "unless", "from": ["a", "b"], "scope": MACHINES, "hold": 1, "where": [[0, "=", {"column": 2}]]}
PLAN = {"version": 1, "nodes": [*SOURCES, UNLESS, {"name": "out", "op": "output", "from": ["alarms"]}]}
HEAD = "| at a time | dividing | parts | merging | all | processor |\n|---|---|---|---|---|---|"


def script():
    """The script as a module. Its processes find it under this name."""
    loader = importlib.machinery.SourceFileLoader("scale_script", str(TOP / "examples/scale/scale"))
    module = importlib.util.module_from_spec(importlib.util.spec_from_loader(loader.name, loader))
    sys.modules[loader.name] = module
    loader.exec_module(module)
    return module


class Took(NamedTuple):
    """Seconds of wall and of processor time."""

    wall: float
    processor: float


def timed(step, *words) -> Took:
    start, before = time.time(), processor()
    step(*words)
    return Took(time.time() - start, processor() - before)


def processor() -> float:
    """What this process and those that it waited for have taken."""
    return sum(used.ru_utime + used.ru_stime for used in map(resource.getrusage, (resource.RUSAGE_SELF, resource.RUSAGE_CHILDREN)))


def make(mib: float) -> None:
    """Two sources of so many mebibytes each."""
    for seed, name in enumerate("ab", 1):
        words = [sys.executable, TOP / "bench/whole/events.py", str(int(mib * MIB / EVENT_BYTES)), str(seed), str(MACHINES)]
        with open(f"{name}.csv", "wb") as out:
            subprocess.run(words, stdout=out, check=True)
    print("sources of", " and ".join(f"{os.path.getsize(f'{name}.csv') / MIB:.1f}" for name in "ab"), "MiB", flush=True)


def run(command: str) -> None:
    with open("whole.csv", "wb") as out:
        subprocess.run(["cedr", command, "plan.json"], stdout=out, check=True)


def merged(scale, types: list, parts: int, folder: str) -> None:
    """The last step, whose answer goes to a file."""
    kept = os.dup(1)
    with open("answer.csv", "wb") as out:
        os.dup2(out.fileno(), 1)
        scale.merge(types, parts, folder)
    os.dup2(kept, 1)
    os.close(kept)


def divided(scale, sources: list, parts: int, jobs: int, folder: str) -> None:
    with ProcessPoolExecutor(min(jobs, len(sources))) as pool:
        list(pool.map(scale.divide, [scale.Division(source, parts, folder) for source in sources]))


def see_that_it_is_the_sum(parts: int, folder: str) -> None:
    """The whole answer has the rows of the parts' answers, each as often."""
    insertions = " ".join(f"{folder}/{part}.csv" for part in range(parts))
    both = f"cmp <(cut -d, -f3- {insertions} | LC_ALL=C sort) <(LC_ALL=C sort answer.csv)"
    if subprocess.run(["bash", "-c", both], check=False).returncode:
        sys.exit("the answer isn't the sum of those of the parts")


def in_parts(scale, parts: int, jobs: int) -> str:
    """A line of the table, and what the parts were."""
    plan, sources, types = scale.read_plan("plan.json")
    with tempfile.TemporaryDirectory(dir=".") as folder:
        folder = os.path.abspath(folder)
        scale.write_part_plans(plan, parts, folder)
        steps = [timed(divided, scale, sources, parts, jobs, folder)]
        sizes = [sum(os.path.getsize(f"{folder}/{part}/{name}.csv") for name in "ab") / MIB for part in range(parts)]
        steps.append(timed(scale.answer_parts, sources, parts, str(jobs), [], folder))
        scale.see_that_all_answered(sources, parts, folder)
        answer = sum(os.path.getsize(f"{folder}/{part}.csv") for part in range(parts)) / MIB
        steps.append(timed(merged, scale, types, parts, folder))
        see_that_it_is_the_sum(parts, folder)
    wall = " | ".join(f"{one:.1f}" for one in [*(step.wall for step in steps), sum(step.wall for step in steps)])
    print(f"| {jobs} | {wall} | {', '.join(f'{step.processor:.0f}' for step in steps)} |", flush=True)
    peak = resource.getrusage(resource.RUSAGE_CHILDREN).ru_maxrss / 1_000
    return (f"parts of {min(sizes):.1f} to {max(sizes):.1f} MiB; answers of {answer:.1f} MiB as insertions, "
            f"{os.path.getsize('answer.csv') / MIB:.1f} MiB together; the greatest process took {peak:.0f} MB")


def measure(mib: float, parts: int) -> int:
    scale = script()
    Path("plan.json").write_text(json.dumps(PLAN))
    make(min(MOST_WHOLE, mib))
    for command in ("serial", "run"):
        print(f"whole, {command}: %.1f, %.1f" % timed(run, command), flush=True)
    print(HEAD)
    print(in_parts(scale, parts, AT_A_TIME[-1]))
    if Path("whole.csv").read_bytes() != Path("answer.csv").read_bytes():
        print("the answers differ")
        return 1
    make(mib / 2)
    print(HEAD)
    for jobs in AT_A_TIME:
        said = in_parts(scale, parts, jobs)
    print(said)
    return 0


def main() -> int:
    words = dict(enumerate(sys.argv[1:]))
    programs = {name: Path(words.get(place, TOP / f"crates/{name}/out/{name}")).resolve()
                for place, name in enumerate(("cedr", "cedr_keys"))}
    for program in programs.values():
        if not program.is_file():
            print(f"{program} isn't there", file=sys.stderr)
            return 2
    with tempfile.TemporaryDirectory(prefix="cedr-bench-") as folder:
        os.chdir(folder)
        os.mkdir("bin")
        for name, program in programs.items():
            os.symlink(program, f"bin/{name}")
        os.environ.update(PATH=f"{folder}/bin:{os.environ['PATH']}", TMPDIR=folder)
        status = measure(float(words.get(2, 640)), int(words.get(3, 16)))
        os.chdir(TOP)
    return status


if __name__ == "__main__":
    sys.exit(main())
