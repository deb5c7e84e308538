#!/usr/bin/env python3
"""Refuses each allocation, read and write of the built program in turn, and prints a table of what each came to.

The commands run over small files and over plans that have every operator, and edges for one message. For each of them the
program is run once for each number, up to those that it doesn't come to: the allocation, the read or the write of that number
is refused, or the read or the write moves one byte (refuse.c). What must come of it:

- a refused allocation: status 6, or what had come without it where it did no harm, or 4 or 5 where the call of the system
  failed for it; a refused read: status 4; a refused write: status 5, or for a text of a fault the status of that; a read or a
  write of one byte: what had come without it
- on standard output the whole answer at status 0, and else a first part of it; of `stream` a first part of the changes that
  its plan allows (checks/answer_reference.py)
- on standard error the text of the status; and that each thread that was started was joined

Anything else is a finding, and is printed with its command line and the number. Status 0: no finding. 1: some. 2: the program
isn't there, or there is no C compiler.

usage: bench/refusals/refusals.py [PROGRAM [PART of a command line..]]
       bench/refusals/refusals.py --checked [PART of a command line..]

With --checked it takes the program that `rt try` builds of the sources, proved or not, which also stops at any bad access to
memory. That takes some minutes.
"""
import os
import re
import shutil
import subprocess
import sys
import tempfile
import time
from collections import Counter
from concurrent.futures import ThreadPoolExecutor
from functools import lru_cache
from pathlib import Path
from typing import NamedTuple

HERE = Path(__file__).resolve().parent
sys.dont_write_bytecode = True
sys.path.insert(0, str(HERE.parent.parent / "checks"))

import answer_reference
import asked
import plan_reference
import reference
from answer_lines import LIST_MARK, Unlawful
from program import ROOT, USAGE, built_program

SECONDS = 30
WORKERS = 2
BATCH = 64
# So many numbers behind the last one that the program came to. On threads it doesn't always come to the same number.
BEYOND = 3
# No program comes to this allocation by itself.
NUMBER = 305_419_896
KINDS = ["allocations", "reads", "writes", "reads of one byte", "writes of one byte"]
# what refuse.c calls these, and where it tells how many there were
COUNTED = {"alloc": 0, "read": 1, "write": 2, "short-read": 1, "short-write": 2}
TEXTS = {4: b"read fault\n", 5: b"write fault\n", 6: b"out of memory\n"}

STRONG, MIDDLE, WEAK = '"strong"', '"middle"', '{"block":0,"memory":2}'

# Each operator that isn't a source or the output. Those over sources alone have the first level, and all others the second:
# what a port with a finite memory forgets is then the same in each run.
NODES = """
{"name":"f","op":"select","from":["a"],"where":[[1,">=",{"int":0}]],"level":FIRST}
{"name":"w","op":"window","from":["b"],"width":9,"level":FIRST}
{"name":"p","op":"project","from":["f"],"keep":[0,1],"level":INNER}
{"name":"h","op":"shift","from":["p"],"by":1,"level":INNER}
{"name":"o","op":"hop","from":["w"],"every":2,"width":4,"level":INNER}
{"name":"s","op":"starts","from":["h"],"level":INNER}
{"name":"e","op":"ends","from":["o"],"level":INNER}
{"name":"u","op":"union","from":["s","e"],"level":INNER}
{"name":"j","op":"join","from":["p","w"],"where":[[0,"=",{"column":2}]],"level":INNER}
{"name":"q","op":"sequence","from":["p","w"],"scope":10,"where":[],"level":INNER}
{"name":"n","op":"unless","from":["h","o"],"scope":3,"hold":2,"where":[],"level":INNER}
{"name":"g","op":"group","from":["u"],"keys":[0],"count":true,"sum":[1],"level":INNER}
{"name":"jt","op":"project","from":["j"],"keep":[0],"level":INNER}
{"name":"qt","op":"project","from":["q"],"keep":[0],"level":INNER}
{"name":"nt","op":"project","from":["n"],"keep":[0],"level":INNER}
{"name":"gt","op":"project","from":["g"],"keep":[0],"level":INNER}
{"name":"all","op":"union","from":["jt","qt","nt","gt"],"level":INNER}
"""


def plan(first: str, inner: str) -> bytes:
    sources = [f'{{"name":"{name}","op":"source","file":"{name}.csv","fields":["text","int"]}}' for name in "ab"]
    nodes = NODES.replace("FIRST", first).replace("INNER", inner).split("\n")[1:-1]
    output = f'{{"name":"out","op":"output","from":["all"],"level":{inner}}}'
    return ('{"version":1,"edge":1,"nodes":[\n' + ",\n".join([*sources, *nodes, output]) + "]}\n").encode()


A = b'+,1,1,9,x,1\n+,2,4,6,y,-2\n~,2,4,7,"y,",-1\n=,4\n-,1,5\n'
B = b'+,1,2,8,x,3\n+,2,5,inf,"y,",4\n+,3,1,3,x,5\n~,3,2,4,x,6\n'
SCRIPT = b"a,+,1,1,9,x,1\nb,+,1,2,8,x,3\n?\na,~,1,1,7,x,2\na,-,1,5\nb,=,7\n?\n"
SAVED = b'checkpoint,1\nsource,a,0\n1,1,9,x,1\n2,4,4\nsource,b,0\n1,2,8,x,3\n2,5,inf,"y,",4\nend\n'
NEXT = b"?\na,~,1,1,7,x,2\na,-,1,5\nb,=,7\n?\n"
FILES = {
    "strong.json": plan(STRONG, STRONG), "middle.json": plan(MIDDLE, MIDDLE), "weak.json": plan(WEAK, MIDDLE),
    "faulty.json": plan('"odd"', MIDDLE), "a.csv": A, "b.csv": B, "script.txt": SCRIPT, "faulty.txt": SCRIPT + b"a\n",
    "e.csv": A + b"+,3,7,inf,\"z,\"\n", "faulty.csv": A + b"+,1,1,2\n",
    "saved.txt": SAVED, "spoilt.txt": SAVED[:-4], "next.txt": NEXT, "faulty_next.txt": NEXT + b"a\n",
    "refused.json": plan(MIDDLE, MIDDLE).replace(b"b.csv", b"faulty.csv"),
    "keyed.json": plan(MIDDLE, MIDDLE).replace(b'"where":[]', b'"where":[[0,"=",{"column":2}]]'),
}
PLANS = ["strong.json", "middle.json", "weak.json"]
COMMANDS = [["history", "e.csv"], ["history", "faulty.csv"], ["check", "strong.json"], ["check", "faulty.json"], ["make", "3"],
            *[[command, name] for command in asked.ON_SOURCES for name in [*PLANS, "refused.json"]],
            *[["pool", "3", name] for name in [*PLANS, "refused.json"]],
            *[["parts", "3", name] for name in [*PLANS, "keyed.json", "refused.json"]],
            *[["live", name, "script.txt"] for name in PLANS], ["live", "middle.json", "faulty.txt"],
            *[["save", name, "script.txt"] for name in PLANS], ["save", "middle.json", "faulty.txt"],
            *[["resume", name, "saved.txt", "next.txt"] for name in PLANS],
            *[["resume", "middle.json", *names] for names in (["saved.txt", "faulty_next.txt"], ["spoilt.txt", "next.txt"])],
            ["run"]]


class Came(NamedTuple):
    """What a run came to. `met` says whether it came to the call that was to be refused."""

    status: int
    out: bytes
    err: bytes
    met: bool
    started: int
    joined: int


class Wanted:
    """What a command must come to where nothing is refused."""

    def __init__(self, words: list, out: bytes) -> None:
        self.words = words
        if words[0] == "history":
            self.status, self.answer, self.err = reference.history(words[1], FILES[words[1]])
        elif words[0] == "check":
            self.status, self.answer, self.err = plan_reference.check(FILES[words[1]])
        elif len(words) == 1:
            self.status, self.answer, self.err = 1, b"", USAGE
        else:
            self.read = asked.read(words, FILES.get)
            self.status, self.err, self.answer = self.read.status, self.read.err, b""
            if not self.status or words[0] in ("live", "resume"):
                self.answer = answer_reference.expected(self.read, out)
        # how much is written then depends on the schedule
        self.is_cut = words[0] == "stream" and self.status == 3
        self.judged = lru_cache(None)(self.judge)

    def judge(self, out: bytes) -> str:
        """What was written: nothing, a first part or the whole answer; none where it is something else."""
        try:
            if self.is_whole(out):
                return "all" if out else "nothing"
            return "" if not self.is_front(out) else "a first part" if out else "nothing"
        except Unlawful:
            return ""

    def is_whole(self, out: bytes) -> bool:
        if self.words[0] == "stream" and not self.status:
            return answer_reference.expected(self.read, out) == out
        return out == self.answer

    def is_front(self, out: bytes) -> bool:
        """Whether this is a first part of an answer, and of a stream one of those that its plan allows."""
        if self.words[0] != "stream":
            return self.answer.startswith(out)
        changes, mark, tail = out.partition(LIST_MARK)
        if not mark:
            return answer_reference.stream_front(self.read.plan, self.read.fed, out) == out
        whole_tail = self.answer.partition(LIST_MARK)[2]
        return whole_tail.startswith(tail) and self.is_whole(changes + mark + whole_tail)

    def fault(self, kind, came: Came) -> str:
        """What of a run isn't as it must be, or none."""
        if came.status not in self.statuses(kind, came):
            return "another status"
        if not self.judged(came.out):
            return "other bytes than a first part of the answer"
        if came.status == self.status and not self.is_cut and not self.is_whole(came.out):
            return "a part of the answer at the status of all of it"
        text = self.err if came.status == self.status else TEXTS[came.status]
        if came.err != text and not (kind == "write" and came.status == self.status and text.startswith(came.err)):
            return "another text on standard error"
        return "" if came.started == came.joined else f"{came.started} threads started, {came.joined} joined"

    def statuses(self, kind, came: Came) -> set:
        if not came.met or kind.startswith("short"):
            return {self.status}
        writes = {5} if not self.status else {5, self.status} if self.answer or self.is_cut else {self.status}
        return {"alloc": {self.status, 4, 5, 6}, "read": {4}, "write": writes}[kind]


class Refusing:
    """The program, a folder with its files, and the library that refuses."""

    def __init__(self, program: Path, folder: Path) -> None:
        self.program, self.calls, self.folder, self.library = program, own_count(program), folder, folder / "refuse.so"
        subprocess.run(["cc", "-O2", "-shared", "-fPIC", "-o", self.library, HERE / "refuse.c"], check=True)
        for name, data in FILES.items():
            (folder / name).write_bytes(data)

    def run(self, words: list, kind=None, number: int = 0) -> Came:
        """One run, of which the call of this kind and number is refused, if one is."""
        with tempfile.NamedTemporaryFile(dir=self.folder) as counts:
            env = {"LD_PRELOAD": str(self.library), "COUNTS": counts.name, "REFUSE": f"{kind}:{number}", "CALLS": self.calls}
            try:
                done = subprocess.run([self.program, *words], cwd=self.folder, env=env, stdin=subprocess.DEVNULL,
                                      capture_output=True, timeout=SECONDS)
            except subprocess.TimeoutExpired as late:
                return Came(-1, late.stdout or b"", b"no end within %d s" % SECONDS, True, 0, 0)
            told = list(map(int, counts.read().split())) or [0] * 5  # none where a signal ended it
        met = kind is not None and (done.returncode < 0 or number <= told[COUNTED[kind]])
        return Came(done.returncode, done.stdout, done.stderr, met, *told[3:])

    def each(self, words: list, kind: str) -> list:
        """What each number came to, up to some that weren't met."""
        came = []
        with ThreadPoolExecutor(WORKERS) as pool:
            while not came or any(one.met for one in came[-BEYOND:]):
                numbers = range(len(came) + 1, len(came) + 1 + (BATCH if kind == "alloc" else 2 * BEYOND))
                came += pool.map(lambda number: self.run(words, kind, number), numbers)
        return came


def checked_program(folder: Path) -> Path:
    """The program that `rt try` builds. It is taken while it waits at a pipe."""
    pipe, program = folder / "pipe", folder / "checked"
    os.mkfifo(pipe)
    words = ["rt", "try", "--fail-alloc", str(NUMBER), "--", "history", str(pipe)]
    tried = subprocess.Popen(words, cwd=ROOT / "crates/cedr", stdin=subprocess.DEVNULL, stdout=subprocess.DEVNULL,
                             stderr=subprocess.PIPE)
    while tried.poll() is None:
        try:
            end = os.open(pipe, os.O_WRONLY | os.O_NONBLOCK)
        except OSError:
            time.sleep(0.1)  # nobody has opened the pipe yet
            continue
        shutil.copy(waiting_program(str(pipe)), program)
        os.close(end)
        tried.wait()
        return program
    raise OSError(f"rt try: {tried.stderr.read().decode()[-2000:]}")


def own_count(program: Path) -> str:
    """Where a program that `rt try` built counts its allocations, and none of another one."""
    names = subprocess.run(["nm", program], capture_output=True, text=True, check=False).stdout
    place = re.search(r"^([0-9a-f]+) b calls$", names, re.M)
    return f"0x{place[1]} {NUMBER}" if place else ""


def waiting_program(pipe: str) -> str:
    """The file of the program that was started with the name of this pipe."""
    for place in Path("/proc").glob("[0-9]*/cmdline"):
        words = place.read_bytes().decode(errors="replace").split("\0")
        if pipe in words and words[words.index(pipe) - 2].endswith("/program"):
            return words[words.index(pipe) - 2]
    raise OSError("rt try runs no program")


def told(wanted: Wanted, met: list) -> str:
    """How many runs there were, how many of each status, and how many of them wrote something."""
    statuses, written = Counter(one.status for one in met), Counter(wanted.judged(one.out) for one in met)
    ends = ", ".join(f"{count:,} × {status}" for status, count in sorted(statuses.items(), reverse=True))
    wrote = ", ".join(f"{count:,} {name}" for name, count in sorted(written.items()) if name != "nothing")
    return f"{len(met):,}: {ends}" + f"; {wrote}" * bool(wrote) if met else "none"


def sweep(refusing: Refusing, words: list) -> int:
    """Prints a row of the table, and the findings. How many these are."""
    plain, cells, found = refusing.run(words), [], 0
    wanted = Wanted(words, plain.out)
    for kind in [None, *COUNTED]:
        came = refusing.each(words, kind) if kind else [plain]
        if kind:
            cells.append(told(wanted, [one for one in came if one.met]))
        for number, one in enumerate(came, 1):
            fault = wanted.fault(kind, one)
            if fault:
                found += 1
                print(f"FINDING: {' '.join(words)}, {kind}:{number}: {fault}: {one}", file=sys.stderr, flush=True)
    print(f"| `{' '.join(words)}` | {' | '.join(cells)} |", flush=True)
    return found


def main() -> int:
    is_checked, parts, found = sys.argv[1:2] == ["--checked"], sys.argv[2:], 0
    with tempfile.TemporaryDirectory(prefix="cedr-refusals-") as name:
        folder = Path(name)
        try:
            refusing = Refusing(checked_program(folder) if is_checked else built_program(), folder)
        except (OSError, subprocess.CalledProcessError) as error:
            print(f"no program, or no library that refuses: {error}", file=sys.stderr)
            return 2
        print(f"| command | {' | '.join(KINDS)} |\n|---|" + "---|" * len(KINDS), flush=True)
        for words in COMMANDS:
            if all(part in " ".join(words) for part in parts):
                found += sweep(refusing, words)
    print(f"refusals: {found} findings")
    return 1 if found else 0


if __name__ == "__main__":
    os.nice(10)
    sys.exit(main())
