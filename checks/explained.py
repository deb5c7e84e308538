#!/usr/bin/env python3
"""Runs tools/cedr-explain over the ordinary mistakes of mistakes.py, and holds it to the cases of the other checks.

- For each mistake (those about checkpoints are in checkpoint_mistakes.py) the tool hands on what the program writes, byte by byte, and its status, and says the lines that are
  written by hand.
- It finds the fault of each plan, of each line and of each checkpoint that the other checks have, with its place, and says of
  each more than the fault's name. For random files, and for random scripts that are followed, the faults are those of reference.py.
- Its commands are those of the table in docs/program.md, and what docs/faults.md shows of it is what it says.
- A stand-in for the program shows what it says of memory, of signals and of how far a file is read, and that it hands
  on standard input and many bytes as they are.

Status 0: all right. 1: something differs; the first differences are printed. 2: the program isn't there.

usage: checks/explained.py [PROGRAM]
"""
from __future__ import annotations

import os
import random
import re
import subprocess
import sys
import tempfile
from pathlib import Path

sys.dont_write_bytecode = True

import asked
import cases
import checkpoint_cases
import checkpoint_mistakes
import doc_tables
import mistakes
import plan_cases
import random_files
import random_networks
import reference
from program import ROOT, built_program

sys.path.insert(0, str(ROOT / "tools"))

from cedr_explain import checkpoint, command, commands, event_line, events, language
from cedr_explain.plan import Plan

TOOL = ROOT / "tools/cedr-explain"
SECONDS = 60
RANDOM = 300
SHOWN = 5
# What docs/faults.md shows: the words behind the tool, and what stands under them. Its plan is the first one of the
# page docs/plans.md.
SHOWN_CALL = re.compile(r"```sh\ntools/cedr-explain ([^\n]*)\n```\n\n```text\n(.*?)```", re.DOTALL)
FIRST_PLAN = re.compile(r"```json\n(.*?)```", re.DOTALL)
PAGE_EVENTS = "+,1,10,20,a\n=,5\n+,2,4,20,b\n"
EVENTS = re.compile(rb"events e.csv line (\d+) fault (\d+)")
FOLLOWED = re.compile(rb"events b.txt line (\d+) fault (\d+)")
FOLLOWED_ODD = 0.2

# Each stand-in has a name, what it does as a script, the words that the tool is called with, and the status and the
# lines that must come.
STAND_INS = [
    ("want of memory", 'echo "out of memory" >&2; exit 6', ["run", "plan.json"], 6,
     ["out of memory", "  The system gave no more memory."]),
    ("a signal", "kill -KILL $$", ["run", "plan.json"], 137,
     ["  The program was ended by the signal 9, Killed.", "  The system does so where memory runs out."]),
    ("a reader that has ended", "kill -PIPE $$", ["run", "plan.json"], 141,
     ["  Standard output is a pipe, and whoever read it has ended."]),
    ("a fault that there is none of", 'echo "plan fault 99 node 1" >&2; exit 2', ["run", "plan.json"], 2,
     ["  The plan has a fault that this tool knows nothing of."]),
    ("a fault of more digits than Python's int takes", 'printf "plan fault %05000d node 1\\n" 7 >&2; exit 2',
     ["run", "plan.json"], 2, ["  The plan has a fault that this tool knows nothing of."]),
    ("a plan that is another one by now", 'echo "plan fault 3 node 1" >&2; exit 2', ["run", "plan.json"], 2,
     ["  The plan that is there now hasn't this fault: it is another one than the program read."]),
    ("a file that is another one by now", 'echo "events orders line 2 fault 3" >&2; exit 3', ["run", "plan.json"], 3,
     ["  orders.csv:2: Its ID, BEGIN, END or TIME isn't a whole number in digits. The file may be another one by now: "
      "as it is, this line has no fault."]),
    ("a read that is refused in the middle", 'echo "read fault" >&2; exit 4', ["check", "plan.json"], 4,
     ["  Each file can be opened now: plan.json. A read of one was refused, or it is there only since then."]),
    ("half of a file", "exec 3< orders.csv; head -c 55 <&3 > /dev/null; sleep 1",
     ["--progress=0.3", "run", "plan.json"], 0, ["orders 50 % of 110 bytes; payments isn't open; memory "]),
    ("a faulty line that is explained before the next one comes", 'echo "events script.txt line 1 fault 6" >&2; sleep 1; '
     'echo "events script.txt line 2 fault 7" >&2; exit 3', ["follow", "plan.json", "script.txt"], 3,
     ["events script.txt line 1 fault 6", "  script.txt:1: An earlier line inserted its ID. ", "events script.txt line 2 fault 7",
      "  script.txt:2: No earlier line inserted its ID. "]),
    ("many faulty lines", 'for line in $(seq 25); do echo "events script.txt line $line fault 6" >&2; done; exit 3',
     ["follow", "plan.json", "script.txt"], 3,
     ["  script.txt:20: ", "  These were 20 faulty lines. Further ones are told, and not explained."]),
    ("a script that is a pipe", 'echo "events /dev/stdin line 1 fault 9 sync 1 mark 2" >&2; exit 3', ["follow", "plan.json", "/dev/stdin"],
     3, ["  /dev/stdin:1: It changes something before the guarantee. The line can't be shown, since /dev/stdin is a pipe"]),
    ("a read that is refused behind a faulty line", 'echo "events script.txt line 1 fault 6" >&2; echo "read fault" >&2; exit 4',
     ["follow", "plan.json", "script.txt"], 4, ["  script.txt:1: ", "  Each file can be opened now: plan.json, script.txt. "]),
    # from here on the files are others than the program read
    ("a line before that has too few fields",
     "printf '+,1,5\\n-,1,5\\n' > orders.csv; echo 'events orders line 2 fault 8 begin 5 end 6' >&2; exit 3",
     ["run", "plan.json"], 3,
     ["  orders.csv:2: Its new end isn't from the event's begin on and below its end. The file may be another one by "
      "now: as it is, line 1, which stands before, has a fault.", "    1 | +,1,5", "  > 2 | -,1,5"]),
    ("a plan that has a fault by now, where a read was refused",
     """echo '{"version":1,"nodes":[{"name":"s","op":"source","file":"s.csv"}]}' > plan.json
     echo "read fault" >&2; exit 4""", ["run", "plan.json"], 4, ["  Each file can be opened now: plan.json."]),
]

# Each mistake of the tool has a name, what makes it, and how its line begins. The status must be the program's, and
# what comes before the mistake is said.
OWN_MISTAKES = [
    ("in the sentences", "command.outside.read_fault = lambda *_: [1 / 0]", "No more can be said, by a mistake of "),
    ("of the system, in the sentences", "command.outside.read_fault = lambda *_: os.stat('none')",
     "No more can be said, by a mistake of "),
    ("in a sentence that no bytes stand for", "command.outside.read_fault = lambda *_: ['first', chr(0xd800)]",
     "first\n  No more can be said, by a mistake of "),
    ("in the reading of the plan", "command.files_of = lambda *_: [1 / 0]", "No more can be said, by a mistake of "),
    ("in how far it is", "command.Progress.told = lambda *_: [1 / 0]", "No more can be said, by a mistake of "),
]
WITH_MISTAKE = """import os, sys
sys.dont_write_bytecode = True
sys.path.insert(0, {tools!r})
from cedr_explain import command
{mistake}
sys.exit(command.main(["--progress=0.2", "run", "plan.json"]))
"""
SLOW_FAULT = "sleep 0.5; echo 'read fault' >&2; exit 4"

# The file of docs/faults.md that has a byte too many, and what is said of it.
LARGE = ("=," + "0" * 65_533 + "\n") * 1_024 + "x"
TOO_LARGE = ["events orders.csv line 1025 fault 10",
             "  orders.csv:1025: The file has 67,108,865 bytes, and a source has at most 67,108,864. docs/program.md "
             'says in "A source of more than 64 MiB" how to divide a file.',
             "  > 1025 | "]
LARGEST_SAVED = 67_174_400
LARGE_SAVED = "  saved.txt: It has 67,174,401 bytes, and a checkpoint has at most 67,174,400."


class Differences:
    """Counts what differs, and shows the first of it."""

    def __init__(self) -> None:
        self.count = 0

    def expect(self, holds: bool, name: str, told: object) -> None:
        if not holds:
            self.count += 1
            if self.count <= SHOWN:
                print(f"DIFFERENCE {self.count}: {name}\n{told}", flush=True)


class Folder:
    """A folder with the files of a mistake, in which commands are run."""

    def __init__(self, program: Path, path: Path) -> None:
        self.program, self.path = program, path

    def fill(self, files: dict) -> None:
        for old in self.path.iterdir():
            old.unlink()
        for name, data in files.items():
            (self.path / name).write_bytes(data)

    def run(self, words: list, program: Path | None = None, given: bytes = b"", out=subprocess.PIPE) -> tuple:
        """The status, standard output and standard error of the tool with this program."""
        settings = {**os.environ, "CEDR": str(program or self.program)}
        done = subprocess.run([TOOL, *words], cwd=self.path, env=settings, input=given, stdout=out,
                              stderr=subprocess.PIPE, timeout=SECONDS)
        return done.returncode, done.stdout or b"", done.stderr

    def plain(self, words: list) -> tuple:
        done = subprocess.run([self.program, *words], cwd=self.path, capture_output=True, timeout=SECONDS,
                              stdin=subprocess.DEVNULL)
        return done.returncode, done.stdout, done.stderr


def has_in_order(lines: list, wanted: list) -> bool:
    """Whether each wanted line is among the lines, behind the one before it. A wanted one may be a line's begin."""
    left = iter(lines)
    return all(any(line.startswith(one) for line in left) for one in wanted)


def check_mistakes(folder: Folder, differences: Differences) -> int:
    every = [*mistakes.ALL, *checkpoint_mistakes.ALL]
    for one in every:
        folder.fill(one.files())
        words = one.words.split()
        plain, came = folder.plain(words), folder.run(words)
        told = f"{one.told}\n".encode() if one.told else b""
        differences.expect((plain[0], plain[2]) == (one.status, told), f"{one.name}: the program's own answer", plain)
        differences.expect(came[:2] == plain[:2] and came[2].startswith(told), f"{one.name}: what is handed on", came)
        said = came[2][len(told):].decode().splitlines()
        wanted = [f"  {line}" for line in one.wanted()]
        is_whole = all(line in said for line in wanted) and has_in_order(said, wanted)
        differences.expect(is_whole, one.name, "\n".join(["wanted:", *wanted, "came:", *said]))
    return len(every)


def check_good(folder: Folder, differences: Differences) -> int:
    """Where nothing is wrong nothing is said: the plan without a mistake, and each command over it."""
    folder.fill({name: text.encode() for name, text in mistakes.FILES.items()})
    lines = ["run plan.json", "stream plan.json", "pool 2 plan.json", "serial plan.json", "audit plan.json",
             "check plan.json", "live plan.json script.txt", "save plan.json script.txt",
             "resume plan.json saved.txt next.txt", "follow plan.json script.txt", "follow plan.json saved.txt next.txt",
             "history orders.csv", "make 3", "--version"]
    for words in map(str.split, lines):
        plain, came = folder.plain(words), folder.run(words)
        differences.expect(came == plain and plain[0] == 0 and not plain[2], f"the words {words}", (plain, came))
    came = folder.run(["history", "/dev/stdin"], given=b"+,1,1,2,a\n")
    differences.expect(came == (0, b"1,2,a\n", b""), "standard input", came)
    came = folder.run(["history", "/dev/stdin"], given=b"+,1,1,1,a\n")
    told = b"events /dev/stdin line 1 fault 4\n  /dev/stdin:1: Its END isn't after its BEGIN. The line can't be shown"
    differences.expect(came[0] == 3 and came[2].startswith(told), "a fault on standard input", came)
    with open("/dev/full", "wb") as full:
        came = folder.run(["check", "plan.json"], out=full)
    told = b"write fault\n  The device that standard output is takes no more.\n"
    differences.expect(came[0] == 5 and came[2].startswith(told), "a full device", came)
    return len(lines) + 3


def check_page(folder: Folder, differences: Differences) -> int:
    plan = FIRST_PLAN.search((ROOT / "docs/plans.md").read_text())[1].replace('"="', '"=="')
    folder.fill({"plan.json": plan.encode(), "e.csv": PAGE_EVENTS.encode()})
    shown = SHOWN_CALL.findall(doc_tables.section("docs/faults.md", "## In words"))
    for words, told in shown:
        came = folder.run(words.split())
        differences.expect(came[2].decode() == told, f"{words}, as docs/faults.md shows it", came[2].decode())
    differences.expect(len(shown) == 2, "docs/faults.md shows two calls", shown)
    return len(shown)


def check_stand_ins(folder: Folder, differences: Differences) -> int:
    folder.fill({name: text.encode() for name, text in mistakes.FILES.items()})
    lines = [b"+,%d,1000,1001,A1,25\n" % number for number in range(1, 6)]
    (folder.path / "orders.csv").write_bytes(b"".join(lines) + b"=,3000000\n")
    for name, script, words, status, wanted in STAND_INS:
        came = folder.run(words, stand_in(folder, script))
        is_right = came[0] == status and has_in_order(came[2].decode().splitlines(), wanted)
        differences.expect(is_right, name, (came, wanted))
    (folder.path / "orders.csv").write_text(LARGE)
    came = folder.run(["history", "orders.csv"], stand_in(folder, f'echo "{TOO_LARGE[0]}" >&2; exit 3'))
    is_right = came[0] == 3 and has_in_order(came[2].decode().splitlines(), TOO_LARGE)
    differences.expect(is_right, "a file that is too large", came)
    folder.fill({name: text.encode() for name, text in mistakes.FILES.items()})
    with open(folder.path / "saved.txt", "wb") as saved:
        saved.truncate(LARGEST_SAVED + 1)
    came = folder.run(["resume", "plan.json", "saved.txt", "next.txt"], stand_in(folder, 'echo "checkpoint line 0" >&2; exit 7'))
    is_right = came[0] == 7 and came[2].decode().splitlines() == ["checkpoint line 0", LARGE_SAVED]
    differences.expect(is_right, "a checkpoint that is too large", came)
    many = random.Random(0).randbytes(3_000_000)
    came = folder.run(["any"], stand_in(folder, "cat; head -c 70000 /dev/zero >&2; exit 99"), many)
    sizes = came[0], len(came[1]), len(came[2])
    differences.expect(came == (99, many, bytes(70_000)), "many bytes, and a status of no meaning", sizes)
    came = folder.run(["run", "plan.json"], folder.path / "no_program")
    differences.expect(came[0] == 126 and b"can't be started" in came[2], "no program", came)
    came = folder.run(["--progress=soon", "run", "plan.json"])
    differences.expect(came[0] == 2 and came[2].startswith(b"cedr-explain: `--progress=soon`"), "a wrong option", came)
    came = folder.run(["--progress=0", "run", "plan.json"])
    differences.expect(came[0] == 2 and came[2].startswith(b"cedr-explain: `--progress=0`"), "no seconds", came)
    with open("/dev/full", "wb") as full:
        came = folder.run(["--help"], out=full)
    wanted = b"cedr-explain: the help can't be written: No space left on device\n"
    differences.expect((came[0], came[2]) == (2, wanted), "no room for the help", came)
    closed = subprocess.run(f"'{TOOL}' --help >&-", shell=True, stderr=subprocess.PIPE, timeout=SECONDS)
    wanted = b"cedr-explain: the help can't be written: standard output is closed\n"
    differences.expect((closed.returncode, closed.stderr) == (2, wanted), "nowhere to write the help", closed)
    return len(STAND_INS) + 8


def check_status_kept(folder: Folder, differences: Differences) -> int:
    """The status is the program's where the reader of standard error has ended, and where the tool has a mistake."""
    folder.fill({name: text.encode() for name, text in mistakes.FILES.items()})
    settings = {**os.environ, "CEDR": str(stand_in(folder, SLOW_FAULT))}
    for options in ([], ["--progress=0.2"]):
        reader, writer = os.pipe()
        os.close(reader)
        done = subprocess.run([TOOL, *options, "run", "plan.json"], cwd=folder.path, env=settings, stderr=writer,
                              stdout=subprocess.PIPE, timeout=SECONDS)
        os.close(writer)
        differences.expect((done.returncode, done.stdout) == (4, b""), f"no reader of errors, {options}", done)
    for name, mistake, begin in OWN_MISTAKES:
        text = WITH_MISTAKE.format(tools=str(ROOT / "tools"), mistake=mistake)
        done = subprocess.run([sys.executable, "-c", text], cwd=folder.path, env=settings, capture_output=True,
                              timeout=SECONDS)
        is_said = f"  {begin}cedr-explain in ".encode() in done.stderr and b"Traceback" not in done.stderr
        is_said = is_said and b"read fault\n" in done.stderr
        differences.expect(done.returncode == 4 and is_said, f"a mistake of the tool {name}", done)
    return 2 + len(OWN_MISTAKES)


def stand_in(folder: Folder, script: str) -> Path:
    path = folder.path / "stand_in"
    path.write_text(f"#!/bin/sh\n{script}\n")
    path.chmod(0o755)
    return path


def check_plans(differences: Differences) -> int:
    """The tool's own reading of each plan that plan_cases.py refuses or accepts.

    It must say more than the fault's name.
    """
    count = 0
    for case in plan_cases.all_cases():
        wanted = tuple(map(int, case.err.split()[2::2])) if case.err else (0, 0)
        plan = Plan(case.data)
        own = [one.text for one in plan.findings if one.fault == wanted[0]]
        is_said = not wanted[0] or own and not set(own) & set(language.FAULTS.values())
        told = case.data[:300], wanted, plan.fault, plan.node, own
        differences.expect((plan.fault, plan.node) == wanted and is_said, case.name, told)
        call = commands.Call(["check", "p.json"])
        said = list(command.of_plan(call, plan, case.err.strip())) if case.err else []
        differences.expect(bool(said) == bool(case.err), f"{case.name}, as it is told", said)
        count += 1
    return count


def check_lines(folder: Path, differences: Differences) -> int:
    """The same of each faulty line of cases.py and of random files."""
    told = [(case.name, case.data, case.err) for table in (cases.SMALL, cases.large()) for case in table]
    files = [random_files.small_file(random.Random(seed)) for seed in range(RANDOM)]
    told += [(f"random file {seed}", data, reference.history("e.csv", data)[2]) for seed, data in enumerate(files)]
    found = set()
    for name, data, err in told:
        reported = EVENTS.match(err)
        if not reported:
            continue
        (folder / "e.csv").write_bytes(data)
        number, fault = map(int, reported.groups())
        place = events.Place(str(folder / "e.csv"))
        said = list(events.explained(place, number, fault))
        first = f"{place.file}:{number}: "
        bare = f"{first}{event_line.FAULTS[fault]} The file may"
        is_said = said[0].startswith(first) and not said[0].startswith(bare)
        differences.expect(is_said and sum(line.startswith("> ") for line in said) == 1, name, said)
        found.add((fault, name))
    differences.expect({fault for fault, _ in found} == {1, 2, 3, 4, 6, 7, 8, 9, 10}, "the faults of lines", found)
    return len(found)


def check_checkpoints(folder: Path, differences: Differences) -> int:
    """The same of each line at which bytes of checkpoint_cases.py aren't a checkpoint."""
    count = 0
    for name, plan, data, number in checkpoint_cases.all_cases():
        if number is None:
            continue
        (folder / "c.txt").write_bytes(data)
        sources = {one: types for one, (_, types) in Plan(plan).sources().items()}
        said = list(checkpoint.explained(str(folder / "c.txt"), sources, number, str(folder / "none.txt")))
        is_said = said[0].startswith(f"{folder / 'c.txt'}:") and checkpoint.BARE not in said[0]
        differences.expect(is_said, f"{name}, as it is told", said)
        count += 1
    return count


def check_followed(folder: Path, differences: Differences) -> int:
    """The same of each faulty line of random scripts that are followed, some of them behind a checkpoint."""
    count = 0
    for seed in range(RANDOM):
        rng = random.Random(seed)
        files = random_networks.random_script(rng, FOLLOWED_ODD, random_networks.SavedMaker)
        lines = files["x.txt"].split(b"\n")
        first = rng.randrange(len(lines)) if seed % 2 else 0
        files["a.txt"], files["b.txt"] = b"".join(line + b"\n" for line in lines[:first]), b"\n".join(lines[first:])
        saved = asked.read(["save", "plan.json", "a.txt"], files.get)
        names = ["c.txt"] if saved.text else []
        files["c.txt"] = saved.text
        for name in ("b.txt", "c.txt"):
            (folder / name).write_bytes(files[name])
        sources = {one: types for one, (_, types) in Plan(files["plan.json"]).sources().items()}
        place = events.Place(str(folder / "b.txt"), script=sources, is_followed=True,
                             checkpoint=str(folder / "c.txt") if names else "")
        for line in asked.read(["follow", "plan.json", *names, "b.txt"], files.get).err.splitlines():
            number, fault = map(int, FOLLOWED.match(line).groups())
            said = list(events.explained(place, number, fault))
            is_said = not said[0].endswith(f"{event_line.FAULTS[fault]}") and "another one by now" not in said[0]
            differences.expect(is_said, f"{line.decode()}, seed {seed}, followed", said)
            count += 1
    return count


def check_commands(differences: Differences) -> None:
    wanted = {}
    for one in doc_tables.commands():
        if one.words:
            wanted.setdefault(one.name, []).append(one.words)
    differences.expect(wanted == commands.COMMANDS, "the commands of docs/program.md", wanted)
    alone = tuple(one.name for one in doc_tables.commands() if not one.words)
    differences.expect(alone == commands.ALONE, "the commands without words", alone)


def main() -> int:
    differences = Differences()
    check_commands(differences)
    with tempfile.TemporaryDirectory(prefix="cedr-check-") as path:
        folder = Folder(built_program(), Path(path))
        known = check_mistakes(folder, differences)
        good = check_good(folder, differences)
        shown = check_page(folder, differences)
        stand_ins = check_stand_ins(folder, differences) + check_status_kept(folder, differences)
        lines = check_lines(folder.path, differences)
        checkpoints = check_checkpoints(folder.path, differences)
        followed = check_followed(folder.path, differences)
    plans = check_plans(differences)
    print(f"explained: {known} mistakes, {good} commands without one, {shown} of docs/, {stand_ins} with a stand-in "
          f"for the program, {plans} plans, {lines} faulty lines and {checkpoints} checkpoints of the other checks, {followed} faulty "
          "lines of scripts that are followed: "
          f"{differences.count} differences")
    return 1 if differences.count else 0


sys.exit(main())
