#!/usr/bin/env python3
"""Runs `save` and `resume` of the built program, and compares what comes with what must come.

- Random scripts over random plans that can be saved are cut at the end of a line: what `resume` writes over the second part,
  from what `save` writes of the first one, is what `live` writes for it over the whole script. A fault is told by the one of
  them in whose part its line stands, with that line's number there. All three are also held to the definitions.
- Of their checkpoints one byte is changed, left out or put in, or they end early: `resume` accepts them, or names the line
  that checkpoint_reference.py does. Those of checkpoint_cases.py have their lines written by hand.
- Of random plans with any levels the first node is named that keeps them from being saved.

Status 0: all right. 1: something differs; the first differences are printed with their seeds, and their files kept. 2: the
program isn't there. With a number of cases it looks at so many of each kind, and at no large checkpoint.

usage: checks/checkpoints.py [PROGRAM [--cases N]]
"""
import random
import re
import sys
import tempfile
from collections import Counter
from pathlib import Path

sys.dont_write_bytecode = True

import answer_reference
import asked
import checkpoint_cases
import checkpoint_reference
import nodes
import random_networks
import random_plans
from answer_lines import REACH_MARK, lines_of
from networks import NetworkCheck
from program import built_program

CASES = 500
ODD = 0.06
WHOLE = ["live", "plan.json", "x.txt"]
SAVE = ["save", "plan.json", "first.txt"]
RESUME = ["resume", "plan.json", "c.txt", "second.txt"]
FAULT_LINE = re.compile(rb"events \S+ line (\d+) fault ")
# Of the checkpoints to spoil, most are longer than one of a source without events.
LONG = 60
# The bytes that tell lines, fields and numbers apart, which are put in as often as any others.
TELLING = [b"\n", b"\n", b",", b'"', b"0", b"1", b"9", b"-", b"\r", b"i", b"e", b" "]


class Saved:
    """What `save` wrote for a plan."""

    def __init__(self, files: dict, text: bytes) -> None:
        self.plan, self.text = files["plan.json"], text
        self.sources = checkpoint_reference.sources_of(nodes.read_nodes(self.plan))


def check_scripts(check: NetworkCheck, seeds: range) -> tuple[Counter, list]:
    """Compares the three commands over scripts and their parts. Answers of how many there was what, and what was saved."""
    kinds, saved = Counter(), []
    for seed in seeds:
        rng = random.Random(seed)
        odd = ODD * (seed % 2)
        files = random_networks.random_script(rng, odd, random_networks.SavedMaker)
        files["first.txt"], files["second.txt"] = cut(rng, files["x.txt"])
        name = f"seed {seed}" + (" with odd lines" if odd else "")
        text = check_script(check, name, files, kinds)
        if text is not None:
            saved.append(Saved(files, text))
            kinds["withdrawn"] += any(is_withdrawn(line) for line in text.splitlines())
    return kinds, saved


def cut(rng: random.Random, script: bytes) -> tuple[bytes, bytes]:
    """Two parts of a script, of which the first one ends where a line does, or is empty."""
    lines = [line + b"\n" for line in script.split(b"\n")]
    lines[-1] = lines[-1][:-1]
    place = rng.randrange(len(lines))
    return b"".join(lines[:place]), b"".join(lines[place:])


def is_withdrawn(line: bytes) -> bool:
    number, *times = line.split(b",")
    return number.isdigit() and len(times) == 2 and times[0] == times[1]


def check_script(check: NetworkCheck, name: str, files: dict, kinds: Counter):
    """Compares what comes over a script with what comes over its parts, and gives the checkpoint between them."""
    whole, first = (answer(check, name, files, words) for words in (WHOLE, SAVE))
    before, line = files["first.txt"].count(b"\n"), fault_line(whole[2])
    if 0 < line <= before:
        kinds["refused in the first part"] += 1
        check.compare(f"the first part, {name}", files, (3, b"", renamed(whole[2], "first.txt", line)), first)
        return None
    check.compare(f"the first part, {name}", files, (0, first[1], b""), first)
    files["c.txt"] = first[1]
    second = answer(check, name, files, RESUME)
    err = renamed(whole[2], "second.txt", line - before) if line else b""
    check.compare(f"the second part, {name}", files, (whole[0], behind(whole[1], files["first.txt"]), err), second)
    kinds["refused in the second part"] += line > before
    return first[1]


def answer(check: NetworkCheck, name: str, files: dict, words: list) -> tuple[int, bytes, bytes]:
    """What the program answers, which is also held to the definitions."""
    came = check.answer(files, words)
    read = asked.read(words, files.get)
    wanted = read.status, answer_reference.expected(read, came[1]), read.err
    check.compare(f"{' '.join(words)}, by the definitions, {name}", files, wanted, came)
    return came


def fault_line(err: bytes) -> int:
    """The number of the line that is refused, or 0."""
    found = FAULT_LINE.search(err)
    return int(found[1]) if found else 0


def renamed(err: bytes, name: str, line: int) -> bytes:
    """The same fault of a line of another file."""
    return FAULT_LINE.sub(f"events {name} line {line} fault ".encode(), err)


def behind(out: bytes, first: bytes) -> bytes:
    """What is written behind what the `?` lines of the first part show."""
    shown = sum(line.removesuffix(b"\r") == b"?" for line in first.split(b"\n"))
    ends = [place for place, line in enumerate(lines_of(out), 1) if line.startswith(REACH_MARK)]
    return b"".join(lines_of(out)[ends[shown - 1] if shown else 0 :])


def check_spoilt(check: NetworkCheck, saved: list, seeds: range) -> Counter:
    """Compares what `resume` says of checkpoints that aren't as they were written."""
    kinds = Counter()
    long = [one for one in saved if len(one.text) > LONG]
    for seed in seeds:
        rng = random.Random(seed)
        one = rng.choice(long if rng.random() < 0.8 else saved)
        line = check_read(check, f"seed {seed}", one.plan, one.sources, spoilt(rng, one.text))
        kinds["accepted" if line is None else "refused"] += 1
    return kinds


def spoilt(rng: random.Random, text: bytes) -> bytes:
    """The text with one byte changed, left out or put in, or only its begin."""
    place = rng.randrange(len(text))
    if rng.random() < 0.25:
        return text[:place]
    put_in = rng.choice([rng.choice(TELLING), rng.randbytes(1), b""])
    left_out = 1 if not put_in else rng.randrange(2)
    return text[:place] + put_in + text[place + left_out :]


def check_read(check: NetworkCheck, name: str, plan: bytes, sources: list, text: bytes, *by_hand):
    """Compares whether the bytes are a checkpoint, and at which line they aren't. Answers that line, or none."""
    line = checkpoint_reference.read(sources, text)[0]
    files = {"plan.json": plan, "c.txt": text, "second.txt": b""}
    for wanted in by_hand:
        check.compare(f"{name}, by the reference", files, told(wanted), told(line))
    check.compare(f"{name}, as a checkpoint", files, told(line), check.answer(files, RESUME))
    if line is None:
        answer(check, name, {**files, "second.txt": b"?\n"}, RESUME)
    return line


def told(line) -> tuple[int, bytes, bytes]:
    return (0, b"", b"") if line is None else (7, b"", b"checkpoint line %d\n" % line)


def check_by_hand(check: NetworkCheck, large) -> int:
    cases = [*checkpoint_cases.all_cases(), *large]
    for name, plan, text, line in cases:
        sources = checkpoint_reference.sources_of(nodes.read_nodes(plan))
        check_read(check, name, plan, sources, text, line)
    for name, files, words, expected in checkpoint_cases.COMMANDS:
        check.compare(name, files, expected, check.answer(files, words))
    return len(cases) + len(checkpoint_cases.COMMANDS)


def check_unsaved(check: NetworkCheck, seeds: range) -> int:
    """Compares which plans can't be saved. Neither command comes to a file besides the plan. Answers how many can't."""
    unsaved = 0
    for seed in seeds:
        document = random_networks.Maker(random.Random(seed)).document()
        files = {"plan.json": random_plans.json_text(document).encode()}
        node = first_unsaved(document["nodes"])
        expected = (2, b"", f"plan fault 15 node {node}\n".encode()) if node else (4, b"", b"read fault\n")
        for words in (["save", "plan.json", "none.txt"], ["resume", "plan.json", "none.txt", "none.txt"]):
            check.compare(f"{words[0]}, levels of seed {seed}", files, expected, check.answer(files, words))
        unsaved += node > 0
    return unsaved


def first_unsaved(written: list) -> int:
    """The number of the first node whose level, as it is written, keeps the plan from being saved; else 0."""
    for number, node in enumerate(written, 1):
        level = node.get("level", "middle")
        if node["op"] != "source" and type(level) is dict and not (level["memory"] == "inf" and level["block"] in (0, "inf")):
            return number
    return 0


def main() -> int:
    few = sys.argv[2:3] == ["--cases"]
    cases = int(sys.argv[3]) if few else CASES
    with tempfile.TemporaryDirectory(prefix="cedr-check-") as folder:
        check = NetworkCheck(built_program(), Path(folder), "")
        kinds, saved = check_scripts(check, range(cases))
        spoilt_kinds = check_spoilt(check, saved, range(cases))
        by_hand = check_by_hand(check, [] if few else checkpoint_cases.large_cases())
        unsaved = check_unsaved(check, range(cases))
    print(f"checkpoints: {cases} scripts in two parts ({kinds['refused in the first part']} refused in the first, "
          f"{kinds['refused in the second part']} in the second, {kinds['withdrawn']} with withdrawn events between them), "
          f"{cases} spoilt checkpoints ({spoilt_kinds['refused']} refused), {by_hand} by hand, {cases} plans ({unsaved} that "
          f"can't be saved): {check.differences} differences")
    return 1 if check.differences else 0


if __name__ == "__main__":
    sys.exit(main())
