#!/usr/bin/env python3
"""Runs `cedr follow` of the built program, and compares what comes with what must come.

- Random scripts with faulty lines of every kind, over random plans that can be saved, come through a pipe in pieces of 1 to
  100 bytes. What is written is read as a stream: its changes lead to the rows that the output shows over the accepted lines,
  each guarantee in it is kept, and the last one is how far what is written is decided. `live` over the accepted lines alone
  shows the same rows.
- Others come line by line, and each line is answered before the next one is sent.
- Scripts without faults are cut at the end of a line: what is written of the first part, and behind its checkpoint of the
  second one, comes together to what is written of the whole, and to what `resume` shows.
- Lines that come slowly, pipes and files that end or are refused, lines without an end (follow_outside.py).
- The resident set over a script of 2,000,000 lines (follow_memory.py).

Status 0: all right. 1: something differs; the first differences are printed with their seeds, and their files kept. 2: the
program isn't there. With --quick each part is shorter.

usage: checks/follow.py [PROGRAM] [--quick]
"""
import random
import sys
import tempfile
import time
from collections import Counter
from pathlib import Path
from typing import NamedTuple

sys.dont_write_bytecode = True

import asked
import checkpoint_reference
import checkpoints
import follow_memory
import follow_outside
import nodes
import random_follows
import reference
from answer_lines import REACH_MARK, Unlawful, lines_of
from follow_reference import Followed, Script, Stream, cut, expected, opened
from following import Follower
from messages import in_order
from network_texts import rows_text
from networks import NetworkCheck, write_files
from program import built_program

ODD = 0.12
SCRIPT = "/dev/stdin"
SECONDS = 5
PAUSES = 0.05


class Sizes(NamedTuple):
    """How many scripts of each kind, and the lines of the one whose memory is looked at."""

    scripts: int = 500
    line_by_line: int = 60
    cuts: int = 500
    lines: int = 2_000_000
    first_lines: int = 200_000


QUICK = Sizes(80, 12, 60, 400_000, 100_000)


# Random scripts with faults, in pieces.


def check_scripts(check: NetworkCheck, seeds: range) -> Counter:
    """Compares what comes of scripts in pieces, and answers of how many there was what."""
    kinds = Counter()
    for seed in seeds:
        rng = random.Random(seed)
        files = random_follows.random_followed(rng, ODD * (seed % 4 > 0))
        followed = Followed(nodes.read_nodes(files["plan.json"]), SCRIPT)
        followed.take_all(files["x.txt"])
        status, out, err = sent_in_pieces(check, rng, files)
        wanted = followed.status(), expected(Stream(followed.plan), followed, out), followed.told
        check.compare(f"follow, seed {seed}", files, wanted, (status, out, err))
        check_by_live(check, f"live of what follow accepts, seed {seed}", files, followed, out)
        kinds += told_kinds(followed)
    return kinds


def sent_in_pieces(check: NetworkCheck, rng: random.Random, files: dict) -> tuple[int, bytes, bytes]:
    write_files(check.folder, files)
    follower = Follower(check, ["follow", "plan.json", SCRIPT])
    for piece in random_follows.pieces(rng, files["x.txt"]):
        follower.send(piece)
        if rng.random() < PAUSES and len(files["x.txt"]) < reference.LINE_LIMIT:
            time.sleep(0.001)
    return follower.end()


def check_by_live(check: NetworkCheck, name: str, files: dict, followed: Followed, out: bytes) -> None:
    """`live` shows for the accepted lines, with an id of its own for each event, what was written comes to."""
    accepted = {**files, "accepted.txt": followed.spelt + b"?\n"}
    shown = check.answer(accepted, ["live", "plan.json", "accepted.txt"])
    check.compare(f"{name}, by the definitions", accepted, (0, followed.at_a_question(), b""), shown)
    stream = Stream(followed.plan)
    try:
        stream.take_all(out)
    except Unlawful:
        return
    rows = b"".join(line for line in lines_of(shown[1]) if not line.startswith(REACH_MARK))
    check.compare(name, accepted, (0, rows, b""), (0, rows_text(in_order(stream.table)), b""))


def told_kinds(followed: Followed) -> Counter:
    """How many lines were told of with each fault, and how many scripts had one or forgot an event that came again."""
    faults = [line.split()[5].decode() for line in followed.told.splitlines()]
    again = followed.script.events > len(followed.script.fresh)
    return Counter(f"fault {one}" for one in faults) + Counter(faulty=bool(faults), again=again)


# Random scripts, one line after the other.


def check_line_by_line(check: NetworkCheck, seeds: range) -> int:
    """Each line is answered before the next one is sent. Answers how many lines were."""
    count = 0
    for seed in seeds:
        files = random_follows.random_followed(random.Random(10_000 + seed), ODD)
        followed = Followed(nodes.read_nodes(files["plan.json"]), SCRIPT)
        write_files(check.folder, files)
        follower = Follower(check, ["follow", "plan.json", SCRIPT])
        for number, line in enumerate(cut(files["x.txt"]), 1):
            follower.send(line + b"\n")
            followed.take(line)
            if not follower.wait_for(answered(follower, followed), SECONDS):
                came = "no answer", follower.out.text, follower.err.text
                wanted = "", expected(Stream(followed.plan), followed, came[1]), followed.told
                check.compare(f"line {number} before the next one, seed {seed}", files, wanted, came)
                break
            count += 1
        status, out, err = follower.end()
        wanted = followed.status(), expected(Stream(followed.plan), followed, out), followed.told
        check.compare(f"line by line, seed {seed}", files, wanted, (status, out, err))
    return count


def answered(follower: Follower, followed: Followed):
    """Whether what came by now is what the lines so far come to."""
    table, mark = followed.shown()

    def is_answered() -> bool:
        stream = Stream(followed.plan)
        try:
            stream.take_all(follower.out.whole_lines())
            stream.see(table, mark)
        except Unlawful:
            return False
        return follower.err.text == followed.told

    return is_answered


# Scripts without faults, in two parts.


def check_cuts(check: NetworkCheck, seeds: range) -> Counter:
    """Compares what comes of scripts in two parts, and answers of how many there was what."""
    kinds = Counter()
    for seed in seeds:
        rng = random.Random(seed)
        files = random_follows.random_followed(rng, 0, random_follows.OnceFile)
        plan = nodes.read_nodes(files["plan.json"])
        files["x.txt"] = without_faults(plan, files["x.txt"])
        files["first.txt"], files["second.txt"] = checkpoints.cut(rng, files["x.txt"])
        files["question.txt"], files["both.txt"] = b"?\n", ended(files["second.txt"]) + b"?\n"
        forgot = check_cut(check, f"in two parts, seed {seed}", files, plan)
        kinds += Counter(empty=not files["first.txt"], forgot=forgot)
    return kinds


def ended(text: bytes) -> bytes:
    return text if text.endswith(b"\n") or not text else text + b"\n"


def without_faults(plan: list, script: bytes) -> bytes:
    """The lines that are accepted where events are forgotten, and so where they aren't."""
    judged = Script(plan, "")
    kept = []
    for line in lines_of_script(script):
        if not judged.take(line.removesuffix(b"\n")).told:
            kept.append(line)
    return b"".join(kept)


def lines_of_script(script: bytes) -> list:
    """The lines with their line feeds, of which the last one may have none."""
    *lines, rest = script.split(b"\n")
    return [line + b"\n" for line in lines] + [rest] * bool(rest)


def check_cut(check: NetworkCheck, name: str, files: dict, plan: list) -> bool:
    """Compares the whole, its parts, and what `resume` shows. Answers whether the checkpoint has events that are forgotten."""
    whole, first = Followed(plan, "x.txt"), Followed(plan, "first.txt")
    whole.take_all(files["x.txt"])
    first.take_all(files["first.txt"])
    compare_followed(check, f"the whole, {name}", files, ["follow", "plan.json", "x.txt"], Stream(plan), whole)
    stream = Stream(plan)
    compare_followed(check, f"the first part, {name}", files, ["follow", "plan.json", "first.txt"], stream, first)
    status, files["c.txt"], err = check.answer(files, ["save", "plan.json", "first.txt"])
    check.compare(f"save, {name}", files, (0, files["c.txt"], b""), (status, files["c.txt"], err))
    judges = checkpoint_reference.read(checkpoint_reference.sources_of(plan), files["c.txt"])[1]
    second = Followed(plan, "second.txt", list(map(opened, judges)), [asked.restored(judge) for judge in judges])
    compare_resumed(check, f"behind the checkpoint, {name}", files, "question.txt", second)
    second.take_all(files["second.txt"])
    words = ["follow", "plan.json", "c.txt", "second.txt"]
    compare_followed(check, f"the second part, {name}", files, words, stream, second)
    compare_resumed(check, f"behind both parts, {name}", files, "both.txt", second)
    check.compare(f"the parts together, {name}", files, told(*whole.shown()), told(stream.table, stream.mark))
    return any(row.end < judge.mark for judge in judges for row in judge.events.values())


def told(table: Counter, mark: int) -> tuple[int, bytes, bytes]:
    """A table and a guarantee as an answer."""
    return 0, rows_text(in_order(table)), reference.time_text(mark).encode()


def compare_followed(check: NetworkCheck, name: str, files: dict, words: list, stream: Stream, followed: Followed) -> None:
    came = check.answer(files, words)
    check.compare(name, files, (0, expected(stream, followed, came[1]), b""), came)


def compare_resumed(check: NetworkCheck, name: str, files: dict, script: str, followed: Followed) -> None:
    """The last that `resume` shows is what the lines come to."""
    status, out, err = check.answer(files, ["resume", "plan.json", "c.txt", script])
    ends = [0, *(place for place, line in enumerate(lines_of(out), 1) if line.startswith(REACH_MARK))]
    last = b"".join(lines_of(out)[ends[-2] if len(ends) > 1 else 0 :])
    check.compare(f"resume {name}", files, (0, followed.at_a_question(), b""), (status, last, err))


def check_all(check: NetworkCheck, sizes: Sizes) -> None:
    kinds = check_scripts(check, range(sizes.scripts))
    faults = ", ".join(f"{kinds[f'fault {one}']} of {one}" for one in (1, 2, 3, 4, 5, 6, 7, 8, 9))
    print(f"follow: {sizes.scripts} scripts in pieces ({kinds['faulty']} with faulty lines: {faults}; {kinds['again']} in "
          f"which a forgotten id came again)", flush=True)
    lines = check_line_by_line(check, range(sizes.line_by_line))
    print(f"follow: {sizes.line_by_line} scripts line by line, {lines} lines answered before the next one", flush=True)
    kinds = check_cuts(check, range(sizes.cuts))
    print(f"follow: {sizes.cuts} scripts in two parts ({kinds['forgot']} whose checkpoints have events that are over)",
          flush=True)
    print(f"follow: {follow_outside.check_slow(check)}", flush=True)
    print(f"follow: {follow_outside.check_outside(check)}", flush=True)
    print(f"follow: {follow_memory.check_memory(check, sizes.first_lines, sizes.lines)}", flush=True)


def main() -> int:
    sizes = QUICK if "--quick" in sys.argv else Sizes()
    sys.argv = [word for word in sys.argv if word != "--quick"]
    with tempfile.TemporaryDirectory(prefix="cedr-check-") as folder:
        check = NetworkCheck(built_program(), Path(folder), "")
        check_all(check, sizes)
    print(f"follow: {check.differences} differences")
    return 1 if check.differences else 0


if __name__ == "__main__":
    sys.exit(main())
