#!/usr/bin/env python3
"""Runs `examples/scale/scale` on keyed plans, and compares what comes with what one `cedr run` answers over the whole sources.

- Random plans that are keyed by the way they are made (random_keyed.py), in 2 to 5 parts: the same bytes. Their sources have late
  lines, retractions, revisions that give an event another key, guarantees, and keys that are spelt in several ways.
- The same with odd lines: the same status and the same text on standard error, with the numbers of lines in the whole source.
- Faults that come of lines of other keys, with what must be said of them written by hand; what else it refuses; and the example that
  docs/scale.md shows.

Status 0: all right. 1: something differs; the first differences are printed with their seeds, and their files kept. 2: the
program isn't there. It is skipped where `cedr_keys` isn't built, or where there is no GNU parallel. With KEYS it takes that
program for `cedr_keys`, and with SCALE that one for the script.

usage: checks/scale.py [PROGRAM [KEYS [SCALE]]]
"""
from __future__ import annotations

import json
import os
import random
import shutil
import subprocess
import sys
import tempfile
from concurrent.futures import ThreadPoolExecutor
from pathlib import Path

sys.dont_write_bytecode = True

import pages
import random_keyed
from networks import NetworkCheck, write_files
from program import ROOT, built_program

PLANS, FAULTY_PLANS, AT_ONCE = 200, 40, 4
ODD = 0.03
USAGE = b"usage: scale PLAN PARTS [JOBS] [-- WORD..]\n"
SCALE = Path(sys.argv[3] if len(sys.argv) > 3 else ROOT / "examples/scale/scale").resolve()
EXAMPLE = ROOT / "examples/scale"
SOURCE = {"name": "s", "op": "source", "file": "s.csv", "fields": ["text", "int"]}
KEYS = "abcde"
FAULTS = [
    ("+,1,20,30,x,1 / =,10 / +,2,5,30,{key},1", "3 fault 9 sync 5 mark 10"),
    ("+,1,20,30,{key},1 / -,1,20 / =,25 / ~,1,22,30,x,1", "4 fault 9 sync 22 mark 25"),
    ("+,7,20,30,x,1 / +,007,20,30,{key},1", "2 fault 6"),
    ('"+","0",20,30,x,1 / +,1,20,30,x,1 / "+",00,20,30,{key},1', "3 fault 6"),
    ("+,1,20,30,x,1 / =,10 / +,2,20,30,{key} / =,9", "3 fault 2"),
]


class ScaleCheck(NetworkCheck):
    """A check that has the programs on the path, and runs the script in a folder of each case's own."""

    def __init__(self, program: Path, keys: Path, folder: Path) -> None:
        super().__init__(program, folder, "")
        (folder / "bin").mkdir()
        for name, one in (("cedr", program), ("cedr_keys", keys), ("scale", SCALE)):
            (folder / "bin" / name).symlink_to(one)
        self.settings = {**os.environ, "PATH": f"{folder}/bin:{os.environ['PATH']}", "TMPDIR": str(folder)}

    def called(self, files: dict, *words: str) -> tuple[int, bytes, bytes]:
        with tempfile.TemporaryDirectory(dir=self.folder) as place:
            write_files(Path(place), files)
            done = subprocess.run(words, cwd=place, env=self.settings, capture_output=True, timeout=120, check=False)
        return done.returncode, done.stdout, done.stderr


def in_both_ways(check: ScaleCheck, cases) -> list:
    """The files of each case, what `cedr run` answers, and what the script does in so many parts."""
    def ways(case: tuple) -> tuple:
        files, parts = case
        return (files, check.called(files, "cedr", "run", "plan.json"),
                check.called(files, "scale", "plan.json", str(parts), "1"))
    with ThreadPoolExecutor(AT_ONCE) as pool:
        return list(pool.map(ways, cases))


def check_plans(check: ScaleCheck, count: int, odd: float) -> int:
    """Compares the answers of so many plans, and gives how many of them were refused."""
    refused = 0
    cases = ((random_keyed.keyed_network(random.Random(seed), odd), 2 + seed % 4) for seed in range(count))
    for seed, (files, wanted, came) in enumerate(in_both_ways(check, cases)):
        check.compare(f"seed {seed}" + (" with odd lines" if odd else ""), files, wanted, came)
        refused += wanted[0] == 3
    return refused


def plan_of(*nodes: dict) -> bytes:
    between = [{**node, "name": f"n{place}", "from": [f"n{place - 1}" if place else "s"]} for place, node in enumerate(nodes)]
    last = between[-1]["name"] if between else "s"
    return json.dumps({"version": 1, "nodes": [SOURCE, *between, {"name": "out", "op": "output", "from": [last]}]}).encode()


def long_plan(size: int) -> bytes:
    """A plan of so many bytes, whose only test is on a long text that isn't of ASCII letters."""
    nodes = [{**SOURCE}, {"name": "n", "op": "select", "from": ["s"], "where": [[0, "!=", {"text": ""}]]},
             {"name": "out", "op": "output", "from": ["n"]}]
    room = size - len(json.dumps({"version": 1, "nodes": nodes}, separators=(",", ":")))
    nodes[1]["where"][0][2]["text"] = "\u00e9" * (room // 2) + "e" * (room % 2)
    return json.dumps({"version": 1, "nodes": nodes}, ensure_ascii=False, separators=(",", ":")).encode()


def refusals() -> list:
    """What is refused: files, the words, the status, and a part of what is said."""
    lines = {"s.csv": b"+,1,5,6,a,9223372036854775807\n+,2,5,6,a,1\n+,3,5,6,b,2\n"}
    kept = {"plan.json": plan_of({"op": "project", "keep": [0, 0]}), **lines}
    forgetting = plan_of({"op": "project", "keep": [0], "level": {"block": 0, "memory": 9}})
    summed = plan_of({"op": "group", "keys": [0], "count": False, "sum": [1]})
    counted = plan_of({"op": "group", "keys": [], "count": True, "sum": []})
    long = {"s.csv": b"+,1,5,6," + b"a" * 40_000 + b",7\n"}
    return [
        (kept, [], 1, USAGE),
        (kept, ["plan.json"], 1, USAGE),
        (kept, ["plan.json", "0"], 1, USAGE),
        (kept, ["plan.json", "2", "0"], 1, USAGE),
        (kept, ["plan.json", "2", "1", "3"], 1, USAGE),
        (kept, ["plan.json", "48"], 1, b"at most 47 parts"),
        (kept, ["plan.json", "9" * 5001], 1, b"at most 47 parts"),
        (kept, ["plan.json", "0" * 5001], 1, USAGE),
        ({**kept, "plan.json": long_plan(1_048_576)}, ["plan.json", "2"], 1, b"the plan of part 0 has 1048578 bytes"),
        (kept, ["none.json", "2"], 4, b"read fault\n"),
        ({**kept, "plan.json": b"{}"}, ["plan.json", "2"], 2, b"plan fault 3 node 0\n"),
        ({"plan.json": kept["plan.json"]}, ["plan.json", "2"], 4, b"s.csv is no file"),
        ({**lines, "plan.json": counted}, ["plan.json", "2"], 1, b"\n"),
        ({**lines, "plan.json": forgetting}, ["plan.json", "2"], 1, b"the node n0 has a finite memory"),
        ({**lines, "plan.json": summed}, ["plan.json", "2"], 1, b"is no event line that cedr reads: fault 5"),
        ({**kept, **long}, ["plan.json", "2"], 1, b"is no event line that cedr reads: fault 1"),
    ]


def check_refusals(check: ScaleCheck) -> int:
    table = refusals()
    for files, words, status, said in table:
        came = check.called(files, "scale", *words)
        if came[:2] != (status, b"") or said not in came[2] or came[2].count(b"\n") != 1:
            check.compare(f"refused, scale {' '.join(words)}", files, (status, b"", said), came)
    return len(table)


def check_faults(check: ScaleCheck) -> int:
    """Lines that are faulty because of lines of other keys, or of the source's guarantees, whichever the part of the last key is."""
    plan, said = plan_of({"op": "select", "where": []}), [told for _, told in FAULTS for _ in KEYS]
    texts = ["\n".join(lines.format(key=key).split(" / ")).encode() for lines, _ in FAULTS for key in KEYS]
    answers = in_both_ways(check, [({"plan.json": plan, "s.csv": text}, 5) for text in texts])
    for told, (files, whole, came) in zip(said, answers):
        expected = 3, b"", f"events s line {told}\n".encode()
        check.compare("a fault, by cedr", files, expected, whole)
        check.compare("a fault, in parts", files, expected, came)
    return len(texts)


def check_no_fields(check: ScaleCheck) -> None:
    """Where a source has no fields its rows have no key, and are all in one part."""
    nodes = [{**SOURCE, "fields": []}, {"name": "out", "op": "output", "from": ["s"]}]
    files = {"plan.json": json.dumps({"version": 1, "nodes": nodes}).encode(), "s.csv": b"+,1,5,6\n+,2,0,9\n+,3,5,6\n-,2,1\n"}
    expected = 0, b"0,1\n5,6\n5,6\n", b""
    check.compare("a source without fields", files, expected, check.called(files, "scale", "plan.json", "3"))


def check_long_plan(check: ScaleCheck) -> None:
    """A plan near the limit, most of whose letters take more bytes as escapes."""
    files = {"plan.json": long_plan(1_048_000), "s.csv": b"+,1,5,6,a,1\n+,2,0,9,b,2\n"}
    check.compare("a long plan", {}, check.called(files, "cedr", "run", "plan.json"), check.called(files, "scale", "plan.json", "2"))


def check_example(check: ScaleCheck) -> None:
    """The example, as the page shows it, in several numbers of parts."""
    page = (ROOT / "docs/scale.md").read_text()
    pages.check_side_by_side(page, EXAMPLE, 1)
    files = {one.name: one.read_bytes() for one in EXAMPLE.iterdir() if one.suffix in (".csv", ".json")}
    keys = check.called(files, "cedr_keys", "load.json")
    for text in (files["load.json"], keys[1], files["answer.csv"]):
        shown = f"\n```{'json' if text.startswith(b'{') else 'text'}\n{text.decode()}```\n"
        check.compare("what docs/scale.md shows", files, (0, b"", b""), (0, b"" if shown in page else shown.encode(), b""))
    check.compare("the example as a whole", files, (0, files["answer.csv"], b""), check.called(files, "cedr", "run", "load.json"))
    for words in (["1"], ["2"], ["3"], ["6", "4"], ["47"]):
        check.compare(f"the example, {' '.join(words)}", files, (0, files["answer.csv"], b""),
                      check.called(files, "scale", "load.json", *words))


def main() -> int:
    program = built_program()
    keys = Path(sys.argv[2] if len(sys.argv) > 2 else ROOT / "crates/cedr_keys/out/cedr_keys").resolve()
    if not shutil.which("parallel") or not keys.is_file():
        print("scale: skipped, there is no " + ("cedr_keys" if shutil.which("parallel") else
              "GNU parallel (Debian: apt-get install parallel)"))
        return 0
    with tempfile.TemporaryDirectory(prefix="cedr-check-") as folder:
        check = ScaleCheck(program, keys, Path(folder))
        check_plans(check, PLANS, 0)
        faulty = check_plans(check, FAULTY_PLANS, ODD)
        refused = check_refusals(check) + check_faults(check)
        check_no_fields(check)
        check_long_plan(check)
        check_example(check)
        left = [one.name for one in Path(folder).iterdir() if one.name != "bin"]
        check.compare("what is left behind", {}, (0, b"", b""), (0, repr(left).encode() if left else b"", b""))
    print(f"scale: {PLANS} plans in 2 to 5 parts, {FAULTY_PLANS} with odd lines of which {faulty} were refused, and {refused} other "
          f"refusals: {check.differences} differences")
    return 1 if check.differences else 0


if __name__ == "__main__":
    sys.exit(main())
