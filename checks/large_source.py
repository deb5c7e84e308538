#!/usr/bin/env python3
"""Divides a source and shortens its parts as docs/program.md shows it, and compares the answers.

The commands and the nodes of the page are run over lines made at random. Each part has the lines of its events in their
order, and each guarantee; a plan over the parts answers what one over the whole file does; and the history of a
shortened part is that of the part.

Status 0: all right. 1: something differs. 2: the program isn't there.

usage: checks/large_source.py [PROGRAM]
"""
from __future__ import annotations

import os
import random
import re
import shutil
import subprocess
import sys
import tempfile
from pathlib import Path

sys.dont_write_bytecode = True

import doc_tables
import reference
from program import built_program

PAGE, HEADING = "docs/program.md", "### A source of more than 64 MiB"
BLOCK = re.compile(r"```(sh|json)\n(.*?)```", re.DOTALL)
SEEDS, LINES, PARTS = 4, 150, 4
SOURCE = '{"name":"orders","op":"source","file":"orders.csv","fields":["text","int"]}'
BEHIND = """,
{"name":"sums","op":"group","from":["orders"],"keys":[0],"count":true,"sum":[1]},
{"name":"out","op":"output","from":["sums"]}]}"""
NAMES = [b"a", b"b", b'"a,b"', b'"say ""so"""', b""]


class Source:
    """Lines made at random, of which those that the reference accepts are kept."""

    def __init__(self, seed: int) -> None:
        self.rng, self.judge, self.lines = random.Random(seed), reference.Judge(["text", "int"]), []
        while len(self.lines) < LINES:
            line = self.line()
            try:
                self.judge.take(line)
                self.lines.append(line)
            except reference.Fault:
                pass

    def line(self) -> bytes:
        rng, identity = self.rng, b"%d" % self.rng.choice([self.rng.randrange(40), 2**64 - 1 - self.rng.randrange(9)])
        begin = self.judge.mark + rng.randrange(-5, 60)
        kind = rng.choice([b"+", b"+", b"+", b"-", b"-", b"~", b"=", b""])
        quote = rng.choice([b"", b"", b'"'])
        if kind == b"":
            return rng.choice([b"", b"\r"])
        if kind == b"=":
            return quote + b"=" + quote + b",%d" % (self.judge.mark + rng.randrange(4)) + rng.choice([b"", b"\r"])
        first = quote + kind + quote + b"," + quote + rng.choice([b"", b"00"]) + identity + quote
        if kind == b"-":
            return first + b",%d" % max(begin, 0)
        end = b"inf" if rng.random() < 0.1 else b"%d" % (begin + rng.randrange(1, 40))
        return first + b",%d," % max(begin, 0) + end + b"," + rng.choice(NAMES) + b",%d" % rng.randrange(-9, 99)

    def part(self, number: int) -> list:
        """The lines that belong into a part. An empty line is no event's, and may stand in any."""
        return [line for line in self.lines if line.strip() and self.part_of(line) in (None, number)]

    def part_of(self, line: bytes) -> int | None:
        """The part that an event's line belongs into. A guarantee's line belongs into each."""
        kind, identity, *_ = (field.strip(b'"') for field in line.split(b","))
        return None if kind == b"=" else int(identity) % 1_000 % PARTS


class Folder:
    """A folder in which the page's commands are run, with the program as `cedr` on the path."""

    def __init__(self, path: Path, program: Path) -> None:
        self.path = path
        (path / "bin").mkdir()
        (path / "bin/cedr").symlink_to(program)
        self.settings = {**os.environ, "PATH": f"{path}/bin:{os.environ['PATH']}"}

    def shell(self, command: str) -> tuple:
        done = subprocess.run(["bash", "-c", command], cwd=self.path, env=self.settings, capture_output=True,
                              timeout=60, check=False)
        return done.returncode, done.stdout, done.stderr


def differences(folder: Folder, source: Source, blocks: list) -> list:
    """What isn't as it must be, of one source."""
    (_, divide), (_, nodes), (_, shorten) = blocks
    (folder.path / "orders.csv").write_bytes(b"\n".join(source.lines) + b"\n")
    found = [f"the command ended so: {came}" for came in [folder.shell(divide)] if came != (0, b"", b"")]
    for number in range(PARTS):
        lines = (folder.path / f"orders{number}.csv").read_bytes().split(b"\n")
        if [line for line in lines if line.strip()] != source.part(number):
            found.append(f"part {number} has other lines")
    for name, text in (("whole", SOURCE), ("parts", nodes.strip())):
        (folder.path / f"{name}.json").write_text('{"version":1,"nodes":[\n' + text + BEHIND)
    whole, parts = folder.shell("cedr run whole.json"), folder.shell("cedr run parts.json")
    if whole != parts or whole[0] or not whole[1]:
        found.append(f"the answers differ: {whole} and {parts}")
    came = folder.shell(shorten)
    part, short = folder.shell("cedr history orders0.csv"), folder.shell("cedr history short0.csv")
    if came != (0, b"", b"") or part != short or part[0]:
        found.append(f"the histories differ: {part} and {short}")
    return found


def main() -> int:
    if not shutil.which("awk"):
        print("large_source: skipped, there is no awk (Debian: apt-get install mawk)")
        return 0
    blocks = BLOCK.findall(doc_tables.section(PAGE, HEADING))
    found = []
    for seed in range(SEEDS):
        with tempfile.TemporaryDirectory(prefix="cedr-check-") as path:
            folder = Folder(Path(path), built_program())
            found += [f"seed {seed}: {one}" for one in differences(folder, Source(seed), blocks)]
    summary = f"large_source: {SEEDS} sources of {LINES} lines in {PARTS} parts: {len(found)} differences"
    print("\n".join([*found[:5], summary]))
    return 1 if found else 0


sys.exit(main())
