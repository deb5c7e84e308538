#!/usr/bin/env python3
"""Runs each command of docs/from_csv.md, and of the part of README.md on own files, in a copy of examples/ and tools/.

What comes on standard output and standard error must be what stands under the command, and nothing where nothing does. The files
that the pages show must be those of examples/shop/, and the files that the commands write those that are kept there; pictures
are compared by their texts, where the same version drew both. Commands whose tools aren't there are skipped, and counted.
Status 0: all right. 1: something differs. 2: the program isn't there.

usage: checks/from_csv.py [PROGRAM]
"""
import os
import re
import shutil
import subprocess
import sys
import tempfile
from functools import lru_cache
from pathlib import Path
from typing import NamedTuple, Optional

sys.dont_write_bytecode = True

from program import ROOT, built_program, shown

PAGES = {"docs/from_csv.md": "", "README.md": "Your own files"}
FOLDER = Path("examples/shop")
BLOCK = re.compile(r"^```(\w+)\n(.*?)^```$", re.DOTALL | re.MULTILINE)
NAME = re.compile(r"`([\w./]+\.(?:csv|json))`")
TIME = re.compile(r"^\| `([^`]*)`[^|]* \| `([^`]*)` \| (\d+) \| (?:`([^`]*)`)? ?\|$", re.MULTILINE)
SECTION = r"^## {}\n(.*?)(?=^## |\Z)"
SVG_TEXT, SVG_VERSION = re.compile(r"<text[^>]*>([^<]*)</text>"), re.compile(r"graphviz version [^\n]*|Matplotlib v[\d.]+")
SECONDS = 60


class Block(NamedTuple):
    """A block of a page: a command with what it must write, or a file by its name."""

    command: str
    name: str
    text: str


def blocks(page: str):
    """The blocks of a page in their order."""
    at, command = 0, None
    for found in BLOCK.finditer(page):
        before, kind, text = page[at : found.start()], found[1], found[2]
        at = found.end()
        if command is not None:
            is_output = not before.strip() and kind == "text"
            yield Block(command, "", text if is_output else "")
            command = None
            if is_output:
                continue
        if kind == "sh":
            command = text
        else:
            names = NAME.findall(before.strip().rpartition("\n\n")[2])
            yield Block("", names[-1] if names else "", text)
    if command is not None:
        yield Block(command, "", "")


def part(page: str, section: str) -> str:
    return re.search(SECTION.format(re.escape(section)), page, re.DOTALL | re.MULTILINE)[1] if section else page


@lru_cache(None)
def drawing_python() -> Optional[str]:
    """A Python 3 that has matplotlib."""
    for python in (sys.executable, "/usr/bin/python3"):
        words = [python, "-c", "import matplotlib"]
        if os.path.exists(python) and not subprocess.run(words, capture_output=True, check=False).returncode:
            return python
    return None


class Copy:
    """A copy of what the commands use, and which tools are there."""

    def __init__(self, folder: Path, program: Path) -> None:
        self.folder = folder
        for name in ("examples", "tools"):
            shutil.copytree(ROOT / name, folder / name)
        (folder / "crates/cedr/out").mkdir(parents=True)
        (folder / "crates/cedr/out/cedr").symlink_to(program)
        python = drawing_python()
        (folder / "bin").mkdir()
        (folder / "bin/python3").symlink_to(python or sys.executable)
        self.lacking = [name for name in ("mlr", "sqlite3", "dot") if not shutil.which(name)]
        self.lacking += [] if python else ["--by"]

    def lacks(self, command: str) -> bool:
        return any(name in command or name == "dot" and "plan.svg" in command for name in self.lacking)

    def run(self, command: str) -> tuple[int, str]:
        env = {**os.environ, "PATH": f"{self.folder / 'bin'}:{os.environ['PATH']}"}
        done = subprocess.run(["bash", "-c", command], cwd=self.folder, env=env, stdin=subprocess.DEVNULL, stdout=subprocess.PIPE,
                              stderr=subprocess.STDOUT, timeout=SECONDS, check=False)
        return done.returncode, done.stdout.decode()


def check_page(copy: Copy, name: str, section: str) -> tuple[list, int, int, int]:
    """What differs, and how many commands were run, how many skipped, and how many files the page shows."""
    found, run, skipped, files = [], 0, 0, 0
    for block in blocks(part((ROOT / name).read_text(), section)):
        if not block.command:
            file = copy.folder / FOLDER / block.name
            files += 1
            if not block.name or not file.is_file() or file.read_text() != block.text:
                found.append(f"{name}: {block.name or 'a text without a name'} isn't as the page shows it")
        elif copy.lacks(block.command):
            skipped += 1
        else:
            run += 1
            status, out = copy.run(block.command)
            if out != block.text or status and not block.text:
                found.append(f"{name}: {block.command}  status {status}, wrote {shown(out.encode())}")
    return found, run, skipped, files


def check_times(copy: Copy, page: str) -> tuple[list, int]:
    """What differs in the table of times, and how many expressions of Miller it has."""
    found, count = [], 0
    for text, there, number, back in [] if "mlr" in copy.lacking else TIME.findall(page):
        for value, expression, wanted in ((text, there, number), (number, back, text))[: 2 if back else 1]:
            count += 1
            command = f"printf 't\\n{value}\\n' | mlr {'-S ' if value == text else ''}--icsv --ocsv put -q 'print {expression}'"
            came = copy.run(command)
            if came != (0, wanted + "\n"):
                found.append(f"docs/from_csv.md: {expression} of {value} is {came[1]}")
    return found, count


def check_written(copy: Copy):
    """What the commands wrote and is kept otherwise, or isn't kept."""
    for file in sorted((copy.folder / FOLDER).iterdir()):
        kept = ROOT / FOLDER / file.name
        if not kept.is_file():
            yield f"{FOLDER / file.name} is written, and isn't kept"
        elif file.suffix == ".svg":
            one, other = file.read_text(), kept.read_text()
            if SVG_VERSION.findall(one) == SVG_VERSION.findall(other) and SVG_TEXT.findall(one) != SVG_TEXT.findall(other):
                yield f"{FOLDER / file.name} has other texts than the one that is kept"
        elif file.read_bytes() != kept.read_bytes():
            yield f"{FOLDER / file.name} isn't the one that is kept"


def main() -> int:
    found, told = [], []
    with tempfile.TemporaryDirectory(prefix="cedr-check-") as folder:
        copy = Copy(Path(folder), built_program())
        for name, section in PAGES.items():
            differences, run, skipped, files = check_page(copy, name, section)
            found += differences
            told.append(f"{run} commands of {name}" + (f" ({skipped} skipped)" if skipped else "") + f", {files} files that it shows")
        differences, times = check_times(copy, (ROOT / "docs/from_csv.md").read_text())
        found += differences + [*check_written(copy)]
    for one in found:
        print(f"DIFFERENCE: {one}")
    print(f"from csv: {', '.join(told)}, {times} expressions of times: {len(found)} differences")
    return 1 if found else 0


if __name__ == "__main__":
    sys.exit(main())
