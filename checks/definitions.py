#!/usr/bin/env python3
"""Compares docs/definitions.md with the public definitions in the crates' specs/.

Each of these is named below its crate's heading, in the table or, where private contracts alone cite it, in the text
behind the table, which may name its whole file instead; and what the first column of a table names is one of them, or a
public type of the crate. A name stands for one definition in all of the repository. Definitions stand apart from lemmas:
a file whose name ends in Laws defines at most what has its own name, and no other file states a lemma.

usage: python3 checks/definitions.py
"""
import re
import sys
from pathlib import Path

DEFINITION = re.compile(r"^(?:abbrev pub|unfoldable pub|pub record|pub data) ([^\s:]+)", re.MULTILINE)
LEMMA = re.compile(r"^(?:pub )?(?!use\b|mod\b)([^\s:()]+) : ", re.MULTILINE)
TYPE = re.compile(r"^pub (?:struct|enum) (\w+)", re.MULTILINE)
QUOTED = re.compile("`([^`]+)`")
WHOLE_FILE = re.compile(r"^specs/(\w+)\.antt$")


def defined(specs: Path) -> dict:
    """The public definitions of each file of a crate."""
    return {file.stem: DEFINITION.findall(file.read_text()) for file in sorted(specs.glob("*.antt"))}


def mixed(file: Path, found: list):
    """What stands in a file of definitions or of laws and belongs into the other kind."""
    if file.stem.endswith("Laws"):
        yield from (f"{file}: {name} is a definition" for name in found if name != file.stem)
    else:
        yield from (f"{file}: {name} is a lemma" for name in LEMMA.findall(file.read_text()))


def doubled(crates: dict):
    """The names that stand for more than one definition."""
    places = {}
    for crate, files in crates.items():
        for file, found in files.items():
            for name in found:
                places.setdefault(name, []).append(f"{crate}/specs/{file}.antt")
    yield from (f"{name} is defined in {' and in '.join(at)}" for name, at in sorted(places.items()) if len(at) > 1)


def types(crate: Path) -> set:
    return {name for file in crate.glob("src/*.rt") for name in TYPE.findall(file.read_text())}


def sections(page: str) -> dict:
    """What stands below the heading of each crate."""
    parts = re.split(r"^## (\w+)$", page, flags=re.MULTILINE)
    return dict(zip(parts[1::2], parts[2::2]))


def differences(root: Path):
    told = sections((root / "docs/definitions.md").read_text())
    crates = {folder.parent.name: defined(folder) for folder in sorted(root.glob("crates/*/specs"))}
    for crate, files in crates.items():
        lines = told.get(crate, "").split("\n")
        rows = [line for line in lines if line.startswith("|")]
        names = set(QUOTED.findall("\n".join(lines)))
        whole = {one.group(1) for one in map(WHOLE_FILE.match, QUOTED.findall("\n".join(set(lines) - set(rows)))) if one}
        for file, found in files.items():
            if file not in whole:
                yield from (f"{crate}: {name} ({file}.antt) isn't named" for name in found if name not in names)
            yield from mixed(root / "crates" / crate / "specs" / f"{file}.antt", found)
        there = {name for found in files.values() for name in found} | types(root / "crates" / crate)
        first = [name for row in rows for name in QUOTED.findall(row.split("|")[1])]
        yield from (f"{crate}: {name} is no public definition" for name in first if name not in there)
    yield from doubled(crates)
    yield from (f"there is no crate {crate}" for crate in told if crate not in crates)


def main() -> None:
    found = list(differences(Path(__file__).resolve().parent.parent))
    print("\n".join(found + [f"definitions: {len(found)} differences"]))
    sys.exit(1 if found else 0)


main()
