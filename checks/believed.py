#!/usr/bin/env python3
"""Lists what has to be believed for a clause to mean what it says: the definitions that it stands on, from the top down.

The contract of the top call names definitions in specs/, and these name others. Whoever believes that each says what its sentence
says, and believes the toolchain, believes the clause. docs/believed.md has the lists and how long they are, made by this.

usage: python3 checks/believed.py            compares docs/believed.md with what the sources say
       python3 checks/believed.py --write    makes docs/believed.md anew
       python3 checks/believed.py NAME..     lists the definitions that these stand on, with their sentences
"""
import re
import sys
from pathlib import Path
from typing import NamedTuple

sys.dont_write_bytecode = True

from program import ROOT

PAGE = ROOT / "docs/believed.md"
SIGNATURE = re.compile(r"^(?:abbrev |unfoldable |opaque )?(?:pub )?(?:record |data )?([^\s:(){}]+)(?= .*:| :)")
BEGINS = re.compile(r"^(?:abbrev |unfoldable |opaque |pub record |pub data |record |data )")
OF_SPECS = re.compile(r"^(?:ghost )?use Rattle\.(\w+)\.specs\.([\w.]+?)\.\{(.*)\};?$", re.MULTILINE)
DECLARED = re.compile(r"^(?:ghost )?use Rattle\.(\w+)\.specs\.declared\.([\w.]+?)(?:\.\{(.*)\}| as (\w+));?$", re.MULTILINE)
WORD = re.compile(r"[^\s(){}\[\],.;:λ=]+")
TOP_CALL = re.compile(r"^pub fn run<.*?^\{$", re.MULTILINE | re.DOTALL)
# What the counts are of: what a reader would ask for, and the definition that says it.
ASKED = [
    ("what `run` and `pool` have written at status 0", "AnswersRun"),
    ("what `stream` has written at status 0", "AnswersStream"),
    ("the query of a plan", "query"),
    ("what an accepted source amounts to", "IsAcceptedSource"),
]


class Definition(NamedTuple):
    """A definition: where it stands, its sentence, its lines without comments, and the definitions and types that it names."""
    crate: str
    file: str
    name: str
    sentence: str
    lines: list
    names: set
    types: set


def blocks(text: str):
    """The definitions of a file: the comment in front of each, and its lines."""
    comment, lines = [], []
    for line in [*text.split("\n"), "-- "]:
        if line.startswith("-- "):
            if lines:
                yield comment, lines
                comment, lines = [], []
            comment.append(line[3:])
        elif BEGINS.match(line):
            if lines:
                yield comment, lines
                comment, lines = [], []
            lines = [line]
        elif lines and line:
            lines.append(line)
        elif not line and not lines:
            comment = []


def imported(text: str):
    """The definitions that a file brings in by their names, with the crate of each; and the types of the code, with theirs."""
    names, types = {}, {}
    for crate, path, inside in OF_SPECS.findall(text):
        if "declared" not in path and crate != "std":
            for one in inside.split(","):
                whole, _, other = one.strip().partition(" as ")
                names[other or whole] = crate, whole
    for crate, path, inside, other in DECLARED.findall(text):
        kind = path.removesuffix(".TheVariants").split(".")[-1]
        if kind != "TheConstants":
            for one in [other] if other else [part.strip().rpartition(" as ")[2] for part in inside.split(",")]:
                types[one] = crate, kind
    return names, types


def definitions() -> dict:
    """All definitions, by their crate and name."""
    found = {}
    for file in sorted(ROOT.glob("crates/*/specs/*.antt")):
        crate, text = file.parent.parent.name, file.read_text()
        names, types = imported(text)
        here = [(SIGNATURE.match(lines[0])[1], comment, lines) for comment, lines in blocks(text) if SIGNATURE.match(lines[0])]
        names.update({name: (crate, name) for name, _, _ in here})
        for name, comment, lines in here:
            words = set(WORD.findall("\n".join(lines)))
            found[crate, name] = Definition(crate, f"specs/{file.name}", name, " ".join(comment).partition(". ")[0].rstrip("."), lines,
                                            {names[one] for one in words & names.keys()} - {(crate, name)},
                                            {types[one] for one in words & types.keys()})
    return found


def stands_on(keys: list, found: dict) -> list:
    """These definitions and all that they name, each once, from the top down."""
    reached, left = [], list(keys)
    while left:
        key = left.pop(0)
        if key in found and key not in reached:
            reached.append(key)
            left += sorted(found[key].names)
    return reached


def of_names(names: list, found: dict) -> list:
    return [key for name in names for key in found if key[1] == name]


def of_the_top_call() -> list:
    """The definitions that its contract names."""
    text = (ROOT / "crates/cedr_run/src/top.rt").read_text()
    words = set(WORD.findall(TOP_CALL.search(text)[0]))
    return [key for name, key in imported(text)[0].items() if name in words]


def layers() -> list:
    """The crates from the top down."""
    lines = (line.partition("#")[0].split(":")[0].split() for line in (ROOT / "crates.txt").read_text().splitlines())
    return [words[0] for words in lines if words][::-1]


def counted(reached: list, found: dict) -> str:
    files = {(found[key].crate, found[key].file) for key in reached}
    types = {one for key in reached for one in found[key].types}
    lines = sum(len(found[key].lines) for key in reached)
    return f"| {len(reached)} | {lines:,} | {len(files)} | {len({crate for crate, _ in files})} | {len(types)} |"


def page() -> str:
    found = definitions()
    whole = stands_on(of_the_top_call(), found)
    rows = [f"| the contract of the top call, whatever the words: `cedr_run::run` {counted(whole, found)}"]
    rows += [f"| {what}: `{name}` {counted(stands_on(of_names([name], found), found), found)}" for what, name in ASKED]
    parts = []
    for crate in layers():
        mine = [found[key] for key in whole if key[0] == crate]
        files = list(dict.fromkeys(one.file for one in mine))
        if mine:
            parts.append(f"| {crate} | " + "; ".join(
                f"[{Path(file).stem}](../crates/{crate}/{file}): " + ", ".join(f"`{one.name}`" for one in mine if one.file == file)
                for file in files) + " |")
    return "\n".join([
        "# What has to be believed", "",
        "A proof says that the program meets its contracts. That these say what people mean is for a reader to judge, and so is each",
        "definition that a contract stands on. This page has how many these are, and which, from the top down; `python3",
        "checks/believed.py` makes it of the sources, and with names of definitions lists those that these stand on, with their",
        "sentences. Lines are those of definitions alone, without comments, imports and laws. Types are those of the code that the",
        "definitions name, as `Row` or `PlanNode`.", "",
        "| what | definitions | lines | files | crates | types |", "|---|---|---|---|---|---|", *rows, "",
        "Besides them: the toolchain with the standard library's own definitions, the contracts of the kit's crates, the C library, and",
        "the real files and streams ([README.md](../README.md#what-is-proved) has the list). [definitions.md](definitions.md) says each",
        "definition in plain words, and [promises.md](promises.md#the-headline-word-by-word) which clause carries which words of the",
        "headline.", "",
        "## All of the top call, from the top down", "",
        "| crate | files, and what stands in them |", "|---|---|", *parts, ""])


def main() -> int:
    words = sys.argv[1:]
    if words == ["--write"]:
        PAGE.write_text(page())
        return 0
    if words:
        found = definitions()
        for key in stands_on(of_names(words, found), found):
            one = found[key]
            print(f"{one.crate}/{one.file}: {one.name}: {one.sentence}")
        return 0
    differs = not PAGE.is_file() or PAGE.read_text() != page()
    print(f"believed: docs/believed.md {'is not what the sources say: python3 checks/believed.py --write' if differs else 'is what the sources say'}")
    return 1 if differs else 0


if __name__ == "__main__":
    sys.exit(main())
