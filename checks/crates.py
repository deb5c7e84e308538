#!/usr/bin/env python3
"""Holds crates.txt, and what docs/architecture.md says of it, to what the crates name.

Each crate that a line of crates.txt names is named in the sources of its crate. One of the repository that proofs alone name
is below that crate by others too, or a crate of laws, so that no crate stands on another for a lemma alone. And each row of
the table of crates in docs/architecture.md says how many crates are proved anew when its crate changes: itself and all above
it. The table of modules there has each module of each crate, and what a page calls `CRATE::NAME` is a module or an item there.

usage: python3 checks/crates.py [--table]   with --table: only writes, for each crate, how many are proved anew
"""
import re
import sys

sys.dont_write_bytecode = True

from program import ROOT

LINE = re.compile(r"^(\w+)((?: \w+=\S+)*):(.*)$", re.MULTILINE)
ROW = re.compile(r"^\| `(\w+)` \|.*\| (\d+) \|$", re.MULTILINE)


def listed() -> dict:
    """The crates that each crate stands on, in the order of crates.txt."""
    return {name: used.split() for name, _, used in LINE.findall((ROOT / "crates.txt").read_text())}


def proved_anew(crates: dict) -> dict:
    """For each crate how many are proved anew when it changes."""
    below = {}
    for name in crates:
        below[name] = reached(name, crates)
    return {name: sum(name in others for others in below.values()) for name in crates}


def reached(name: str, crates: dict) -> set:
    """The crate and all that it stands on."""
    found, left = set(), [name]
    while left:
        one = left.pop()
        if one not in found:
            found.add(one)
            left += crates.get(one, [])
    return found


def text_of(name: str, *parts: str) -> str:
    files = [file for part in parts for file in sorted((ROOT / "crates" / name / part).rglob("*")) if file.suffix in (".rt", ".antt")]
    return "\n".join(file.read_text() for file in files)


def unnamed(crates: dict):
    """The crates that a line names and the sources don't, or for a lemma alone."""
    for name, used in crates.items():
        shown, proofs = text_of(name, "src", "specs"), text_of(name, "proofs")
        names = {one: re.compile(rf"\b{one}::|\bRattle\.{one}\.") for one in used}
        for_lemmas = [one for one in used if not names[one].search(shown)]
        without = {**crates, name: [one for one in used if one not in for_lemmas]}
        for one in for_lemmas:
            if not names[one].search(proofs):
                yield f"{name} stands on {one} and doesn't name it"
            elif one in crates and not one.endswith("_laws") and one not in reached(name, without):
                yield f"{name} stands on {one} for a lemma alone"


def miscounted(crates: dict):
    """Where the table in docs/architecture.md says something else, or lacks a crate."""
    told = {name: int(count) for name, count in ROW.findall((ROOT / "docs/architecture.md").read_text())}
    for name, count in proved_anew(crates).items():
        if told.get(name) != count:
            yield f"docs/architecture.md: {name} has {told.get(name, 'no row')}, and {count} crates are proved anew when it changes"
    yield from (f"docs/architecture.md: there is no crate {name}" for name in told if name not in crates)


def modules(crates: dict):
    """Where the table of modules in docs/architecture.md lacks one, or has one that isn't there."""
    page = (ROOT / "docs/architecture.md").read_text()
    rows = page.partition("| crate | module | what it holds |")[2].partition("\n\n")[0].splitlines()
    told, names = {name: set() for name in crates}, []
    for row in rows[2:]:
        of, held = (cell.strip() for cell in row.split("|")[1:3])
        names = re.split(", ", of) if of else names
        for name in names:
            told.setdefault(name, set()).update(re.findall(r"`(\w+)`", held))
    for name, found in told.items():
        there = {file.stem for file in (ROOT / "crates" / name / "src").glob("*.rt")} - {"lib", "main"}
        yield from (f"docs/architecture.md: {name} has no row of its module {one}" for one in sorted(there - found))
        yield from (f"docs/architecture.md: {name} has no module {one}" for one in sorted(found - there))


def misnamed(crates: dict):
    """Where a page calls something `CRATE::NAME` that is no module of the crate and no item in it."""
    for page in [ROOT / "README.md", ROOT / "CONTRIBUTING.md", *sorted((ROOT / "docs").glob("*.md"))]:
        for crate, name in sorted(set(re.findall(r"`(\w+)::(\w+)`", page.read_text()))):
            if crate in crates and not (ROOT / "crates" / crate / "src" / f"{name}.rt").is_file() \
                    and not re.search(rf"\b(?:fn|struct|enum|trait|const|type) {name}\b", text_of(crate, "src")):
                yield f"{page.relative_to(ROOT)}: {crate} has no {name}"


def main() -> None:
    crates = listed()
    if sys.argv[1:] == ["--table"]:
        print("\n".join(f"{name} {count}" for name, count in proved_anew(crates).items()))
        return
    found = [*unnamed(crates), *miscounted(crates), *modules(crates), *misnamed(crates)]
    print("\n".join(found + [f"crates: {len(found)} differences"]))
    sys.exit(1 if found else 0)


main()
