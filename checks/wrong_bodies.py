#!/usr/bin/env python3
"""The prover refuses each wrong body of checks/wrong/, where those of a crate are tried together.

`rt ci` tries the few edits of a crate's must-fail/ one after the other. The others stand in checks/wrong/CRATE/, in the same
form, and go into as few copies of the crate as hold them, each function wrong once in a copy. One check of a copy must then
name each wrong function as not proved, with an unproved goal of its own. What isn't named so goes into a further copy, since
goals may wait for the proof of another wrong function, and at last into one of its own. There any unproved goal counts, as
under `rt must-fail`, and so it does for what is wrong outside of functions, as a constant. In the end the crate must be
proved without an edit. All is done in temporary copies, over what earlier runs of `rt check` kept in out/.

usage: python3 checks/wrong_bodies.py [--gate] [CRATE ..]   with --gate also the edits in must-fail/; no CRATE: all
       python3 checks/wrong_bodies.py --list                proves nothing: each edit can be applied, and docs/wrong_bodies.md has each
"""
import argparse
import functools
import importlib.machinery
import importlib.util
import os
import re
import resource
import shutil
import sys
import tempfile
import time
from pathlib import Path

sys.dont_write_bytecode = True

from edits import changed, edits_of, function_at
from program import ROOT

JOBS = ["--jobs", "2"]
UNPROVED = re.compile(r"^fn (\S+): (?:no proof|not proved)(.*)", re.M)
IN_A_PROOF = re.compile(r"^(?:\./)?proofs/(\S+)/\w+\.antt:\d+:\d+: error: (.*)", re.M)
IN_A_TEXT = re.compile(r"^note: (?:\./)?(src/\S+?):(\d+):\d+: it is not proved", re.M)
CYCLE = re.compile(r"^ *#\[cycle\((\w+)\)\]\n(?: *#\[.*\]\n)* *(?:pub(?:\(\w+\))? )?fn (\w+)", re.M)
LACKS_A_NAME = re.compile("has no field|is not in scope|has no `|was not admitted")
ROW = re.compile(r"^\| [^|]+ \| `(\w+)` \| (gate|together) \|", re.M)


def load_kit():
    """The kit's command `rt` as a module. Each crate's sources are summed up once, and not once for each path to it."""
    loader = importlib.machinery.SourceFileLoader("rt", os.path.realpath(shutil.which("rt")))
    kit = importlib.util.module_from_spec(importlib.util.spec_from_loader("rt", loader))
    loader.exec_module(kit)
    kit.rtlib.Crate.stamp = functools.lru_cache(maxsize=None)(kit.rtlib.Crate.stamp)
    return kit


def used() -> float:
    """The processor seconds of all checks so far."""
    spent = resource.getrusage(resource.RUSAGE_CHILDREN)
    return spent.ru_utime + spent.ru_stime


def link(source: str, target: str) -> None:
    """Proved libraries are many and only read, so that a second name of the same file does."""
    try:
        os.link(source, target)
    except OSError:
        shutil.copy2(source, target)


def copy_crate(kit, name: str, to: str):
    """The crate in a copy of it and of those below, with their proved libraries and its own kept work."""
    crate = next(one for one in kit.rtlib.crates_below(str(ROOT)) if one.name == name)
    needed = [*crate.below(), crate]
    held = kit.rtlib.lock(needed)
    for one in needed:
        kept = "rlib" if one is not crate and one.is_built() else "incremental"
        for part in [*kit.rtlib.PARTS, f"out/{kept}"]:
            if os.path.isdir(f"{one.folder}/{part}"):
                copy = link if kept == "rlib" else shutil.copy2
                shutil.copytree(f"{one.folder}/{part}", f"{to}/crates/{one.name}/{part}", copy_function=copy)
    os.makedirs(f"{to}/crates/{name}/out/incremental", exist_ok=True)
    for one in held:
        os.close(one)
    lines = (ROOT / "crates.txt").read_text().splitlines()
    names = {one.name for one in needed}
    Path(to, "crates.txt").write_text("".join(f"{line}\n" for line in lines if re.split("[ :]", line)[0] in names))
    return next(one for one in kit.rtlib.crates_below(to) if one.name == name)


def put_together(kit, crate, edits: list, to: str):
    """Applies as many of the edits to the copy's files as change a function each: what each changes, and the files' texts."""
    for part in kit.rtlib.PARTS:
        if os.path.isdir(f"{crate.folder}/{part}"):
            shutil.copytree(f"{crate.folder}/{part}", f"{to}/{part}")
    together, all_texts = {}, {}
    for edit in edits:
        texts, functions, why = changed(kit, edit, to)
        if why or not functions or any(one in functions for others in together.values() for one in others):
            continue
        together[edit] = functions
        for path, text in texts.items():
            Path(to, path).write_text(text)
        all_texts.update(texts)
    return together, all_texts


def proved_in(folder: str, texts: dict) -> list:
    """The functions whose proof stands in a folder of proofs/: one, or those of a cycle of calls, whose folder has its name and a +."""
    *module, name = folder.split("/")
    if not name.startswith("+"):
        return ["::".join([*(part.lstrip("+") for part in module), name])]
    files = ["src/" + "/".join(module) + end for end in (".rt", "/mod.rt")] if module else ["src/lib.rt", "src/main.rt"]
    pairs = [pair for file in files if file in texts for pair in CYCLE.findall(texts[file])]
    return ["::".join([*module, function]) for cycle, function in pairs if cycle == name[1:]]


def judge(said: str, crate: str, texts: dict):
    """A test whether a check refuses a function of these texts, by where it begins and a pattern of its names. The check names it
    as not proved, and a goal of its own: one that a search didn't prove, an error in its own proof, or a note at a line of it."""
    unproved = dict(UNPROVED.findall(said))
    searched = {name for name, why in unproved.items() if "`search` did not prove" in why}
    folders = {path for path, why in IN_A_PROOF.findall(said) if not LACKS_A_NAME.search(why)}
    proofs = {f"{crate}::{name}" for path in folders for name in proved_in(path, texts)}
    lines = [(path, texts[path].split("\n"), int(line) - 1) for path, line in IN_A_TEXT.findall(said) if path in texts]
    noted = {(path, function[0]) for path, text, at in lines for function in [function_at(text, at)] if function}

    def is_refused(place, names: str) -> bool:
        found = {name for name in unproved if re.fullmatch(names, name)}
        return bool(found) and (place in noted or bool(found & (searched | proofs)))

    return is_refused


def refused_together(kit, crate, edits: list, kept: str):
    """Tries a copy of the crate with some of the edits: those that were tried, and those of them that the check refuses."""
    with tempfile.TemporaryDirectory(prefix="cedr-together-") as to:
        together, texts = put_together(kit, crate, edits, to)
    if not together:
        return [], []
    ran = kit.checked(crate, texts, JOBS, kept)
    is_read = not any(kit.unread(line, texts) for line in ran.stdout.split("\n")) and not kit.rtlib.STALE.search(ran.stdout)
    if ran.returncode != 1 or not is_read or "\nlogic=not-proved" not in ran.stdout:
        return list(together), []
    is_refused = judge(ran.stdout, crate.name, texts)
    return list(together), [edit for edit, functions in together.items() if any(is_refused(*one) for one in functions.items())]


def is_refused_alone(kit, came) -> bool:
    """Whether the kit says of an edit that it was refused: by a word of its own, or an older one by yes or no."""
    return came in [getattr(kit, word, True) for word in ("REFUSED", "AT_LIMIT")]


def tried(kit, crate, edits: list):
    """Tries all of a crate's edits: what is wrong with some, and how many copies it took."""
    kept, copies, left, alone, wrong = f"{crate.folder}/out/incremental", 0, edits, [], []
    while left:
        together, refused = refused_together(kit, crate, left, kept)
        copies += bool(together)
        if not refused:
            alone += together or left
        left = [edit for edit in left if edit not in refused and edit not in alone]
    for edit in alone:
        came, text = kit.must_fail(crate, str(edit), JOBS, kept)
        print(f"{crate.name}: {edit.stem} isn't seen among others, so it was tried alone: {text.partition(': ')[2]}", flush=True)
        wrong += [] if is_refused_alone(kit, came) else [edit]
    if kit.checked(crate, {}, JOBS, kept).returncode:
        print(f"{crate.name} isn't proved without an edit, so this says nothing of its edits")
        wrong = edits
    return wrong, copies, len(alone)


def try_crate(kit, name: str, with_gate: bool) -> int:
    """Tries the edits of a crate: how many aren't refused."""
    edits, begun, was_used = edits_of(name, with_gate), time.monotonic(), used()
    if not edits:
        return 0
    with tempfile.TemporaryDirectory(prefix="cedr-wrong-") as to:
        crate = copy_crate(kit, name, to)
        if any(one.build_rlib(JOBS, anew=False) for one in crate.below()):
            print(f"{name}: a library below isn't proved, so nothing was tried")
            return len(edits)
        wrong, copies, alone = tried(kit, crate, edits)
    if wrong:
        print(f"{name}: NOT REFUSED: {', '.join(edit.stem for edit in wrong)}")
    done = f"{len(edits) - len(wrong)} of {len(edits)} refused, {len(edits) - alone} in {copies} copies and {alone} alone"
    print(f"{name}: {done}; {round(time.monotonic() - begun)} s, {round(used() - was_used)} of processors", flush=True)
    return len(wrong)


def differences(kit):
    """What is wrong with the files, and with the page's list of them."""
    parts = re.split(r"^## (\w+)$", (ROOT / "docs/wrong_bodies.md").read_text(), flags=re.M)
    rows = [(crate, *row) for crate, text in zip(parts[1::2], parts[2::2]) for row in ROW.findall(text)]
    gate = [(edit.parent.parent.name, edit.stem, "gate") for edit in ROOT.glob("crates/*/must-fail/*.edit")]
    together = [(edit.parent.name, edit.stem, "together") for edit in ROOT.glob("checks/wrong/*/*.edit")]
    yield from (f"{crate}: {name} ({place}) isn't in the list" for crate, name, place in sorted({*gate, *together} - {*rows}))
    yield from (f"{crate}: {name} ({place}) is no file" for crate, name, place in sorted({*rows} - {*gate, *together}))
    yield from (f"{row[0]}: {row[1]} is listed twice" for row in sorted({row for row in rows if rows.count(row) > 1}))
    for crate in sorted({row[0] for row in [*gate, *together]}):
        for edit in edits_of(crate, True):
            why = kit.read_edit(edit, ROOT / "crates" / crate)[1]
            if why:
                yield f"{crate}: {edit.stem} can't be applied: {why}"


def main() -> int:
    parser = argparse.ArgumentParser(usage=__doc__.partition("usage: ")[2])
    parser.add_argument("--gate", action="store_true")
    parser.add_argument("--list", action="store_true")
    parser.add_argument("crates", nargs="*")
    words = parser.parse_args()
    for name in words.crates:
        if not edits_of(name, words.gate):
            parser.error(f"{name} has no wrong bodies")
    if not shutil.which("rt"):
        print("wrong_bodies: skipped: there is no rt")
        return 0
    kit = load_kit()
    if words.list:
        found = list(differences(kit))
        print("\n".join([*found, f"wrong_bodies: {len(found)} differences"]))
        return 1 if found else 0
    kit.rtlib.guarded()
    names = words.crates or [folder.name for folder in sorted(ROOT.glob("crates/*"))]
    wrong = sum(try_crate(kit, name, words.gate) for name in names)
    print(f"wrong_bodies: {wrong} not refused")
    return 1 if wrong else 0


if __name__ == "__main__":
    sys.exit(main())
