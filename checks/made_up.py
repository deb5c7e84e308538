#!/usr/bin/env python3
"""What only a closed edge or an ended worker makes can't be made by hand in another crate.

A crate that builds an `EdgeRecord` or a `Ran` from its fields must not compile, for each of the fields. A third one that only
reads them must, so that a compiler which refuses all finds no favour here. It copies the sources of the crates to a temporary
folder, and asks `rt try`, which proves nothing and takes some seconds each.
"""
import os
import re
import shutil
import subprocess
import sys
import tempfile

TOP = os.path.dirname(os.path.dirname(os.path.abspath(__file__)))

RECORD = """use cedr_edge::EdgeRecord;

pub fn made_up() -> EdgeRecord {
    EdgeRecord {
        pass: unreachable!(),
        count: 0,
    }
}
"""

RAN = """use cedr_worker::Ran;

pub fn made_up() -> Ran {
    Ran {
        number: 0,
        taken: 0,
        put: 0,
    }
}
"""

READ = """use cedr_edge::EdgeRecord;
use cedr_worker::Ran;

pub fn read(record: &EdgeRecord, ran: &Ran) -> u64 {
    record.count().max(ran.taken())
}
"""

TEST = """
#[cfg(test)]
mod tests {
    #[test]
    fn it_compiles() {}
}
"""


def copy_crates(to):
    for name in os.listdir(f"{TOP}/crates"):
        for part in ("src", "specs", "proofs"):
            if os.path.isdir(f"{TOP}/crates/{name}/{part}"):
                shutil.copytree(f"{TOP}/crates/{name}/{part}", f"{to}/crates/{name}/{part}")
    shutil.copy(f"{TOP}/HANDLES", to)


def tried(to, source):
    """Compiles a crate of this source beside the copies: its status, and what was said."""
    folder = f"{to}/crates/made_up"
    shutil.rmtree(folder, ignore_errors=True)
    os.makedirs(f"{folder}/src")
    with open(f"{folder}/src/lib.rt", "w", encoding="utf-8") as it:
        it.write("#![tactic(auto)]\n\n" + source + TEST)
    with open(f"{TOP}/crates.txt", encoding="utf-8") as it:
        crates = it.read()
    with open(f"{to}/crates.txt", "w", encoding="utf-8") as it:
        it.write(crates.rstrip("\n") + "\nmade_up: cedr_edge cedr_worker\n")
    ran = subprocess.run(["rt", "try", "--test"], cwd=folder, capture_output=True, text=True, errors="replace")
    return ran.returncode, ran.stdout + ran.stderr


def main():
    if not shutil.which("rt"):
        print("made_up: skipped: there is no rt")
        return 0
    wrong = 0
    with tempfile.TemporaryDirectory(prefix="cedr-made-up-") as to:
        copy_crates(to)
        for name, source, fields in (("EdgeRecord", RECORD, {"pass", "count"}), ("Ran", RAN, {"number", "taken", "put"})):
            status, said = tried(to, source)
            refused = set(re.findall(rf"error\[private-field\]: field `(\w+)` of struct `{name}` is private", said))
            if status == 0 or refused != fields:
                wrong += 1
                print(f"made_up: a {name} built by hand isn't refused for each of its fields: {sorted(refused)}\n{said[-2000:]}")
        status, said = tried(to, READ)
        if status:
            wrong += 1
            print(f"made_up: a crate that reads both doesn't compile\n{said[-2000:]}")
    print(f"made_up: 3 crates, {wrong} wrong")
    return 1 if wrong else 0


if __name__ == "__main__":
    sys.exit(main())
