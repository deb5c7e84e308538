#!/usr/bin/env python3
"""Holds the Makefile to the README, and uses what `make install` puts under a prefix, away from the repository.

`make build` is the command of the README, `make test` the gate, and `make` alone says what there is. The installed
program answers, the installed tools find it and their modules, the man page is found and shown by `man` where that is
there, both completions are the repository's, and `make uninstall` takes all of it away.

Status 0: all right. 1: something differs. 2: the program isn't there.

usage: checks/installed.py
"""
import os
import re
import shutil
import subprocess
import sys
import tempfile
from pathlib import Path

sys.dont_write_bytecode = True

from program import ROOT, built_program

BUILD = re.compile(r"^\(cd (\S+) && (rt run [^)]*)\)$", re.MULTILINE)
# What stands under share/, by where it is in the repository.
SHARED = [("completion/cedr.bash", "bash-completion/completions/cedr-explain"),
          ("completion/cedr.bash", "bash-completion/completions/cedr-plan"),
          ("completion/_cedr", "zsh/site-functions/_cedr"), ("docs/guide.md", "doc/cedr/docs/guide.md")]
KEYS = ROOT / "crates/cedr_keys/out/cedr_keys"
PLAN = b'{"version":1,"nodes":[{"name":"s","op":"source","file":"s.csv","fields":["text"]}]}'


class Prefix:
    """A prefix, and what is run of it in a folder of its own, with no other program on the path than the system's."""

    def __init__(self, top: Path) -> None:
        self.top, self.path = top, top / "to/usr"
        self.differ = []
        (top / "work").mkdir()
        (top / "work/plan.json").write_bytes(PLAN)

    def make(self, *words: str) -> str:
        settings = {name: value for name, value in os.environ.items() if not name.startswith("MAKE")}
        done = subprocess.run(["make", "-s", "-C", ROOT, *words], env=settings, capture_output=True, text=True,
                              check=False)
        return done.stdout + done.stderr if not done.returncode else f"status {done.returncode}: {done.stderr}"

    def call(self, *words: str) -> tuple:
        settings = {"PATH": f"{self.path}/bin:/usr/bin:/bin", "HOME": str(self.top), "LANG": "C.UTF-8",
                    "MANWIDTH": "80"}
        try:
            done = subprocess.run(words, cwd=self.top / "work", env=settings, capture_output=True, text=True,
                                  check=False)
        except OSError as error:
            return 127, "", str(error)
        return done.returncode, done.stdout, done.stderr

    def expect(self, holds: bool, name: str, came: object) -> None:
        if not holds:
            self.differ.append(f"{name}: {came}")


def check_makefile(prefix: Prefix) -> None:
    folder, command = BUILD.search((ROOT / "README.md").read_text()).groups()
    told = prefix.make("-n", "build")
    prefix.expect(told == f"cd {folder} && {command}\n", "make build isn't the README's command", told)
    told = prefix.make("-n")
    prefix.expect("rt " not in told, "make alone proves", told)
    told = prefix.make("-n", "test")
    prefix.expect(told == ".ci/run\n", "make test isn't the gate", told)


def check_installed(prefix: Prefix) -> int:
    """Uses each thing that was installed, and answers how many files these are."""
    told = prefix.make("install", "PREFIX=/usr", f"DESTDIR={prefix.top}/to")
    prefix.expect(told == "", "make install", told)
    version = prefix.call("cedr", "--version")
    prefix.expect(version[0] == 0 and version[1].startswith("cedr "), "cedr --version", version)
    if os.access(KEYS, os.X_OK):
        keys = prefix.call("cedr_keys")
        prefix.expect(keys == (1, "", "usage: cedr_keys PLAN\n"), "cedr_keys", keys)
    for tool in sorted(one.name for one in (ROOT / "tools").glob("cedr-*")):
        came = prefix.call(tool, "--help")
        prefix.expect(came[0] == 0 and tool in came[1] and not came[2], f"{tool} --help", came)
    came = prefix.call("cedr-explain", "check", "plan.json")
    is_said = came[2].startswith("plan fault 13 node 0\n  plan.json:1:22: No node is the output")
    prefix.expect(came[0] == 2 and is_said, "cedr-explain", came)
    came = prefix.call("cedr-plan", "words", "plan.json")
    is_said = came[2].startswith("plan.json:1:22: No node is the output")
    prefix.expect(came[0] == 2 and is_said, "cedr-plan", came)
    came = prefix.call("cedr-plan", "ask", str(ROOT / "examples/monday/failed.words"))
    is_said = came[2].startswith(f"{ROOT}/examples/monday/failed.words:2:20: The file of `installs`") or "python3-lark" in came[2]
    prefix.expect(came[0] in (4, 127) and is_said, "cedr-plan over files that aren't there", came)
    for file, place in SHARED:
        there = prefix.path / "share" / place
        is_same = there.is_file() and there.read_bytes() == (ROOT / file).read_bytes()
        prefix.expect(is_same, place, "it isn't there, or another file")
    if shutil.which("man"):
        shown = re.sub("\x1b\\[[0-9;]*m|.\b", "", prefix.call("man", "-M", f"{prefix.path}/share/man", "cedr")[1])
        prefix.expect("cedr - answers a plan" in shown and "cedr pool N PLAN" in shown, "man cedr", shown[:500])
    else:
        print("installed: the look at the man page is skipped: there is no man (Debian: apt-get install man-db)")
    return sum(one.is_file() for one in prefix.path.rglob("*"))


def main() -> int:
    if not shutil.which("make"):
        print("installed: skipped, there is no make (Debian: apt-get install make)")
        return 0
    built_program()
    with tempfile.TemporaryDirectory(prefix="cedr-check-") as folder:
        prefix = Prefix(Path(folder))
        check_makefile(prefix)
        count = check_installed(prefix)
        told = prefix.make("uninstall", "PREFIX=/usr", f"DESTDIR={folder}/to")
        left = [str(one) for one in prefix.path.rglob("*") if not one.is_dir()]
        prefix.expect(not told and not left, "make uninstall", (told, left[:5]))
    print("\n".join([*prefix.differ, f"installed: {count} files, by the Makefile: {len(prefix.differ)} differences"]))
    return 1 if prefix.differ else 0


if __name__ == "__main__":
    sys.exit(main())
