#!/usr/bin/env python3
"""Shows that follow.py can fail, and that it doesn't where nothing is wrong. It looks at follow_stand_in.py, a program that
follows a script by a run of the reference. Where that is wrong in one way it must find a difference, and in the other runs that
the definitions allow none. The memory of a long script isn't looked at here. Status 1 where that isn't so.

usage: checks/wrong_follows.py
"""
import os
import sys
import tempfile
from concurrent.futures import ProcessPoolExecutor
from pathlib import Path

sys.dont_write_bytecode = True

import follow
import follow_outside
import program
from networks import NetworkCheck

STAND_IN = program.ROOT / "checks/follow_stand_in.py"
SCRIPTS, LINE_BY_LINE, CUTS = range(1, 10), range(1), range(4)
# A run that waits for a pipe which nobody writes is given up after so long.
SECONDS = 20

WRONG = [
    "faulty lines aren't told", "the first faulty line ends it", "faulty lines leave the status 0", "nothing is forgotten",
    "some lines are dropped", "all is written at the end", "an answer waits for the next line", "no guarantee is written",
    "the front jumps over what is held", "the script's end is that of the sources", "the rows of the checkpoint are written",
    "what is over in a checkpoint stays known", "the last line is lost", "a line that is too long is kept",
    "the rest of a line that is too long is a line", "the script is asked for first",
    "a reader that goes isn't noticed", "a closed standard error ends it",
]
LAWFUL = ["the network settles once for a piece", "it reads in small pieces", "nodes take in any order"]


class Found(Exception):
    """The name of the case that shows a difference."""


class StandIn(NetworkCheck):
    """Stops at the first difference."""

    def compare(self, name: str, data, expected: tuple, came: tuple) -> None:
        if expected != came:
            raise Found(name)


def first_difference(way: str) -> str:
    os.environ["CEDR_WAY"], program.SECONDS = way, SECONDS
    with tempfile.TemporaryDirectory(prefix="cedr-check-") as folder:
        check = StandIn(STAND_IN, Path(folder), "")
        try:
            follow.check_scripts(check, SCRIPTS)
            follow.check_cuts(check, CUTS)
            follow_outside.check_outside(check)
            follow.check_line_by_line(check, LINE_BY_LINE)
            follow_outside.check_slow(check)
        except Found as found:
            return str(found)
    return ""


def main() -> int:
    ways = [*LAWFUL, *WRONG]
    with ProcessPoolExecutor() as pool:
        found = dict(zip(ways, pool.map(first_difference, ways)))
    missed = [way for way, name in found.items() if bool(name) == (way in LAWFUL)]
    for way in missed:
        print(f"{way}: {found[way] or 'no difference'}")
    print(f"wrong follows: {len(WRONG)} wrong and {len(LAWFUL)} lawful ones, {len(missed)} not seen as such")
    return 1 if missed else 0


if __name__ == "__main__":
    sys.exit(main())
