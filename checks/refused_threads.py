#!/usr/bin/env python3
"""`cedr run`, `cedr pool` and `cedr parts` give the same bytes where all of their threads are refused, where some are, and where
none is, and the changes of `cedr stream` lead to them.

Each thread asks for 8 MiB of addresses, and a plan's run for one thread a node, a pool for as many as it has, and parts for one
less than there are of them. The limit on addresses that the program is run under leaves room for none, for some, or for all of the
seven threads of `examples/failed_restarts.json`, whose rows are those that README.md shows. Each limit leaves some 4 MB beside the
threads: where they leave next to nothing, memory may run out, as the program then says.
"""
import os
import resource
import subprocess
import sys

sys.dont_write_bytecode = True

from answer_lines import Unlawful, lines_of
from answer_reference import led_to
from messages import in_order
from network_texts import rows_text

TOP = os.path.dirname(os.path.dirname(os.path.abspath(__file__)))
PROGRAM = os.path.join(TOP, "crates", "cedr", "out", "cedr")
ROWS = b"30300,30301,oven-1\n42300,42301,belt-1\n68300,68301,press-1\n"
# kilobytes of addresses: no thread, one, two, three, and so on; and no limit
LIMITS = [8_000, 16_000, 24_000, 32_000, 40_000, 48_000, 56_000, 64_000, None]
TIMES = 20


def run(limit, *words):
    """The status and what the program wrote under this limit."""

    def under():
        if limit is not None:
            resource.setrlimit(resource.RLIMIT_AS, (limit * 1024, limit * 1024))

    words = [PROGRAM, *words, "failed_restarts.json"]
    ran = subprocess.run(words, cwd=os.path.join(TOP, "examples"), capture_output=True, timeout=60, preexec_fn=under)
    return ran.returncode, ran.stdout, ran.stderr


def leads_to_rows(changes):
    """Whether these changes may come one behind the other, and add up to the rows."""
    try:
        return rows_text(in_order(led_to(lines_of(changes), ["text"]))) == ROWS
    except Unlawful:
        return False


def main():
    wrong = 0
    for limit in LIMITS:
        for _ in range(TIMES):
            for words in ("run",), ("pool", "4"), ("parts", "4"):
                told = run(limit, *words)
                if told != (0, ROWS, b""):
                    wrong += 1
                    print(f"refused_threads: {words[0]} under {limit} kilobytes of addresses: {told}")
            streamed = run(limit, "stream")
            if streamed[0] or streamed[2] or not leads_to_rows(streamed[1]):
                wrong += 1
                print(f"refused_threads: stream under {limit} kilobytes of addresses: {streamed}")
    print(f"refused_threads: {len(LIMITS)} limits, each {TIMES} times by run, pool, parts and stream: {wrong} wrong")
    return 1 if wrong else 0


if __name__ == "__main__":
    sys.exit(main())
