#!/usr/bin/env python3
"""Runs a program once, and writes its seconds of wall and of processor time and its peak of memory in MB.

It is a process of its own because the peak of a process is at least that of the one that starts it. Its status is the program's.

usage: once.py OUT PROGRAM [WORD..]   what the program writes goes into the file OUT
"""
import os
import subprocess
import sys
import time


def main() -> int:
    out, *words = sys.argv[1:]
    with open(out, "wb") as written:
        begin = time.monotonic()
        process = subprocess.Popen(words, stdout=written)
        _, status, used = os.wait4(process.pid, 0)
        wall = time.monotonic() - begin
    print(wall, used.ru_utime + used.ru_stime, used.ru_maxrss / 1_000)
    return os.waitstatus_to_exitcode(status)


if __name__ == "__main__":
    sys.exit(main())
