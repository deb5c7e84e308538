"""A source that fails in the middle: a terminal that gives a program a line, and refuses one of its later reads.

A terminal refuses to be read from the background, where the signal that would stop the reader is ignored. As a script
this is the leader of a session with a terminal of its own, whose lines begin with FRONT: usage: terminal.py FRONT PROGRAM WORD..
"""
import ast
import fcntl
import os
import signal
import struct
import subprocess
import sys
import termios
import time
from pathlib import Path

SECONDS = 20
NO_TERMINAL = 3
NAME = "terminal.csv"
FIRST = b"+,1,1,2,a\n"
SECOND = b"+,2,1,2,b\n"


class NoTerminal(Exception):
    """The system has no terminal to make."""


def refused_read(program: Path, folder: Path, words: list, front: str = "") -> tuple[int, bytes, bytes]:
    """What the program answers for words that have it read the file NAME. Raises NoTerminal where there is none."""
    leader = subprocess.run([sys.executable, __file__, front, program, *words], cwd=folder, stdin=subprocess.DEVNULL,
                            stdout=subprocess.PIPE, start_new_session=True, timeout=4 * SECONDS, text=True)
    if leader.returncode == NO_TERMINAL:
        raise NoTerminal(leader.stdout.strip())
    return ast.literal_eval(leader.stdout)


def waiting_bytes(terminal: int) -> int:
    """How many bytes of whole lines the terminal has to give."""
    return struct.unpack("i", fcntl.ioctl(terminal, termios.FIONREAD, bytes(4)))[0]


def wait_until(holds) -> None:
    end = time.monotonic() + SECONDS
    while not holds() and time.monotonic() < end:
        time.sleep(0.002)


def answer_at(keyboard: int, terminal: int, front: bytes, command: list) -> tuple[int, bytes, bytes]:
    """Runs the command on the terminal, in the foreground until it has read the first line."""
    first, second = front + FIRST, front + SECOND

    def to_foreground() -> None:
        os.setpgid(0, 0)
        os.tcsetpgrp(terminal, os.getpid())

    os.write(keyboard, first)
    wait_until(lambda: waiting_bytes(terminal) == len(first))
    with subprocess.Popen(command, stdin=subprocess.DEVNULL, stdout=subprocess.PIPE, stderr=subprocess.PIPE,
                          preexec_fn=to_foreground) as reader:
        wait_until(lambda: waiting_bytes(terminal) == 0 or reader.poll() is not None)
        os.tcsetpgrp(terminal, os.getpgrp())
        # A read that waits already takes this line, and the one behind it is refused.
        os.write(keyboard, second)
        try:
            out, err = reader.communicate(timeout=SECONDS)
        except subprocess.TimeoutExpired:
            reader.kill()
            return -1, b"", b"no answer of the terminal's reader"
        return reader.returncode, out, err


def main() -> int:
    # What is done to the terminal from the background stops nobody. The program takes this over.
    for stopping in (signal.SIGTTIN, signal.SIGTTOU):
        signal.signal(stopping, signal.SIG_IGN)
    try:
        keyboard, terminal = os.openpty()
        fcntl.ioctl(terminal, termios.TIOCSCTTY, 0)
    except OSError as error:
        print(error)
        return NO_TERMINAL
    Path(NAME).unlink(missing_ok=True)
    Path(NAME).symlink_to(os.ttyname(terminal))
    print(repr(answer_at(keyboard, terminal, sys.argv[1].encode(), sys.argv[2:])))
    return 0


if __name__ == "__main__":
    sys.exit(main())
