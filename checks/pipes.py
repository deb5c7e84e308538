"""Files that are pipes."""
import contextlib
import os
import subprocess
import threading
from pathlib import Path

from program import SECONDS, Check


def on_standard_input(check: Check, words: list, data: bytes) -> tuple[int, bytes, bytes]:
    """What the program answers where its standard input is a pipe of these bytes."""
    done = subprocess.run([check.program, *words], cwd=check.folder, input=data, capture_output=True, timeout=SECONDS)
    return done.returncode, done.stdout, done.stderr


@contextlib.contextmanager
def named(folder: Path, files: dict):
    """Named pipes of these bytes, each written by a thread of its own."""
    for name in files:
        (folder / name).unlink(missing_ok=True)
        os.mkfifo(folder / name)
    writers = [threading.Thread(target=pour, args=(folder / name, data), daemon=True) for name, data in files.items()]
    for writer in writers:
        writer.start()
    try:
        yield
    finally:
        for name in files:
            (folder / name).unlink()


def pour(pipe: Path, data: bytes) -> None:
    with open(pipe, "wb") as out:
        out.write(data)
