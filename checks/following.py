"""The program while it follows a script that comes bit by bit: what it is sent, and what comes of it when."""
import os
import subprocess
import threading
import time
from pathlib import Path

from program import SECONDS, Check

READ = 1 << 16


def write_all(pipe: int, text: bytes) -> bool:
    """Whether all of this was written to a pipe, which may be read no more."""
    try:
        while text:
            text = text[os.write(pipe, text) :]
    except BrokenPipeError:
        return False
    return True


class Heard(threading.Thread):
    """All that comes out of a pipe, and when the last of it came."""

    def __init__(self, pipe, came: threading.Condition) -> None:
        super().__init__(daemon=True)
        self.pipe, self.came = pipe, came
        self.text, self.at = b"", 0.0
        self.start()

    def run(self) -> None:
        while piece := os.read(self.pipe.fileno(), READ):
            with self.came:
                self.text += piece
                self.at = time.monotonic()
                self.came.notify_all()

    def whole_lines(self) -> bytes:
        return self.text[: self.text.rfind(b"\n") + 1]


class Follower:
    """A run whose script is a pipe on its standard input, or a named one. It is killed where it takes too long."""

    def __init__(self, check: Check, words: list, fifo: str = "", **settings) -> None:
        settings = {"stdin": subprocess.DEVNULL if fifo else subprocess.PIPE, "stderr": subprocess.PIPE, **settings}
        if fifo:
            (check.folder / fifo).unlink(missing_ok=True)
            os.mkfifo(check.folder / fifo)
        self.process = subprocess.Popen([check.program, *words], cwd=check.folder, bufsize=0, stdout=subprocess.PIPE,
                                        **settings)
        self.watch = threading.Timer(SECONDS, self.process.kill)
        self.watch.daemon = True
        self.watch.start()
        self.came = threading.Condition()
        self.out = Heard(self.process.stdout, self.came)
        self.err = Heard(self.process.stderr, self.came) if self.process.stderr else None
        self.script = writer_of(check.folder / fifo, self.process) if fifo else self.process.stdin.fileno()

    def send(self, text: bytes) -> None:
        """Writes this to the script, unless it is read no more."""
        if self.script is not None:
            write_all(self.script, text)

    def wait_for(self, holds, seconds: float) -> bool:
        """Whether it holds of what came, or will within so many seconds."""
        with self.came:
            return self.came.wait_for(holds, seconds)

    def has_said(self, out: bytes, err: bytes, seconds: float) -> bool:
        """Whether just this has come, or will within so many seconds."""
        return self.wait_for(lambda: (self.out.text, self.err.text) == (out, err), seconds)

    def end(self) -> tuple[int, bytes, bytes]:
        """Ends the script. Its status, and all that came."""
        if self.process.stdin:
            self.process.stdin.close()
        elif self.script is not None:
            os.close(self.script)
        return self.ended()

    def ended(self) -> tuple[int, bytes, bytes]:
        """The same of one that ends by itself."""
        self.process.wait()
        self.watch.cancel()
        heard = [one for one in (self.out, self.err) if one]
        for one in heard:
            one.join()
            one.pipe.close()
        return self.process.returncode, self.out.text, self.err.text if self.err else b""


def writer_of(fifo: Path, process: subprocess.Popen):
    """The end of a named pipe that is written, once the other one is opened; none where the process ends before."""
    while process.poll() is None:
        try:
            writer = os.open(fifo, os.O_WRONLY | os.O_NONBLOCK)
            os.set_blocking(writer, True)
            return writer
        except OSError:
            time.sleep(0.001)
    return None


def resident(process: subprocess.Popen) -> float:
    """How much memory it has, in megabytes."""
    text = Path(f"/proc/{process.pid}/status").read_text()
    return int(text.partition("VmRSS:")[2].split()[0]) / 1_000
