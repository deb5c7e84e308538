"""The built program: what it answers, and what of it differs from what must come."""
import resource
import signal
import subprocess
import sys
import tempfile
from pathlib import Path
from typing import NamedTuple

SHOWN = 5
SECONDS = 60
USAGE = (b"usage: cedr history FILE | check PLAN | serial PLAN | run PLAN | stream PLAN | audit PLAN | "
         b"live PLAN SCRIPT | make N | pool N PLAN | parts N PLAN | save PLAN SCRIPT | resume PLAN CHECKPOINT SCRIPT | "
         b"follow PLAN SCRIPT | follow PLAN CHECKPOINT SCRIPT\n")


ROOT = Path(__file__).resolve().parent.parent


def built_program(name: str = "cedr", words: str = " -- --version") -> Path:
    """The program that the command line names, or the built one of this name. Ends with 2 where it isn't there."""
    program = Path(sys.argv[1] if len(sys.argv) > 1 else ROOT / f"crates/{name}/out/{name}").resolve()
    if not program.is_file():
        print(f"{program} isn't there; it is built by: (cd crates/{name} && rt run{words})", file=sys.stderr)
        sys.exit(2)
    return program


class Case(NamedTuple):
    """A file, and the status and what comes of it."""
    name: str
    data: bytes
    status: int
    out: bytes
    err: bytes


class Check:
    """The program, a folder to run it in, and how many answers were other than they must be."""

    def __init__(self, program: Path, folder: Path, suffix: str) -> None:
        self.program = program
        self.folder = folder
        self.suffix = suffix
        self.differences = 0
        self.kept = None

    def run(self, words: list, out=subprocess.PIPE, set_up=None) -> tuple[int, bytes, bytes]:
        """What it answers for these words. `set_up` is called in its process before it starts."""
        command = [self.program, *words]
        try:
            done = subprocess.run(command, cwd=self.folder, stdout=out, stderr=subprocess.PIPE, timeout=SECONDS,
                                  preexec_fn=set_up)
        except subprocess.TimeoutExpired:
            return -1, b"", f"no answer within {SECONDS} s".encode()
        return done.returncode, done.stdout or b"", done.stderr

    def write(self, name: str, data: bytes) -> None:
        (self.folder / name).write_bytes(data)

    def compare(self, name: str, data, expected: tuple, came: tuple) -> None:
        """Counts a difference, and shows it and keeps what it came of where it is among the first."""
        if expected == came:
            return
        self.differences += 1
        if self.differences > SHOWN:
            return
        self.kept = self.kept or Path(tempfile.mkdtemp(prefix="cedr-differences-"))
        place = self.kept / str(self.differences)
        print(f"DIFFERENCE {self.differences}: {name}; {self.keep(data, place)}", flush=True)
        for title, answer in (("expected", expected), ("came", came)):
            place.with_suffix(f".{title}").write_bytes(answer[1])
            print(f"  {title}: status {answer[0]}, err {shown(answer[2])}, out {shown(answer[1])}")

    def keep(self, data: bytes, place: Path) -> str:
        place.with_suffix(self.suffix).write_bytes(data)
        return f"the file is {place}{self.suffix}"


def limit_files(size: int) -> None:
    """From now on a write over this size of a file takes what fits, and is refused where nothing does."""
    signal.signal(signal.SIGXFSZ, signal.SIG_IGN)
    resource.setrlimit(resource.RLIMIT_FSIZE, (size, size))


def shown(text: bytes) -> str:
    return repr(text) if len(text) <= 2_000 else f"{text[:500]!r} and on, {len(text)} bytes, kept beside the file"


def check_cases(check: Check, table, reference, program) -> int:
    """Compares each case with what the reference and the program answer, and answers how many cases there are."""
    count = 0
    for case in table:
        expected = case.status, case.out, case.err
        check.compare(f"{case.name}, by the reference", case.data, expected, reference(case.data))
        check.compare(case.name, case.data, expected, program(check, case.data))
        count += 1
    return count
