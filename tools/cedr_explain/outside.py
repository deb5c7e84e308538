"""What the system refused: files that can't be opened, output that isn't taken, memory that isn't given."""
from __future__ import annotations

import os
import resource
import signal
import stat
from typing import Iterator

import cedr_explain.advice as advice
from cedr_explain.commands import Call
from cedr_explain.plan import Plan

WORDS = {"PLAN": "plan", "FILE": "event file", "CHECKPOINT": "checkpoint", "SCRIPT": "script"}
LIMITS = {resource.RLIMIT_AS: "ulimit -v", resource.RLIMIT_DATA: "ulimit -d"}


def read_fault(call: Call, plan: Plan | None) -> Iterator[str]:
    """Which of the files that the command reads can't be opened, and why."""
    named = [(WORDS.get(kind, kind), name, False) for kind, name in call.words.items() if kind != "N"]
    # a plan that has a fault is another one than the program read
    is_known = plan and not plan.fault and call.reads_sources()
    sources = {name: file for name, (file, _) in plan.sources().items()} if is_known else {}
    named += [(f"file of the source `{source}`", file, True) for source, file in sources.items()]
    found = 0
    for what, name, is_source in named:
        why = why_not(name)
        if why:
            found += 1
            yield f"The {what}, `{name}`, can't be read: {why}.{advice_for(name, call, is_source)}"
    if not found:
        names = ", ".join(name for _, name, _ in named)
        yield f"Each file can be opened now: {names}. A read of one was refused, or it is there only since then."
    if sources and found and not os.path.isabs(call.plan() or ""):
        yield f"The files of a plan's sources are found from where the program is called, which is {os.getcwd()}."


def why_not(name: str) -> str:
    """Why a file can't be opened for reading, or nothing. A pipe isn't opened, which would wait for its writer."""
    if not name:
        return "it has no name"
    try:
        mode = os.stat(name).st_mode
        if stat.S_ISDIR(mode):
            return "it is a folder"
        if not os.access(name, os.R_OK):
            return "this user may not read it"
        if stat.S_ISREG(mode):
            with open(name, "rb") as file:
                file.read(1)
    except FileNotFoundError:
        return "there is no such file"
    except NotADirectoryError:
        return "a part of its path is no folder"
    except OSError as error:
        return str(error.strerror)
    except ValueError:
        return "its name has a byte 0"
    return ""


def advice_for(name: str, call: Call, is_source: bool) -> str:
    """What is likely meant by the name of a file that can't be read."""
    if name == "-":
        return " Standard input has no short name: write /dev/stdin."
    if name.startswith(("http://", "https://", "s3://", "ftp://")):
        return " The program reads files alone: fetch it first, or hand it on by a pipe."
    if name.startswith("file://"):
        return " Write the path alone, without `file://`."
    if name.startswith("~"):
        return " Nobody replaces `~` here: write the whole path."
    if any(sign in name for sign in "*?") and is_source:
        return " Nobody replaces `*` and `?` in a plan: a source has one file, and a `union` reads up to four sources."
    folder = os.path.dirname(call.plan() or "")
    if is_source and folder and not os.path.isabs(name) and os.path.isfile(os.path.join(folder, name)):
        return f" It stands beside the plan, in {folder}: call the program there."
    try:
        near = advice.near(os.path.basename(name), os.listdir(os.path.dirname(name) or "."))
    except (OSError, ValueError):
        return ""
    meant = os.path.join(os.path.dirname(name), near)
    return f" Perhaps `{meant}` is meant." if near and meant != name else ""


def write_fault() -> Iterator[str]:
    """What standard output is that took no more. The tool's own is that of the program."""
    try:
        mode = os.fstat(1).st_mode
    except OSError:
        yield "Standard output is closed."
        return
    if stat.S_ISFIFO(mode) or stat.S_ISSOCK(mode):
        yield "Standard output is a pipe, and whoever read it has ended."
    elif stat.S_ISREG(mode):
        disk = os.fstatvfs(1)
        free = f"{disk.f_bavail * disk.f_frsize:,} bytes"
        yield f"Standard output is a file, which takes no more: its disk has {free} left for this user."
        limit = resource.getrlimit(resource.RLIMIT_FSIZE)[0]
        if limit != resource.RLIM_INFINITY:
            yield f"A file may have {limit:,} bytes here (ulimit -f)."
    else:
        yield "The device that standard output is takes no more."
    yield "The first part of the lines may have been written."


def out_of_memory() -> Iterator[str]:
    """How much memory the program had, and what it may take."""
    most = resource.getrusage(resource.RUSAGE_CHILDREN).ru_maxrss
    yield f"The system gave no more memory. The program had {most / 1000:,.0f} MB at most."
    for limit, command in LIMITS.items():
        allowed = resource.getrlimit(limit)[0]
        if allowed != resource.RLIM_INFINITY:
            yield f"It may have {allowed / 1_000_000:,.0f} MB here ({command})."
    yield ("Guarantees in the files let it keep less, and so do a `select`, a `project` or a `window` near the "
           'sources: docs/operators.md says in "What is kept" what each operator keeps.')


def killed(number: int) -> Iterator[str]:
    """The program was ended from outside."""
    yield f"The program was ended by the signal {number}, {signal.strsignal(number) or 'which has no name'}."
    if number == signal.SIGPIPE:
        yield "Standard output is a pipe, and whoever read it has ended."
    if number == signal.SIGKILL:
        yield "The system does so where memory runs out."
        yield next(out_of_memory())
