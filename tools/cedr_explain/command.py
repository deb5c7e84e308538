"""The tool's own command line: runs the program, hands on what it writes, and says what a refusal means."""
from __future__ import annotations

import os
import re
import shutil
import signal
import subprocess
import sys
import threading
import traceback
from pathlib import Path
from typing import Callable, Iterator

import cedr_explain.checkpoint as checkpoint
import cedr_explain.events as events
import cedr_explain.language as language
import cedr_explain.notes as notes
import cedr_explain.outside as outside
import cedr_explain.usage as usage
from cedr_explain.commands import Call
from cedr_explain.json_text import line_and_column
from cedr_explain.plan import Plan
from cedr_explain.progress import Progress, is_possible
from cedr_explain.values import Finding

HELP = """usage: cedr-explain [--progress[=SECONDS]] COMMAND WORD..

Runs `cedr COMMAND WORD..`, hands on all that it writes, and ends with its status. Where it
refuses, sentences follow its line on standard error: what was wrong, where it stands, and
what would be right. Where a plan is accepted, its members that say nothing are named.
Of a script that is followed the first 20 faulty lines are explained, each when it comes.

    cedr-explain check plan.json
    cedr-explain run plan.json > answer.csv
    cedr-explain --progress run plan.json > answer.csv

--progress[=SECONDS]  says on standard error, each second or every so many seconds, how far
                      the file of each source is read, and how much memory is taken. At a
                      terminal the line is written over the last one.
--help                prints this text. `cedr-explain --version` is the program's own.

The program is the one that the variable CEDR names, else the one that was built or installed
with this tool, else `cedr` on the path.

Exit status: that of the program; 128 + N where the signal N ended it; 127 where there is no
program; 126 where it can't be started; 2 where the tool's own options aren't right or its help
can't be written, with a text that begins with `cedr-explain:`.
"""
OPTION = re.compile(r"--progress(?:=([0-9]+(?:\.[0-9]+)?))?")
# Python's int takes no text of over 4,300 digits, and no number of the program has over 20.
NUMBER = rb"([0-9]{1,20})"
PLAN_FAULT = re.compile(rb"plan fault %b node %b" % (NUMBER, NUMBER))
# Two faults of a line carry times, which the sentences have from the file itself.
CARRIED = rb"(?: begin \S+ end \S+| sync \S+ mark \S+)?"
EVENTS_FAULT = re.compile(rb"events (.*) line %b fault %b" % (NUMBER, NUMBER) + CARRIED, re.DOTALL)
CHECKPOINT_FAULT = re.compile(rb"checkpoint line %b" % NUMBER)
# So many letters of a plan's line are shown before and behind the place of a fault.
SEEN_BEFORE, SEEN_BEHIND = 50, 50
# So many faulty lines of a script that is followed are explained.
MOST_FOLLOWED = 20
# Where standard error is closed there is nobody to tell, and the program is run all the same.
ERRORS = sys.stderr.buffer if sys.stderr else open(os.devnull, "wb")
HERE = Path(__file__).resolve().parent.parent
BUILT = [HERE.parent / "crates/cedr/out/cedr", HERE.parent.parent / "bin/cedr"]


def main(words: list) -> int:
    if words[:1] == ["--help"]:
        return show_help()
    option = OPTION.fullmatch(words[0]) if words else None
    seconds = float(option[1] or 1) if option else None
    if words and words[0].startswith("--progress") and not seconds:
        return own_fault(f"`{words[0]}` must be --progress or --progress=SECONDS, as in --progress=5", 2)
    if option and not is_possible():
        return own_fault("--progress needs Linux's /proc, which isn't here", 2)
    program = found_program()
    if not program:
        return own_fault(f"there is no program: neither {BUILT[0]} nor `cedr` on the path; CEDR can name it", 127)
    words = words[1:] if option else words
    call = Call(words)
    try:
        process = subprocess.Popen([program, *words], stderr=subprocess.PIPE)
    except OSError as error:
        return own_fault(f"{program} can't be started: {error.strerror}", 126)
    told = followed(process, call, seconds)
    status = process.returncode
    guarded(lambda: tell(sentences(words, call, status, told)))
    return status if status >= 0 else 128 - status


def show_help() -> int:
    if not sys.stdout:
        return own_fault("the help can't be written: standard output is closed", 2)
    try:
        os.write(sys.stdout.fileno(), HELP.encode())
    except OSError as error:
        return own_fault(f"the help can't be written: {error.strerror}", 2)
    return 0


def own_fault(text: str, status: int) -> int:
    tell([f"cedr-explain: {text}"], indent="")
    return status


def tell(lines, indent: str = "  ") -> None:
    """Writes these lines to standard error, as far as it takes them."""
    for line in lines:
        if not written(f"{indent}{line}\n".encode("utf-8", "surrogateescape")):
            return


def written(data: bytes) -> bool:
    """Whether standard error takes this. Where it doesn't, there is nobody to tell."""
    try:
        ERRORS.write(data)
        ERRORS.flush()
    except OSError:
        return False
    return True


def guarded(action: Callable):
    """What this answers. A mistake of the tool in it is said, and answers nothing: the program's status isn't lost."""
    try:
        return action()
    except Exception as error:
        place = traceback.extract_tb(error.__traceback__)[-1]
        why = " ".join(f"{type(error).__name__}: {error}".split()).encode("ascii", "backslashreplace").decode()
        where = f"{Path(place.filename).name}:{place.lineno}"
        tell([f"No more can be said, by a mistake of cedr-explain in {where}: {why}"])
        return None


def found_program() -> str:
    """The path of the program, or nothing."""
    named = os.environ.get("CEDR")
    if named:
        return shutil.which(named) or named
    return next((str(one) for one in BUILT if os.access(one, os.X_OK)), None) or shutil.which("cedr") or ""


def followed(process: subprocess.Popen, call: Call, seconds: float | None) -> bytes:
    """Waits for the program's end, and answers what it wrote to standard error, which is handed on as it comes."""
    told = []
    signal.signal(signal.SIGINT, signal.SIG_IGN)  # the terminal sends it to the program too, whose end is waited for
    signal.signal(signal.SIGTERM, lambda *_: process.terminate())
    progress = Progress(guarded(lambda: files_of(call)) or {}, ERRORS) if seconds else None
    follows = FollowedFaults(call) if call.follows() else None
    copier = threading.Thread(target=handed_on, args=(process.stderr, told, progress, follows))
    copier.start()
    while True:
        try:
            process.wait(seconds)
            break
        except subprocess.TimeoutExpired:
            # after a mistake nothing is told any more, and the end is waited for
            seconds = seconds if guarded(lambda: progress.tell(process.pid)) else None
    copier.join()
    if progress:
        progress.end()
    return b"".join(told)


def handed_on(stream, told: list, progress: Progress | None, follows: FollowedFaults | None) -> None:
    """Hands on what the program writes to standard error up to its end, and gathers it in `told`, but for the faults of a script that
    is followed. These are explained as they come."""
    while True:
        piece = os.read(stream.fileno(), 65_536)
        if not piece:
            return
        told.append(piece)
        if progress:
            progress.end()
        written(piece)
        if follows:
            told[:] = [follows.left_of(b"".join(told))]


class FollowedFaults:
    """The faulty lines of a script that is followed, each explained when it is told."""

    def __init__(self, call: Call, indent: str = "  ") -> None:
        self.call, self.plan, self.count, self.indent = call, guarded(lambda: read_plan(call)), 0, indent
        name = re.escape(os.fsencode(call.events()))
        self.form = re.compile(rb"events %b line %b fault %b%b\n" % (name, NUMBER, NUMBER, CARRIED))

    def left_of(self, told: bytes) -> bytes:
        """Explains the whole lines at the front, and answers what stands behind them."""
        while line := self.form.match(told):
            told = told[line.end():]
            guarded(lambda found=line[0]: tell(self.sentences(found.rstrip(b"\n")), self.indent))
        return told

    def sentences(self, line: bytes) -> Iterator[str]:
        """For each line that is shown the script is read once more, so that ends after some."""
        self.count += 1
        if self.count <= MOST_FOLLOWED:
            yield from of_events(self.call, self.plan, line)
        if self.count == MOST_FOLLOWED:
            yield f"These were {MOST_FOLLOWED} faulty lines. Further ones are told, and not explained."


def files_of(call: Call) -> dict:
    """The files whose reading is told, by the names of their sources."""
    plan = read_plan(call) if call.reads_sources() else None
    if plan:
        return {name: file for name, (file, _) in plan.sources().items()} if not plan.fault else {}
    return {name: name for name in (call.checkpoint(), call.events()) if name}


def read_plan(call: Call) -> Plan | None:
    data = call.plan_bytes()
    return None if data is None else Plan(data)


def sentences(words: list, call: Call, status: int, told: bytes) -> Iterator[str]:
    """What the program's status and its lines on standard error mean."""
    plan = read_plan(call)
    # the name of the file or of the script that was given may have a line break
    lines = [told.rstrip(b"\n")] if call.events() else told.split(b"\n")[:-1]
    if status < 0:
        yield from outside.killed(-status)
    elif status == 1:
        yield from usage.explained(words)
    elif status == 2:
        yield from of_plan(call, plan, lines[-1] if lines else b"")
    elif status == 3:
        for line in lines:
            yield from of_events(call, plan, line)
    elif status == 4:
        yield from outside.read_fault(call, plan)
    elif status == 5:
        yield from outside.write_fault()
    elif status == 6:
        yield from outside.out_of_memory()
    elif status == 7:
        yield from of_checkpoint(call, plan, lines[-1] if lines else b"")
    if plan and not plan.fault and status != 2:
        yield from (placed(call, plan, one, "note: ") for one in notes.of_plan(plan))


def placed(call: Call, plan: Plan, found: Finding, before: str = "") -> str:
    """A finding behind the file, the line and the column that it is about."""
    line, column = line_and_column(plan.text, found.place)
    return f"{call.plan()}:{line}:{column}: {before}{found.text}"


def of_plan(call: Call, plan: Plan | None, line: bytes) -> Iterator[str]:
    reported = PLAN_FAULT.fullmatch(line)
    # no plan has the fault -1, which stands for a line that isn't understood
    fault, node = (int(reported[1]), int(reported[2])) if reported else (-1, 0)
    found_node, findings = 0, []
    if plan:
        found_node, findings = notes.unsaved(plan) if fault == language.UNSAVED else (plan.node, plan.findings)
    if not findings or (min(one.fault for one in findings), found_node) != (fault, node):
        yield language.FAULTS.get(fault, "The plan has a fault that this tool knows nothing of.")
        if plan:
            yield "The plan that is there now hasn't this fault: it is another one than the program read."
        else:
            yield f"`{call.plan()}` is no file that can be read again, so no more can be said."
        return
    if node:
        yield f"Node {node} of {call.plan()} is {plan.label(node)}."
    for found in sorted(findings, key=lambda one: one.fault):
        yield placed(call, plan, found, "" if found.fault == fault else f"besides, as fault {found.fault}: ")
        if fault != language.TOO_LONG:
            yield from excerpt(plan.text, found.place)
    if node and fault == language.MISSING_PART and plan.has_operator(node):
        # a misspelt member may be the one that is missing
        yield from (placed(call, plan, one) for one in notes.of_members(plan, plan.nodes[node - 1], f"node {node}"))


def excerpt(text: str, place: int) -> Iterator[str]:
    """The line of the plan around a place, with a mark under it."""
    begin = text.rfind("\n", 0, place) + 1
    end = text.find("\n", place)
    end = len(text) if end < 0 else end
    first, last = max(begin, place - SEEN_BEFORE), min(end, place + SEEN_BEHIND)
    shown = "".join(one if one.isprintable() else " " for one in text[first:last])
    front = ".. " if first > begin else ""
    yield f"    {front}{shown}{' ..' if last < end else ''}"
    yield f"    {' ' * (len(front) + place - first)}^"


def of_events(call: Call, plan: Plan | None, line: bytes) -> Iterator[str]:
    """Sentences about the faulty line of one source."""
    reported = EVENTS_FAULT.fullmatch(line)
    if not reported:
        return
    name, number, fault = os.fsdecode(reported[1]), int(reported[2]), int(reported[3])
    place = place_of(call, plan, name)
    if place is None:
        yield f"{events.named(fault)} The plan can't be read again, so the file of `{name}` isn't known."
        return
    if place.source:
        yield f"`{place.file}` is the file of the source `{name}`."
    yield from events.explained(place, number, fault)


def of_checkpoint(call: Call, plan: Plan | None, line: bytes) -> Iterator[str]:
    """Sentences about the line at which the bytes aren't a checkpoint."""
    reported = CHECKPOINT_FAULT.fullmatch(line)
    if not reported:
        return
    if not plan or plan.fault:
        yield f"{checkpoint.BARE} The plan can't be read again, so no more can be said."
        return
    sources = {name: types for name, (_, types) in plan.sources().items()}
    yield from checkpoint.explained(call.checkpoint(), sources, int(reported[1]), call.events(), call.command)


def place_of(call: Call, plan: Plan | None, name: str) -> events.Place | None:
    """Where the line of a source, of the file of `history` or of the script is."""
    if call.command == "history":
        return events.Place(call.events())
    if not plan or plan.fault:
        return None
    sources = plan.sources()
    if call.has_script():
        return events.Place(call.events(), script={one: types for one, (_, types) in sources.items()},
                            checkpoint=call.checkpoint() or "", is_followed=call.follows())
    file, types = sources.get(name, (None, None))
    return None if file is None else events.Place(file, name, types)
