"""The program's answer to a plan in words: its rows as a CSV with a header, and its refusals at their places in the words."""
from __future__ import annotations

import csv
import io
import os
import subprocess
import tempfile
import threading
from typing import Iterator, NamedTuple

import cedr_explain.command as explained
import cedr_explain.language as language
import cedr_explain.outside as outside
import cedr_explain.usage as usage
from cedr_explain.commands import COMMANDS, Call, kinds_of
from cedr_explain.plan import Plan as Document
from cedr_plan.plan import Plan
from cedr_plan.refused import (BAD_CHECKPOINT, BAD_EVENTS, BAD_PLAN, DONE, NO_MEMORY, NO_PROGRAM, UNREAD, UNSTARTED,
                               UNWRITTEN, USAGE, Failed, placed)

# What the commands write that answer a plan: rows, changes of rows, or something that is handed on as it is.
FRONT = {"run": ("begin", "end"), "pool": ("begin", "end"), "parts": ("begin", "end"), "serial": ("begin", "end"),
         "audit": ("begin", "end"), "live": ("begin", "end"), "resume": ("begin", "end"),
         "stream": ("change", "new_end", "begin", "end"), "follow": ("change", "new_end", "begin", "end"), "save": ()}
FORGOTTEN = b"--"
SHOWN = b". "
PROMISE = b"=,"


class Asked(NamedTuple):
    """A plan, the text that it is from with its name, and the words behind the file."""
    plan: Plan
    name: str
    text: str
    words: list

    def command(self) -> str:
        return self.words[0] if self.words else "run"

    def call(self, document: str) -> list:
        """The words for the program, with the document in the place of the plan."""
        given = list(self.words[1:])
        kinds = kinds_of(self.command(), len(given) + 1)
        if self.command() not in FRONT or kinds is None:
            forms = ", ".join(" ".join([one, *(kind for kind in words if kind != "PLAN")]) for one in FRONT for words in COMMANDS[one])
            raise Failed(USAGE, f"cedr-plan: `{' '.join(self.words)}` is no command that answers a plan. They are {forms}.")
        return [self.command(), *(document if kind == "PLAN" else given.pop(0) for kind in kinds)]


def answer(asked: Asked) -> int:
    """Runs the program and hands on its answer. Answers its status."""
    return with_program(asked, asked.call("")[0], Rows(asked).write)


def with_program(asked: Asked, command: str, write) -> int:
    """Runs a command of the program over the document. `write` takes each line of what it writes, and nothing at its end."""
    program = explained.found_program()
    if not program:
        raise Failed(NO_PROGRAM, f"cedr-plan: there is no program: neither {explained.BUILT[0]} nor `cedr` on the path; CEDR can name it")
    with tempfile.TemporaryDirectory(prefix="cedr-plan-") as folder:
        document = os.path.join(folder, "plan.json")
        with open(document, "w", encoding="utf-8") as file:
            file.write(asked.plan.text())
        words = ["check", document] if command == "check" else asked.call(document)
        try:
            process = subprocess.Popen([program, *words], stdout=subprocess.PIPE, stderr=subprocess.PIPE)
        except OSError as error:
            raise Failed(UNSTARTED, f"cedr-plan: {program} can't be started: {error.strerror}") from None
        call = Call(words)
        told = handed_on(process, write, Faults(call) if call.follows() else None)
        return status_of(asked, words, process.returncode, told)


class Faults(explained.FollowedFaults):
    """The faulty lines of a script that is followed. One that isn't explained any more is told as the program does."""

    def __init__(self, call: Call) -> None:
        super().__init__(call, "")

    def sentences(self, line: bytes) -> Iterator[str]:
        yield from super().sentences(line)
        if self.count > explained.MOST_FOLLOWED:
            yield os.fsdecode(line)


def handed_on(process: subprocess.Popen, write, follows: Faults | None) -> list:
    """Hands on each line of standard output as it comes, and answers the lines of standard error, but for those faults that are
    explained as they come."""
    told = []
    reader = threading.Thread(target=lambda: told.extend(gathered(process.stderr.fileno(), follows)))
    reader.start()
    try:
        for line in process.stdout:
            write(line.removesuffix(b"\n"))
    except Failed:
        process.kill()
        raise
    finally:
        process.stdout.close()
        process.wait()
        reader.join()
    if process.returncode in (DONE, BAD_EVENTS if follows else DONE):
        write(None)
    return told


def gathered(stream: int, follows: Faults | None) -> list:
    told = b""
    while piece := os.read(stream, 65_536):
        told = follows.left_of(told + piece) if follows else told + piece
    return told.split(b"\n")[:-1]


def status_of(asked: Asked, words: list, status: int, told: list) -> int:
    """The status of the program, whose refusal is told in sentences."""
    lines = list(refusal(asked, words, status, told)) if status else []
    if lines:
        raise Failed(status if status > 0 else 128 - status, *lines)
    # of a script that is followed each faulty line was told when it came
    return status if status == BAD_EVENTS else DONE


def put(data: bytes) -> None:
    """Writes to standard output, past the buffers."""
    try:
        while data:
            data = data[os.write(1, data):]
    except OSError as error:
        raise Failed(UNWRITTEN, f"cedr-plan: standard output takes no more: {error.strerror}") from None


class Rows:
    """Writes rows behind a header, which comes with the first of them or at the end of an answer without rows."""

    def __init__(self, asked: Asked) -> None:
        self.calendar, self.front = asked.plan.calendar, FRONT.get(asked.command(), ())
        names = [".".join(one.name) for one in asked.plan.output_columns()]
        self.header = csv_line([*self.front, *names]) if self.front else b""
        self.width = len(self.front) + len(names)
        self.is_list = False

    def write(self, line: bytes | None) -> None:
        written = b"" if line is None else self.converted(line) + b"\n"
        put(self.header + written)
        self.header = b""

    def converted(self, line: bytes) -> bytes:
        """A line with its times as dates, where the plan says what they are. What is listed as forgotten stays as it is."""
        self.is_list = self.is_list or line == FORGOTTEN
        if self.is_list or not self.front:
            return line
        if line.startswith(SHOWN):
            return SHOWN + self.date(line[len(SHOWN):])
        if line.startswith(PROMISE):
            return b"=,," + self.date(line[len(PROMISE):]) + b"," * (self.width - len(b"=,,"))
        if line.startswith(b"+,"):
            line = b"+,," + line[2:]
        *times, rest = line.split(b",", len(self.front))if line.count(b",") >= len(self.front) else [*line.split(b","), None]
        dated = [self.date(one) for one in times]
        return b",".join([*dated, *([rest] if rest is not None else [])])

    def date(self, time: bytes) -> bytes:
        return self.calendar.date(time.decode()).encode() if self.calendar and time.isdigit() else time


def csv_line(fields: list) -> bytes:
    line = io.StringIO()
    csv.writer(line, lineterminator="\n").writerow(fields)
    return line.getvalue().encode()


def checked(asked: Asked) -> int:
    """Asks the program for each node's types, and writes them behind the names of the columns."""
    def write(line: bytes | None) -> None:
        if line is not None:
            name, op, *types = line.decode().split(",")
            names = [column.name for column in asked.plan.columns[name]]
            put(csv_line([name, op, *(f"{'.'.join(own)} {kind}" for own, kind in zip(names, types))]))

    return with_program(asked, "check", write)


# refusals


def refusal(asked: Asked, words: list, status: int, told: list) -> Iterator[str]:
    """What a status of the program and its lines mean, at their places in the words."""
    document, call = Document(asked.plan.text().encode()), Call(words)
    if status == USAGE:
        yield from (f"cedr-plan: {one}" for one in usage.explained(words))
    elif status == BAD_PLAN:
        yield from of_node(asked, told)
    elif status == BAD_EVENTS:
        for line in told:
            yield from of_events(asked, call, document, line)
    elif status == UNREAD:
        yield from of_files(asked, call)
    elif status == UNWRITTEN:
        yield from outside.write_fault()
    elif status == NO_MEMORY:
        yield from outside.out_of_memory()
    elif status == BAD_CHECKPOINT:
        yield from explained.of_checkpoint(call, document, told[-1] if told else b"")
    elif status < 0:
        yield from outside.killed(-status)
    else:
        yield f"cedr-plan: the program ended with the status {status}: {b' '.join(told).decode('utf-8', 'replace')}"


def of_node(asked: Asked, told: list) -> Iterator[str]:
    reported = explained.PLAN_FAULT.fullmatch(told[-1] if told else b"")
    fault, node = (int(reported[1]), int(reported[2])) if reported else (-1, 0)
    place = asked.plan.places[node - 1] if node else 0
    why = language.FAULTS.get(fault, "The plan has a fault that this tool knows nothing of.")
    of_whom = f"the node `{asked.plan.document['nodes'][node - 1]['name']}`" if node else "the plan"
    yield from placed(asked.name, asked.text, place, f"The program refuses {of_whom} with fault {fault}. {why}")


def of_events(asked: Asked, call: Call, document: Document, line: bytes) -> Iterator[str]:
    """A faulty line of an event file, at the source that reads it, and in its file."""
    reported = explained.EVENTS_FAULT.fullmatch(line)
    source = os.fsdecode(reported[1]) if reported else ""
    if source in asked.plan.files and not call.has_script():
        place = explained.place_of(call, document, source)
        yield from placed(asked.name, asked.text, asked.plan.files[source],
                          f"Line {int(reported[2])} of {place.file}, the file of `{source}`, has a fault.")
        yield from explained.events.explained(place, int(reported[2]), int(reported[3]))
    else:
        yield from explained.of_events(call, document, line)


def of_files(asked: Asked, call: Call) -> Iterator[str]:
    """Each file that can't be read: a source's at its place in the words."""
    found = False
    for node in asked.plan.document["nodes"] if call.reads_sources() else []:
        why = outside.why_not(node["file"]) if node["op"] == "source" else ""
        if why:
            found = True
            yield from placed(asked.name, asked.text, asked.plan.files[node["name"]],
                              f"The file of `{node['name']}`, `{node['file']}`, can't be read: {why}."
                              f"{outside.advice_for(node['file'], call, True)} It is looked for from where the tool is called, {os.getcwd()}.")
    for kind in ("CHECKPOINT", "SCRIPT"):
        name = call.words.get(kind)
        why = outside.why_not(name) if name is not None else ""
        if why:
            found = True
            yield f"{name}: The {outside.WORDS[kind]} can't be read: {why}.{outside.advice_for(name, call, False)}"
    if not found:
        yield f"{asked.name}: A read of a file was refused, or it is there only since then."
