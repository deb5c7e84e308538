"""What a command line and its files ask for, or with which status and text they are refused."""
import re
from typing import NamedTuple

import checkpoint_reference
import made
import nodes
import plan_reference
import reference
from messages import Add, Mark
from program import USAGE

READ_FAULT = b"read fault\n"
EMPTY = object()
ON_SOURCES = ("serial", "run", "audit", "stream")
ON_THREADS = ("run", "stream")
ON_SCRIPTS = ("live", "save", "resume", "follow")
OPERANDS = {"live": (2,), "save": (2,), "resume": (3,), "follow": (2, 3), **dict.fromkeys(ON_SOURCES, (1,))}
FEW = re.compile("[0-9]{1,2}")
MOST = 16


class Asked(NamedTuple):
    """The status and standard error, and where the plan is accepted its nodes and what is fed to them.

    What is fed is for each source the list of its lines, each as the list of its messages; an empty line isn't in it.
    For `live` it is the list of the script's steps, each `?` or a source with the messages of its line. For `save` nothing is fed,
    and the text is the checkpoint. For `follow` it is the steps of the good lines, and `before` those of its checkpoint.
    """

    command: str
    status: int
    err: bytes
    plan: list = []
    fed: list = []
    text: bytes = b""
    before: list = []


def is_few(word: str) -> bool:
    """Whether it is a number of threads, or of parts."""
    return FEW.fullmatch(word) is not None and 1 <= int(word) <= MOST


def read(words: list, find) -> Asked:
    """What these words ask for. `find` answers the bytes of a file, or none where it can't be read. A pool is asked what `run`
    is, parts what `serial` is, and a script that goes on from a checkpoint what `live` is, behind the messages of the states."""
    command, *operands = words or [""]
    if command == "pool" and len(operands) == 2 and is_few(operands[0]):
        return read(["run", operands[1]], find)
    if command == "parts" and len(operands) == 2 and is_few(operands[0]):
        return read(["serial", operands[1]], find)
    if command == "make" and len(operands) == 1 and made.is_size(operands[0]):
        return Asked(command, 0, b"", made.plan(), [made.lines(int(operands[0]), source) for source in (0, 1)])
    if len(operands) not in OPERANDS.get(command, ()):
        return Asked(command, 1, USAGE)
    data = find(operands[0])
    if data is None:
        return Asked(command, 4, READ_FAULT)
    status, _, err = plan_reference.check(data)
    if status:
        return Asked(command, status, err)
    plan = nodes.read_nodes(data)
    if command not in ON_SCRIPTS:
        return read_sources(command, plan, find)
    unsaved = 0 if command == "live" else checkpoint_reference.first_unsaved(plan)
    if unsaved:
        return Asked(command, 2, f"plan fault 15 node {unsaved}\n".encode())
    return READERS[command](plan, *operands[1:], find)


def sources_of(plan: list) -> list:
    return [node for node in plan if node.op == "source"]


def read_sources(command: str, plan: list, find) -> Asked:
    sources = sources_of(plan)
    contents = [find(node.members["file"]) for node in sources]
    judged = [reference.judged(data or b"", source_line(node.types)) for node, data in zip(sources, contents)]
    err = "".join(f"events {node.name} {told}\n" for node, (_, told) in zip(sources, judged) if told).encode()
    status, err = (4, READ_FAULT) if None in contents else (3 if err else 0, err)
    return Asked(command, status, err, plan, [[one for one in answers if one is not EMPTY] for answers, _ in judged])


def source_line(types: list):
    """What a line of a source with these types is judged by."""
    judge = reference.Judge(types)
    return lambda line: judge.take(line) if reference.without_return(line) else EMPTY


def read_live(plan: list, name: str, find) -> Asked:
    return read_script(plan, name, find, new_judges(plan))


def read_script(plan: list, name: str, find, judges: list) -> Asked:
    """A script whose lines are judged by these judges of the sources."""
    data = find(name)
    if data is None:
        return Asked("live", 4, READ_FAULT, plan)
    steps, told = reference.judged(data, script_line(plan, judges))
    steps = [step for step in steps if step]
    return Asked("live", 3 if told else 0, f"events {name} {told}\n".encode() if told else b"", plan, steps)


def read_saved(plan: list, name: str, find) -> Asked:
    """The checkpoint to which a script comes."""
    judges = new_judges(plan)
    read_so = read_script(plan, name, find, judges)
    text = b"" if read_so.status else checkpoint_reference.text(checkpoint_reference.sources_of(plan), judges)
    return Asked("save", read_so.status, read_so.err, plan, [], text)


def read_resumed(plan: list, checkpoint: str, name: str, find) -> Asked:
    """A script behind what the states of a checkpoint are fed as."""
    data = find(checkpoint)
    if data is None:
        return Asked("resume", 4, READ_FAULT)
    line, judges = checkpoint_reference.read(checkpoint_reference.sources_of(plan), data)
    if line is not None:
        return Asked("resume", 7, f"checkpoint line {line}\n".encode())
    before = [(place, restored(judge)) for place, judge in enumerate(judges)]
    read_so = read_script(plan, name, find, judges)
    return read_so._replace(fed=before + read_so.fed)


def read_followed(plan: list, *names) -> Asked:
    """A script of any length, perhaps behind a checkpoint. Each faulty line is told, and changes nothing."""
    *checkpoints, name, find = names
    data = find(checkpoints[0]) if checkpoints else checkpoint_reference.text(checkpoint_reference.sources_of(plan), new_judges(plan))
    if data is None:
        return Asked("follow", 4, READ_FAULT)
    line, judges = checkpoint_reference.read(checkpoint_reference.sources_of(plan), data)
    if line is not None:
        return Asked("follow", 7, f"checkpoint line {line}\n".encode())
    data = find(name)
    if data is None:
        return Asked("follow", 4, READ_FAULT)
    before = [(place, restored(judge)) for place, judge in enumerate(judges)]
    steps, told = reference.followed(data, script_line(plan, list(map(reference.OpenJudge.behind, judges))))
    err = "".join(f"events {name} {one}\n" for one in told).encode()
    return Asked("follow", 3 if told else 0, err, plan, [step for step in steps if step not in ("", "?")], before=before)


def restored(judge: reference.Judge) -> list:
    """The messages that lead to the state of a judge."""
    return [Add(row) for row in judge.rows_left()] + ([Mark(judge.mark)] if judge.mark else [])


def new_judges(plan: list) -> list:
    return [reference.Judge(node.types) for node in sources_of(plan)]


def script_line(plan: list, judges: list):
    """What a script's line is judged by, with these judges of the sources."""
    by_name = {node.name.encode(): (place, judge) for place, (node, judge) in enumerate(zip(sources_of(plan), judges))}
    return lambda line: script_step(line, by_name)


def script_step(line: bytes, judges: dict):
    """A source and the messages of its line, or `?`, or none for an empty line. Raises the line's fault."""
    line = reference.without_return(line)
    if line in (b"", b"?"):
        return line.decode()
    name, _, event = line.partition(reference.COMMA)
    if name not in judges or not event:
        raise reference.Fault(2)
    source, judge = judges[name]
    return source, judge.take_event(event)


READERS = {"live": read_live, "save": read_saved, "resume": read_resumed, "follow": read_followed}
