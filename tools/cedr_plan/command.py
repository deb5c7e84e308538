"""The command line of `cedr-plan`."""
from __future__ import annotations

import os
import traceback
from pathlib import Path

from cedr_explain.command import tell
from cedr_explain.plan import Plan as Document
from cedr_plan import ask, plan, words
from cedr_plan.refused import (BAD_PLAN, DONE, NO_MEMORY, NO_PROGRAM, UNSTARTED, USAGE, Failed, Refused, all_placed)
from cedr_plan.text import read_bytes, read_text, shown_name

USAGE_LINE = "usage: cedr-plan compile FILE | words PLAN | check FILE | ask FILE [COMMAND WORD..]"
HELP = f"""{USAGE_LINE}

A plan in words is a text with a line for each node, whose columns have names and whose
spans have units. docs/words.md has the language; EVENT begins a pattern.

    cedr-plan compile failed.words > failed.json
    cedr-plan words failed.json
    cedr-plan check failed.words
    cedr-plan ask failed.words
    cedr-plan ask failed.words pool 4

compile FILE  writes the document, as `cedr` takes it
words PLAN    writes a document as words, with names of columns that it makes up
check FILE    asks the program for the types of each node, and writes them behind the names
              of its columns
ask FILE [COMMAND WORD..]
              runs the program and writes its answer as a CSV with a header; times are dates
              where the text has a `unit` and an `epoch`. COMMAND is `run`, or one of pool N,
              parts N, serial, audit, stream, live SCRIPT, save SCRIPT, resume CHECKPOINT
              SCRIPT, follow SCRIPT and follow CHECKPOINT SCRIPT
--help        prints this text

FILE is `-` for standard input. The words are read by lark: apt-get install
python3-lark. The program is the one that the variable CEDR names, else the one that was built
or installed with this tool, else `cedr` on the path. What is refused is told on standard
error with its file, line and column, and nothing is written then, but by stream, live,
resume and follow, which write as they go.

Exit status: that of the program (2: the text or the document is refused; 3: a line of an
event file has a fault; 4: a file can't be read; 5: a write was refused; 1: the words match no
command); 127 where there is no program, or lark isn't there; 126 where it can't be started.
"""
OTHER_PYTHON = "/usr/bin/python3"
TRIED = "CEDR_PLAN_TRIED"
TOOL = Path(__file__).resolve().parent.parent / "cedr-plan"


def main(given: list) -> int:
    try:
        return carried_out(given)
    except Failed as failed:
        tell(failed.lines, "")
        return failed.status
    except KeyboardInterrupt:
        return 130
    except MemoryError:
        tell(["cedr-plan: the system gave no more memory"], "")
        return NO_MEMORY
    except Exception as error:
        place = traceback.extract_tb(error.__traceback__)[-1]
        why = " ".join(f"{type(error).__name__}: {error}".split()).encode("ascii", "backslashreplace").decode()[:300]
        tell([f"cedr-plan: no more can be said, by a mistake of its own in {Path(place.filename).name}:{place.lineno}: {why}"], "")
        return UNSTARTED


def carried_out(given: list) -> int:
    if given == ["--help"]:
        ask.put(HELP.encode())
        return DONE
    command, *rest = given or [""]
    if command not in ("compile", "words", "check", "ask") or not rest or command != "ask" and len(rest) != 1:
        raise Failed(USAGE, USAGE_LINE)
    if command == "words":
        ask.put(words_of(rest[0]).encode())
        return DONE
    find_lark(given)
    asked = asked_of(rest[0], rest[1:])
    if command == "compile":
        ask.put(asked.plan.text().encode())
        return DONE
    return ask.checked(asked) if command == "check" else ask.answer(asked)


def find_lark(given: list) -> None:
    """Sees that the library of the grammar is there. Debian's package is for Debian's Python, which may be another one."""
    try:
        import lark  # noqa: F401
    except ImportError:
        if not os.environ.get(TRIED) and os.access(OTHER_PYTHON, os.X_OK):
            os.execve(OTHER_PYTHON, [OTHER_PYTHON, str(TOOL), *given], {**os.environ, TRIED: "1"})
        raise Failed(NO_PROGRAM, "cedr-plan: lark isn't there, which reads the words: apt-get install python3-lark") from None


def asked_of(name: str, rest: list) -> ask.Asked:
    text = read_text(name)
    try:
        return ask.Asked(plan.compiled(text), shown_name(name), text, rest)
    except plan.Found as found:
        raise Failed(BAD_PLAN, *all_placed(shown_name(name), text, found.faults)) from None


def words_of(name: str) -> str:
    """The words of a document. One with a fault is refused in the sentences of `cedr-explain`."""
    document = Document(read_bytes(name))
    if document.fault:
        faults = [Refused(one.place, one.text) for one in document.findings]
        raise Failed(BAD_PLAN, *all_placed(shown_name(name), document.text, faults))
    return words.words_of(document)
