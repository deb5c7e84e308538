"""What keeps words from being a command of the program."""
from __future__ import annotations

from typing import Iterator

import cedr_explain.advice as advice
from cedr_explain.commands import ALONE, COMMANDS, MOST, kinds_of

SAID_FOR_COMMANDS = {
    "help": "--help", "-h": "--help", "-help": "--help", "-?": "--help", "version": "--version", "-v": "--version",
    "-V": "--version", "exec": "run", "answer": "run", "execute": "run", "query": "run", "validate": "check",
    "test": "check", "lint": "check", "show": "history", "cat": "history", "watch": "stream", "tail": "follow",
    "listen": "follow", "serve": "follow", "daemon": "follow",
    "checkpoint": "save", "snapshot": "save", "store": "save", "restore": "resume", "continue": "resume", "load": "resume",
    "parallel": "parts", "cores": "parts", "part": "parts", "shards": "parts", "threads": "pool", "bench": "make",
}


def explained(words: list) -> Iterator[str]:
    """Sentences about words that match no command."""
    if not words:
        yield "No command was given."
    elif words[0] in COMMANDS:
        yield from of_command(words[0], words[1:])
    elif words[0] in ALONE:
        yield f"`{words[0]}` stands alone, without further words."
    else:
        yield from of_unknown(words)
    yield "`cedr --help` says what each command does."


def of_unknown(words: list) -> Iterator[str]:
    word = words[0]
    if word.endswith(".json"):
        yield (f"A command stands before the plan: `cedr run {word}` answers it, and `cedr check {word}` says whether "
               "it is right.")
    elif word.endswith((".csv", ".txt")):
        yield f"A command stands before the file: `cedr history {word}` says what it amounts to."
    elif not is_utf8(word):
        yield "The first word isn't UTF-8, so it is no command."
    else:
        meant = SAID_FOR_COMMANDS.get(word) or advice.near(word, COMMANDS)
        yield f"`{word}` is no command." + (f" Perhaps `{meant}` is meant." if meant else "")
    yield f"The commands are {', '.join([*COMMANDS, *ALONE])}."


def of_command(command: str, given: list) -> Iterator[str]:
    """What is wrong with the words behind a command."""
    kinds = kinds_of(command, len(given))
    form = " or ".join(f"`cedr {' '.join([command, *words])}`" for words in COMMANDS[command])
    if kinds is None:
        told = "no word" if not given else "one word" if len(given) == 1 else f"{len(given)} words"
        yield f"Behind `{command}` {'stands' if len(given) < 2 else 'stand'} {told}; it is called as {form}."
        options = [word for word in given if word.startswith("-") and word != "-"]
        if options:
            yield (f"`{options[0]}` would be an option, and the program has none but `--help` and `--version`, which "
                   "stand alone.")
        elif len(given) > max(map(len, COMMANDS[command])):
            yield "A name with a blank in it stands between quotes."
        return
    yield from (f"The word `{shown(word)}` isn't UTF-8." for word in given if not is_utf8(word))
    if "N" in kinds:
        number, most = given[kinds.index("N")], MOST[command]
        if not is_number(number, most):
            yield f"N is `{shown(number)}`. It must be a number from 1 to {most:,} in digits; the form is {form}."


def is_number(word: str, most: int) -> bool:
    return word.isascii() and word.isdigit() and len(word) <= len(str(most)) and 1 <= int(word) <= most


def is_utf8(word: str) -> bool:
    """Whether the system gave the word in UTF-8. Bytes that aren't stand in Python's words as lone surrogates."""
    return not any("\udc80" <= letter <= "\udcff" for letter in word)


def shown(word: str) -> str:
    return word.encode("utf-8", "surrogateescape").decode("utf-8", "replace")
