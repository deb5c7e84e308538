"""The workload of `make N`: its plan, the lines of its two sources and the summary of its answer."""
import re

import nodes
import reference

SIZE = re.compile("[0-9]{1,6}")
MOST = 100_000
PLAN = b"""{"version":1,"nodes":[
 {"name":"a","op":"source","file":"a","fields":["text","int"]},
 {"name":"b","op":"source","file":"b","fields":["text","int"]},
 {"name":"j","op":"join","from":["a","b"],"where":[[0,"=",{"column":2}]]},
 {"name":"g","op":"group","from":["j"],"keys":[0],"count":true,"sum":[1]},
 {"name":"out","op":"output","from":["g"]}]}"""


def is_size(word: str) -> bool:
    return SIZE.fullmatch(word) is not None and 1 <= int(word) <= MOST


def plan() -> list:
    return nodes.read_nodes(PLAN)


def mixed(number: int) -> int:
    return (number * 40_503 + 12_345) % 65_536 // 16


def text(size: int, source: int) -> bytes:
    """The event file of a source, which is 0 or 1."""
    lines = []
    for event in range(size):
        first = 8 * event + 4 * source
        begin = 10 * event + mixed(first) % 50
        length = 1 + mixed(first + 1) % 100
        key, value = mixed(first + 2) % 2, mixed(first + 3) % 1_000
        lines.append(f"+,{event},{begin},{begin + length},k{key},{value}\n")
        if event % 5 == 4:
            lines.append(f"-,{event},{begin + length // 2}\n")
        if event % 16 == 15:
            lines.append(f"=,{10 * (event + 1)}\n")
    return "".join(lines).encode()


def lines(size: int, source: int) -> list:
    """The messages of each of a source's lines."""
    answers, told = reference.judged(text(size, source), reference.Judge(["text", "int"]).take)
    if told:
        raise ValueError(told)
    return answers


def summary(rows: list) -> bytes:
    return f"rows {len(rows)} length {sum(row.end - row.begin for row in rows)}\n".encode()
