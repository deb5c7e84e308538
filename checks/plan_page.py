"""The plans in docs/plans.md and examples/, with what the page says that comes."""
import json
import re
from pathlib import Path

from program import Case

BLOCKS = re.compile("```json\n(.*?)```\n(?:[^`]|`[^`]|``[^`])*?```text\n(.*?)```", re.DOTALL)
SOURCES = re.compile("```json\n((?:{[^\n]*},\n)+{[^\n]*})\n```")
EXAMPLE = re.compile(r"^### \[([^\]]*)\]\(\.\./([^)]*)\)\n.*?```text\n(.*?)```", re.DOTALL | re.MULTILINE)
CHANGE = re.compile(r"\| `([^|]*)` becomes `([^|]*)` \| `([^|]*)` \|\n")
WHOLE = re.compile(r"\| the plan `([^|]*)` \| `([^|]*)` \|\n")
ROW = re.compile(r"^\| (\d+) \w+ \|.*plan fault \1 node", re.MULTILINE)


class PageError(Exception):
    """The page isn't as this module reads it."""


def all_cases(root: Path):
    page = (root / "docs/plans.md").read_text()
    if [int(number) for number in ROW.findall(page)] != list(range(1, 15)):
        raise PageError("the table of faults doesn't show each of the fourteen")
    yield from plans_and_nodes(page)
    yield from changed_plans(page)
    yield from examples(root, page)


def told(name: str, data: bytes, text: str) -> Case:
    return Case(name, data, 2, b"", text.encode() + b"\n")


def plans_and_nodes(page: str):
    """The plan at the top, and each node of the part on operators in version 2, behind the sources that it names."""
    behind = json.loads("[" + SOURCES.search(page)[1] + "]")
    (whole, lines), *nodes = BLOCKS.findall(SOURCES.sub("", page))
    yield Case("the plan of the page", whole.encode(), 0, lines.encode(), b"")
    for text, line in nodes:
        node = json.loads(text)
        used = [one for one in behind if one["name"] in node.get("from", [])]
        last = [] if node["op"] == "output" else [{"name": "last", "op": "output", "from": [node["name"]]}]
        data = json.dumps({"version": 2, "nodes": used + [node] + last}).encode()
        types = line.removesuffix("\n").split(",")[2:]
        rows = [[one["name"], "source", *one["fields"]] for one in used] + [[node["name"], node["op"], *types]]
        rows += [["last", "output", *types] for _ in last]
        lines = "".join(",".join(row) + "\n" for row in rows)
        yield Case(f"the page's node {node['name']}", data, 0, lines.encode(), b"")


def changed_plans(page: str):
    whole = BLOCKS.search(page)[1]
    for old, new, text in CHANGE.findall(page):
        if whole.count(old) != 1:
            raise PageError(f"{old} doesn't stand once in the plan of the page")
        yield told(f"{old} becomes {new}", whole.replace(old, new).encode(), text)
    for data, text in WHOLE.findall(page):
        yield told(f"the page's plan {data}", data.encode(), text)


def examples(root: Path, page: str):
    shown = EXAMPLE.findall(page)
    there = [f"examples/{one.name}" for one in (root / "examples").glob("*.json")]
    if sorted(path for _, path, _ in shown) != sorted(there):
        raise PageError("the page doesn't show just the plans of examples/")
    for name, path, lines in shown:
        yield Case(f"the example {name}", (root / path).read_bytes(), 0, lines.encode(), b"")
