"""The tables and paragraphs of docs/ that the man page, the completion and the checks of tools/ take."""
import re
from typing import NamedTuple

from program import ROOT

CELL = re.compile(r"(?<!\\)\|")
CODE = re.compile("`([^`]*)`")
LINK = re.compile(r"\[([^\]]*)\]\([^)]*\)")
TABLE = re.compile(r"(?:^\|.*\n)+", re.MULTILINE)
FENCE = re.compile(r"^```.*?^```\n", re.MULTILINE | re.DOTALL)
RANGE = re.compile(r"N from 1 to ([\d,]+)")


class Command(NamedTuple):
    """A command, the words behind it (PLAN, SCRIPT, FILE, N), and what docs/program.md says of it."""
    name: str
    words: tuple
    text: str

    def most(self) -> int:
        """The greatest N of its words."""
        return int(RANGE.search(self.text)[1].replace(",", ""))


def section(page: str, heading: str) -> str:
    """What stands in a page between this heading and the next one of its rank or a higher one."""
    text = (ROOT / page).read_text()
    _, found, behind = f"\n{text}".partition(f"\n{heading}\n")
    if not found:
        raise ValueError(f"{page} has no heading {heading}")
    rank = len(heading) - len(heading.lstrip("#"))
    unlike_headings = FENCE.sub(lambda one: one[0].replace("\n#", "\n\\#"), behind)
    return re.split(rf"^#{{1,{rank}}} ", unlike_headings, maxsplit=1, flags=re.MULTILINE)[0]


def table(page: str, heading: str, number: int = 1) -> list:
    """The rows of the table of this number in a section, without its head: a list of cells each."""
    found = TABLE.findall(section(page, heading))
    if len(found) < number:
        raise ValueError(f"{page} has no table {number} behind {heading}")
    rows = found[number - 1].splitlines()[2:]
    return [[cell.strip().replace("\\|", "|") for cell in CELL.split(row)[1:-1]] for row in rows]


def paragraphs(page: str, heading: str) -> list:
    """The paragraphs of a section before its next heading of any rank, without tables and what stands between fences.

    An item of a list is one that begins with a hyphen and a space.
    """
    text = re.split(r"^#", FENCE.sub("\n", section(page, heading)), maxsplit=1, flags=re.MULTILINE)[0]
    blocks = [block.strip() for block in re.split(r"\n\s*\n|\n(?=- )", TABLE.sub("\n", text))]
    return [" ".join(block.split()) for block in blocks if block]


def commands() -> list:
    """The commands in the order of the table. Where a row has several, semicolons part what it says of each."""
    found = []
    for names, text in table("docs/program.md", "## Commands"):
        calls = CODE.findall(names)
        texts = text.split("; ") if len(calls) > 1 else [text]
        for call, own in zip(calls, texts):
            _, name, *words = call.split()
            found.append(Command(name, tuple(words), own))
    return found
