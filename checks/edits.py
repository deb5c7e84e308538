"""The edits that make wrong bodies, and which functions each of them changes."""
import re
from pathlib import Path

from program import ROOT

FUNCTION = re.compile(r"( *)(?:pub(?:\(\w+\))? )?(?:final )?(?:const )?fn (\w+)")
BLOCK = re.compile(r"(?:pub )?(?:impl|trait)\b")
OF_A_TYPE = re.compile(r"impl(?:<.*?>)? (?:(\w+)(?:<.*>)? for )?(\w+)")


def edits_of(name: str, with_gate: bool) -> list:
    folders = [ROOT / "checks/wrong" / name] + [ROOT / "crates" / name / "must-fail"] * with_gate
    return [edit for folder in folders for edit in sorted(folder.glob("*.edit"))]


def function_at(lines: list, at: int):
    """The line at which the function begins that a line stands in, and how a check's names of it begin and end, if one does."""
    for begin in range(at, -1, -1):
        head = FUNCTION.match(lines[begin])
        if head:
            end = next((line for line in range(begin, len(lines)) if lines[line] == head[1] + "}"), begin)
            return (begin, block_at(lines, begin) if head[1] else "", head[2]) if at <= end else None
    return None


def block_at(lines: list, at: int) -> str:
    """What the names of a block's functions begin with, as a pattern: the type, and the trait if it is one's."""
    begin = next(line for line in range(at, -1, -1) if BLOCK.match(lines[line]))
    head = " ".join(line.strip() for line in lines[begin:at]).partition("{")[0]
    found = OF_A_TYPE.match(head)
    if not found:
        return re.search(r"trait (\w+)", head)[1] + "::"
    return rf"(?:{found[2]}|Any){found[1]}\w*::" if found[1] else f"{found[2]}::"


def changed(kit, edit: Path, folder: str):
    """The edited files' texts, and for each function that they change a pattern of the names that a check has for it and its
    closures; no function where something else changes too. Or else why the edit can't be applied."""
    texts, why = kit.read_edit(edit, folder)
    functions = {}
    for path, text in (texts or {}).items():
        was, lines = Path(folder, path).read_text().split("\n"), text.split("\n")
        parts = [part for part in Path(path).with_suffix("").parts[1:] if part not in ("lib", "main", "mod")]
        for at in (at for at, line in enumerate(lines) if line != was[at]):
            function = function_at(was, at)
            if not function:
                return texts, {}, None
            begin, block, name = function
            # a method's names have the module of its type, wherever its block stands
            module = r"(?:\w+::)*" if block else "".join(f"{part}::" for part in parts)
            functions[path, begin] = rf"\w+::{module}(?:{block}{name}|fn::{block}{name}::\S+)"
    return texts, functions, why
