"""The commands in README.md and docs/ with what these say that they write, over the files of examples/, and the lines in
docs/faults.md with how these are refused. What the pages show of files and plans is held to examples/ besides."""
import json
import re
from itertools import zip_longest
from pathlib import Path

import network_texts
import picture
import reference
from network_cases import NetworkCase
from program import Case

# What stands in a pipe is run by from_csv.py.
SHOWN = re.compile(r"```sh\n(?:\(cd crates[^\n]*\n)?\(cd (\S+) && \S*/cedr ([^|\n]*)\)\n```\n\n```text\n(.*?)```", re.DOTALL)
CALL = re.compile(r"^(?:\(cd \S+ && )?\S*/cedr [^|\n]*$", re.MULTILINE)
TABLE_ROW = re.compile(r"^\| (\d+|the end) \|(.*)\|$", re.MULTILINE)
TEXT = re.compile("`([^`]*)`")
NODE = re.compile(r"```json\n([^`]*)```\n\n```sh\n[^`]*/cedr run ([^\n]*)\)\n")
SHOWN_FILE = re.compile(r"`(\w+\.txt)`:\n\n```text\n(.*?)```", re.DOTALL)
FILE = re.compile(r"## A file\n.*?```text\n(.*?)```", re.DOTALL)
SIDE_BY_SIDE = re.compile(r"```text\n((?:\S+\.csv *)+)\n(.*?)```", re.DOTALL)
PLAN = re.compile(r"`(\S+\.json)`:\n\n```json\n(.*?)```", re.DOTALL)
AFTER = re.compile(r"refused as it says, (after the two lines [^:]*):")
FAULT = re.compile(r"^\| (\d), [^|]*\| `([^`]*)`(?: and ([\d,]*) letters)? \| `([^`]*)` \|$", re.MULTILINE)
TYPED = re.compile(r"With the plan\n\n```json\n(.*?)```\n\n`run` refuses the line `(.*?)` of `e.csv` as `(.*?)`", re.DOTALL)
UNSAVED = re.compile(r"```json\n([^`]*)```\n\n`save`, `resume` and `follow` end with `(.*?)`")
FOLLOWED = re.compile(r"With the plan\n\n```json\n([^`]*)```\n\nthe script `(.*?)`\n\n```text\n(.*?)```\n\ngives the changes\n\n"
                      r"```text\n(.*?)```[^`]*```text\n(.*?)```", re.DOTALL)
OVER = re.compile(r"after the lines ((?:`[^`]*`,? *(?:and )?\n?(?:and )?)+), of which the last one makes both events be over:")
OVER_ROW = re.compile(r"^\| `([^`]*)` \| (?:`(line [^`]*)`|accepted) \| (?:`(line [^`]*)`|accepted) \|$", re.MULTILINE)
CHECKPOINT = re.compile(r"this is a checkpoint:\n\n```text\n(.*?)```", re.DOTALL)
SPOILT = re.compile(r"^\| [^|]* \| `([^`]*)` becomes (?:`([^`]*)`|nothing) \| `(checkpoint line \d+)` \|$", re.MULTILINE)
LARGE = re.compile(r"A file of ([\d,]*) lines of `=,` and ([\d,]*) zeros, and a letter more, is refused as `(.*?)`")
LINK = re.compile(r"\]\(([^)#]*)(?:#([^)]*))?\)")
HEADING = re.compile(r"^#+ (.*)$", re.MULTILINE)
UNSAVED_WORDS = [["save", "plan.json", "x.txt"], ["resume", "plan.json", "c.txt", "x.txt"], ["follow", "plan.json", "x.txt"],
                 ["follow", "plan.json", "c.txt", "x.txt"]]
LEVELS = ["strong.json", "middle.json", "weak.json"]


class PageError(Exception):
    """The page isn't as this module reads it."""


def of_plans(root: Path):
    """The commands that answer a plan."""
    yield from (case for case in all_cases(root) if case.words[0] != "history")


def of_history(root: Path):
    """What `history` says of one file."""
    for case in all_cases(root):
        if case.words[0] == "history":
            yield Case(case.name, case.files[case.words[1]], case.status, case.out, case.err)


def all_cases(root: Path):
    names = ["README.md", "CONTRIBUTING.md", "checks/README.md", "bench/README.md", *(f"docs/{one.name}" for one in sorted((root / "docs").glob("*.md")))]
    for name in names:
        check_links(root, name)
        yield from shown_cases(root, name)
    check_levels(root)
    check_guide(root)
    check_front(root)
    check_side_by_side((root / "docs/plans.md").read_text(), root / "examples", 4)
    if picture.PICTURE.read_text() != picture.drawn():
        raise PageError("docs/picture.svg isn't what checks/picture.py draws")
    yield from faults((root / "docs/faults.md").read_text())


def shown_cases(root: Path, name: str):
    """What stands under each command of the page; docs/plans.md is the page of checks/plans.py."""
    page = (root / name).read_text()
    found = SHOWN.findall(page)
    if name != "docs/plans.md" and len(found) != len(CALL.findall(page)):
        raise PageError(f"{name} has a command that this module doesn't find")
    for folder, words, out in found:
        yield shown_case(root / folder, words.split(), out, name)


def shown_case(folder: Path, words: list, out: str, name: str) -> NetworkCase:
    """The case of a command in a folder. A file that lies elsewhere is put beside the others."""
    files = {one.name: one.read_bytes() for one in folder.iterdir() if one.is_file()}
    for word in words:
        if "/" in word:
            files[Path(word).name] = (folder / word).read_bytes()
    beside = [Path(word).name for word in words]
    return NetworkCase(f"{' '.join(words)}, as {name} shows it", files, beside, 0, out.encode(), b"")


def faults(page: str):
    """Each line of the table, after the lines that the page names, and the two faults that the text shows."""
    before = "".join(text + "\n" for text in TEXT.findall(AFTER.search(page)[1]))
    found = FAULT.findall(page)
    if [number for number, *_ in found] != list("12346789"):
        raise PageError("the table of lines doesn't have eight faults")
    for number, line, letters, told in found:
        data = before + line + "x" * number_of(letters or "0") + "\n"
        yield refused(number, {"e.csv": data.encode()}, ["history", "e.csv"], told)
    plan, line, told = TYPED.search(page).groups()
    yield refused("5", {"plan.json": plan.encode(), "e.csv": line.encode()}, ["run", "plan.json"], told)
    yield from checkpoint_faults(page, {"plan.json": plan.encode()})
    yield from followed_faults(page)
    lines, zeros, told = LARGE.search(page).groups()
    data = ("=," + "0" * number_of(zeros) + "\n") * number_of(lines) + "x"
    yield refused("10", {"e.csv": data.encode()}, ["history", "e.csv"], told)


def checkpoint_faults(page: str, files: dict):
    """A plan that can't be saved, and each row of the table of checkpoints, in which slashes stand for line feeds."""
    plan, told = UNSAVED.search(page).groups()
    for words in UNSAVED_WORDS:
        yield refused("15", {"plan.json": plan.encode()}, words, told, 2)
    text, changes = CHECKPOINT.search(page)[1], SPOILT.findall(page)
    if len(changes) != len(re.findall(r"`checkpoint line \d+` \|$", page, re.MULTILINE)):
        raise PageError("a row of the table of checkpoints isn't in form")
    words = ["resume", "plan.json", "c.txt", "x.txt"]
    yield NetworkCase("the checkpoint of docs/faults.md", {**files, "c.txt": text.encode(), "x.txt": b""}, words, 0, b"", b"")
    for old, new, told in changes:
        old, new = old.replace("/", "\n"), new.replace("/", "\n")
        if text.count(old) != 1:
            raise PageError(f"{old} doesn't stand once in the checkpoint of the page")
        yield refused(f"{told} for {new}", {**files, "c.txt": text.replace(old, new).encode()}, words, told, 7)


def followed_faults(page: str):
    """The script whose faulty lines end nothing, and each row of the table of lines about events that are over."""
    plan, name, script, out, err = FOLLOWED.search(page).groups()
    files, words = {"plan.json": plan.encode()}, ["follow", "plan.json", name]
    yield NetworkCase(f"{name} of docs/faults.md", {**files, name: script.encode()}, words, 3, out.encode(), err.encode())
    before, rows = TEXT.findall(OVER.search(page)[1]), OVER_ROW.findall(page)
    if (len(before), len(rows)) != (4, 7):
        raise PageError("the lines about events that are over aren't in form")
    for line, of_file, of_script in rows:
        lines = [*before, line]
        yield over({"e.csv": "".join(f"{one}\n" for one in lines).encode()}, ["history", "e.csv"], of_file)
        yield over({**files, name: "".join(f"e,{one}\n" for one in lines).encode()}, words, of_script)


def over(files: dict, words: list, told: str) -> NetworkCase:
    """A line that has the fault which the page tells, or none. What is written is what the reference writes."""
    name = words[-1]
    out = reference.history(name, files[name])[1] if words[0] == "history" else network_texts.answer(words, files.get)[1]
    err = f"events {name} {told}\n".encode() if told else b""
    return NetworkCase(f"{told or 'an accepted line'} of {words[0]}, as docs/faults.md has it", files, words, 3 if told else 0, out, err)


def refused(number: str, files: dict, words: list, told: str, status: int = 3) -> NetworkCase:
    return NetworkCase(f"fault {number} of docs/faults.md", files, words, status, b"", told.encode() + b"\n")


def number_of(text: str) -> int:
    return int(text.replace(",", ""))


def check_links(root: Path, name: str) -> None:
    """What the page links to is there, with the heading."""
    for file, anchor in LINK.findall((root / name).read_text()):
        to = (root / name).parent / file if file else root / name
        if not to.exists() or anchor and anchor not in map(anchor_of, HEADING.findall(to.read_text())):
            raise PageError(f"{name} links to {file}#{anchor}, which isn't there")


def anchor_of(heading: str) -> str:
    words = re.sub(r"\[([^\]]*)\]\([^)]*\)", r"\1", heading).lower()
    return re.sub(r"[^\w\- ]", "", words).replace(" ", "-")


def check_front(root: Path) -> None:
    """The files and the plan of the README's example are as it shows them, and its sorted file has the same lines."""
    page, folder = (root / "README.md").read_text(), root / "examples/monday"
    check_side_by_side(page, folder, 1)
    name, plan = PLAN.search(page).groups()
    if (folder / name).read_text() != plan:
        raise PageError("the plan isn't as the README shows it")
    for one in (folder / "sorted").iterdir():
        if sorted(one.read_text().splitlines()) != sorted((folder / one.name).read_text().splitlines()):
            raise PageError(f"the sorted {one.name} has other lines")


def check_side_by_side(page: str, folder: Path, count: int) -> None:
    """The blocks that show files side by side, of which there are so many, have their lines."""
    found = SIDE_BY_SIDE.findall(page)
    for names, body in found:
        files = [(folder / name).read_text().splitlines() for name in names.split()]
        if [line.split() for line in body.splitlines()] != [[*filter(None, row)] for row in zip_longest(*files)]:
            raise PageError(f"{names.strip()} aren't as the page shows them")
    if len(found) != count:
        raise PageError(f"{len(found)} blocks show files, and {count} must")


def check_guide(root: Path) -> None:
    """The file that the guide shows is as it shows it, and each node stands in the plan that is run under it."""
    guide, folder = (root / "docs/guide.md").read_text(), root / "examples/guide"
    for node, name in NODE.findall(guide):
        plan = (folder / name).read_text()
        if node != plan and json.loads(node) not in json.loads(plan)["nodes"]:
            raise PageError(f"what stands above {name} isn't in it")
    if FILE.search(guide)[1] != (folder / "reports.csv").read_text():
        raise PageError("the file isn't as the guide shows it")
    for name, text in SHOWN_FILE.findall(guide):
        if text != (folder / name).read_text():
            raise PageError(f"{name} isn't as the guide shows it")
    shown = {words: out for _, words, out in SHOWN.findall(guide)}
    if shown["save select.json evening.txt"] != (folder / "saved.txt").read_text():
        raise PageError("saved.txt isn't what the guide saves")


def check_levels(root: Path) -> None:
    """The first table has the lines of the file, and the second one in its columns what each stream writes."""
    page = (root / "docs/levels.md").read_text()
    shown = {words: out for _, words, out in SHOWN.findall(page)}
    _, lines, written, *_ = page.split("\n## ")
    reports = (root / "examples/levels/reports.csv").read_text().splitlines()
    if [TEXT.search(cells)[1] for _, cells in TABLE_ROW.findall(lines)] != reports:
        raise PageError("the first table doesn't have the lines of the file")
    columns = zip(*[cells.split("|") for _, cells in TABLE_ROW.findall(written.split("\n### ")[0])])
    for plan, column in zip(LEVELS, columns, strict=True):
        changes = "".join(text + "\n" for cell in column for text in TEXT.findall(cell))
        if shown[f"stream {plan}"].partition("--\n")[0] != changes:
            raise PageError(f"the second table doesn't have what the stream of {plan} writes")
