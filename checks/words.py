#!/usr/bin/env python3
"""Runs tools/cedr-plan: words of documents, documents of words, refusals, patterns and the program's answers.

- Words of random documents, compiled again, are the same plan, by its nodes and members, and for some by what the program
  says of it.
- Of each mistake in word_mistakes.py the sentence is said that is written there by hand, at its place, with the line and
  a caret. Nothing is written then.
- Texts that are spoilt at random are refused in the same form, or give a document that is a plan.
- Each pattern in word_patterns.py has the answer that is worked out by hand, and a NOT over random events the one of its definition.
- Each statement in the tables of docs/words.md gives the node and the columns beside it, the words that pages show give
  the documents under them, and each command of docs/words.md writes what stands under it.
- Files that can't be read, bytes that are no text, long texts, closed outputs and faulty event files have a sentence, a status
  of the program, and no traceback.

It is skipped where lark isn't there. Status 0: all right. 1: something differs. 2: the program isn't there.

usage: checks/words.py [PROGRAM]
"""
import json
import os
import random
import re
import shutil
import subprocess
import sys
import tempfile
from pathlib import Path

sys.dont_write_bytecode = True

from program import ROOT, built_program

OTHER_PYTHON, AGAIN = "/usr/bin/python3", "CEDR_CHECK_AGAIN"
try:
    import lark  # noqa: F401
except ImportError:
    if os.access(OTHER_PYTHON, os.X_OK) and AGAIN not in os.environ:
        os.execve(OTHER_PYTHON, [OTHER_PYTHON, __file__, *sys.argv[1:]], {**os.environ, AGAIN: "1"})
    print("words: skipped, lark isn't there (Debian: apt-get install python3-lark)")
    sys.exit(0)

import doc_tables
import plan_reference
import random_networks
import random_plans
import word_mistakes
import word_patterns
from from_csv import blocks

sys.path.insert(0, str(ROOT / "tools"))

from cedr_explain.plan import Plan as Document
from cedr_plan import form, plan, refused, text, words

TOOL = ROOT / "tools/cedr-plan"
DOCUMENTS, OF_THEM_CHECKED, NOTS, SPOILT = 1_500, 150, 30, 1_000
SHOWN, SECONDS, SEED = 5, 60, 71
CODE = re.compile("`([^`]+)`")
PAIR = re.compile(r"```words\n((?:(?!```).)*?)```\n(?:(?!```).)*?```json\n(.*?)```", re.DOTALL)
WORDS_BLOCK = re.compile(r"```words\n(.*?)```", re.DOTALL)
PARTS = re.compile(r'"[^"\n]*"|\w+|\s+|.', re.DOTALL)
ODD_PARTS = ["'", '"', "`", "\\", ";", "==", "-5", "1.5", "9" * 50, "inf", "é", "\x00", "\t", "\n", "#", "`a b`", "."]
ODD_NAMES = ["1", "12h", "0_", "_", "A" * 64, "where", "keep", "count", "unit", "version", "edge", "output", "source", "inf", "of", "as", "and",
             "EVENT", "WHEN", "WHERE", "AND", "OUTPUT", "WITH", "AS", "LEVEL", "level", "strong", "block", "header", "first", "c0", "text", "int"]
ODD_TEXTS = ["", "a\nb", "\x00\x1f\x7f", '"', "\\", "\\n", "`", "#", "a # b", "é\u2028\x85\ufeff", "\U0001f600", "'", "where x = 1", "inf", "5"]
SPANS = [("second", "1 hour 30 minutes", 5_400), ("second", "1.5 hours", 5_400), ("minute", "90 minutes", 90), ("millisecond", "2 s", 2_000),
         ("day", "2 weeks", 14), ("nanosecond", "1us", 1_000), ("hour", "1 d 12 h", 36), ("week", "168 hours", 1)]
# The types behind a header, the tests of a select over the source, and the types and tests of the document or what is said.
HEADERS = {
    ("text, text, int", '`ordered on` = "x" and kg > 2'): (["text", "text", "int"], [[1, "=", {"text": "x"}], [2, ">", {"int": 2}]]),
    ("text, -, int", "kg > 2"): (["text", "int"], [[1, ">", {"int": 2}]]),
    ("text, int", "kg > 2"): '"names.csv" names 3 columns, order, ordered on, kg, and 2 types stand here. Each has its type, or a `-` where it is '
                             "no column of the events.",
    ("text, text, kg int", "kg > 2"): "Behind a `header` the types alone stand here, since the file has the names.",
    ("text, text, float", "kg > 2"): "`float` is no type. It must be `text` or `int`. There are no decimals: count in a smaller unit, as 1250 cents "
                                     "for 12.50, and write `int`.",
}
UNIT_LENGTHS = {"nanosecond": 1, "microsecond": 1_000, "millisecond": 1_000_000, "second": 1_000_000_000, "minute": 60_000_000_000,
                "hour": 3_600_000_000_000, "day": 86_400_000_000_000, "week": 604_800_000_000_000}
GOOD = 'reports = source "reports.csv" (machine text, load int)\nout = output reports\n'


class Differences:
    """Counts what differs, and shows the first of it."""

    def __init__(self) -> None:
        self.count = 0

    def expect(self, wanted, came, name: str) -> None:
        if wanted != came:
            self.count += 1
            if self.count <= SHOWN:
                print(f"DIFFERENCE {self.count}: {name}\n  wanted: {wanted!r}\n  came:   {came!r}"[:4_000], flush=True)


def tool(given: list, data: bytes = b"", folder=None, env: dict = None, **further) -> tuple:
    """The status, standard output and standard error of the tool."""
    done = subprocess.run([sys.executable, TOOL, *given], input=data, cwd=folder, env={**os.environ, **(env or {})}, timeout=SECONDS,
                          check=False, **{"stdout": subprocess.PIPE, "stderr": subprocess.PIPE, **further})
    return done.returncode, done.stdout or b"", done.stderr or b""


def said(source: str) -> list:
    """The lines that are told of a text; of one that is accepted none."""
    try:
        plan.compiled(source)
    except plan.Found as found:
        return list(refused.all_placed("plan.words", source, found.faults))
    return []


# documents


def random_document(rng: random.Random) -> bytes:
    """A plan that is accepted, as its bytes. Every third one has names and texts that are odd in words."""
    while True:
        maker = rng.choice([random_plans.Maker, random_networks.Maker, random_networks.SavedMaker])
        document = maker(rng).document()
        if rng.random() < 1 / 3:
            make_odd(rng, document)
        data = random_plans.json_text(document).encode()
        if plan_reference.check(data)[0] == 0:
            return data


def make_odd(rng: random.Random, document: dict) -> None:
    odd = dict(zip([node["name"] for node in document["nodes"]], rng.sample(ODD_NAMES, len(ODD_NAMES))))
    for node in document["nodes"]:
        node["name"] = odd.get(node["name"], node["name"])
        node.update({"from": [odd.get(name, name) for name in node["from"]]} if "from" in node else {})
        node.update({"file": rng.choice(ODD_TEXTS)} if "file" in node else {})
        for test in node.get("where", []):
            test[2].update({"text": rng.choice(ODD_TEXTS)} if "text" in test[2] else {})


def said_by(document: dict) -> dict:
    """The document with the members alone that say something. A list that may be missing and is empty says nothing."""
    operators, nodes = plan_reference.operators_of(document), []
    for node in document["nodes"]:
        known = ["name", "op", *(["from", "level"] if node["op"] != "source" else []), *operators[node["op"]][2]]
        empty = [name for name in plan_reference.OPTIONAL if node.get(name) == []]
        nodes.append({name: node[name] for name in known if name in node and name not in empty})
    return {**{name: document[name] for name in ("version", "edge") if name in document}, "nodes": nodes}


def check_round_trips(differences: Differences, program: Path, folder: Path) -> int:
    rng = random.Random(SEED)
    for number in range(DOCUMENTS):
        data = random_document(rng)
        try:
            made = words.words_of(Document(data))
            again = plan.compiled(made).text()
        except (plan.Found, refused.Refused) as fault:
            differences.expect("words, and a document again", repr(fault), f"the document {data.decode()}")
            continue
        differences.expect(said_by(json.loads(data)), json.loads(again), f"the document of the words\n{made}")
        if number < OF_THEM_CHECKED:
            differences.expect(*[checked(program, folder, one) for one in (data, again.encode())], f"cedr check of the words\n{made}")
    return DOCUMENTS


def checked(program: Path, folder: Path, data: bytes) -> bytes:
    (folder / "plan.json").write_bytes(data)
    return subprocess.run([program, "check", "plan.json"], cwd=folder, capture_output=True, timeout=SECONDS, check=False).stdout


# mistakes


def check_mistakes(differences: Differences) -> int:
    for one in word_mistakes.ALL:
        line, column = one.place()
        wanted = f"plan.words:{line}:{column}: {one.told}"
        lines = said(one.text)
        differences.expect(wanted, lines[0][:len(wanted)] if lines else "", one.name)
        if len(lines) > 2:
            check_caret(differences, one, lines[1:3], line, column)
    return len(word_mistakes.ALL)


def check_caret(differences: Differences, one, lines: list, number: int, column: int) -> None:
    """The caret stands under the sign at the place; what is left of it in the line may be cut."""
    own = "".join(sign if sign.isprintable() else " " for sign in one.text.split("\n")[number - 1])
    shown, caret = lines[0][4:], len(lines[1]) - 1
    differences.expect("^", lines[1].strip(), f"{one.name}: the caret")
    if column <= len(own):
        at = shown[caret - 4:caret - 4 + 20].removesuffix(" ..").rstrip(". ")
        differences.expect(True, own[column - 1:].startswith(at) and bool(at or not own[column - 1:].strip(". ")), f"{one.name}: what the caret is under, {at!r}")


def check_several(differences: Differences) -> int:
    """Each fault of a text is told, of a node that reads a faulty one nothing, and of many the first ten."""
    source = word_mistakes.TEXT.replace("load >= 50", "laod >= 50").replace("cost int", "cost float")
    places = [line.split(": ")[0] for line in said(source)[::3]]
    differences.expect(["plan.words:3:51", "plan.words:4:32"], places, "two faults")
    many = "unit second\n" + "".join(f"n{place} = filter\n" for place in range(100_000))
    differences.expect(10, len(said(many)) // 3, "a text of 100,000 faulty lines")
    return 2


def check_spoilt(differences: Differences) -> int:
    """Texts with parts left out, put in or changed for others: each is refused at a place of it, or gives a plan that is accepted."""
    rng = random.Random(SEED)
    page = (ROOT / "docs/words.md").read_text()
    texts = [word_mistakes.TEXT, *WORDS_BLOCK.findall(page), *map(word_patterns.text_of, word_patterns.CASES)]
    parts = [part for one in texts for part in PARTS.findall(one)] + ODD_PARTS
    for _ in range(SPOILT):
        source = spoilt(rng, PARTS.findall(rng.choice(texts)), parts)
        try:
            differences.expect(0, plan_reference.check(plan.compiled(source).text().encode())[0], f"the document of\n{source}")
        except plan.Found as found:
            lines = list(refused.all_placed("plan.words", source, found.faults))
            in_form = [bool(re.match(r"plan\.words:\d+:\d+: ", one)) for one in lines[::3]]
            differences.expect((True, 0), (all(in_form), len(lines) % 3), f"what is said of\n{source}")
        except Exception as error:
            differences.expect("a refusal", repr(error), f"the text\n{source}")
    return SPOILT


def spoilt(rng: random.Random, kept: list, parts: list) -> str:
    for _ in range(rng.choice([1, 1, 2, 3])):
        at, other = rng.randrange(len(kept)), rng.randrange(len(kept))
        kept[at], kept[other] = rng.choice([(kept[at], kept[other]), (rng.choice(parts), kept[other]), ("", kept[other]), (kept[other], kept[at])])
    return "".join(kept)


# pages


def check_tables(differences: Differences) -> int:
    page = (ROOT / "docs/words.md").read_text()
    front = WORDS_BLOCK.search(doc_tables.section("docs/words.md", "## Nodes"))[1]
    rows = doc_tables.table("docs/words.md", "## Nodes")
    for statement, node, columns in rows:
        wanted = json.loads(CODE.search(node)[1]), CODE.findall(columns)
        reader = taken(front + CODE.search(statement)[1] + "\n")
        names = [".".join(one.name) for one in reader.maker.columns[wanted[0]["name"]]] if not reader.faults else []
        differences.expect((wanted, []), ((reader.nodes[-1], names), reader.faults), statement)
    levels = doc_tables.table("docs/words.md", "## Levels")
    for said_so, level in levels:
        code = CODE.search(said_so)
        made = taken(f"{front}out = output orders {code[1] if code else ''}\n").nodes[-1]
        wanted = json.loads(CODE.findall(level)[0]) if code else None
        differences.expect(wanted, made.get("level"), f"the level {said_so}")
    units = doc_tables.table("docs/words.md", "## Spans")
    for own, others in units:
        for unit in CODE.findall(own + others):
            made = taken(f'unit nanosecond\na = source "a.csv" ()\nb = shift a by 2 {unit}\n')
            wanted = 2 * UNIT_LENGTHS[CODE.search(own)[1]]
            came = made.nodes[-1].get("by") if wanted <= 2**40 else [one.told.partition(" A ")[0] for one in made.faults]
            differences.expect(wanted if wanted <= 2**40 else [f"2 {unit} is out of range."], came, f"the unit {unit}")
    reserved = CODE.findall(page.partition("is a word of clauses: one of")[2].partition("and the\n")[0])
    for word in reserved:
        told = said(f'a = source "a.csv" (b text)\nc = join a {word}, a x\nd = output c\n')
        differences.expect(True, bool(told), f"the reserved word {word}")
        differences.expect([], said(f'{word} = source "a.csv" ({word} text)\nc = join {word} `{word}`, {word} x where x.{word} = `{word}`.{word}\nd = output c\n'),
                           f"the names {word}")
    return len(rows) + len(levels) + len(units) + len(reserved)


def check_spans(differences: Differences) -> int:
    for unit, span, wanted in SPANS:
        made = taken(f'unit {unit}\na = source "a.csv" ()\nb = shift a by {span}\n')
        differences.expect((wanted, []), (made.nodes[-1].get("by"), made.faults), f"{span} in {unit}s")
    return len(SPANS)


def check_headers(differences: Differences, folder: Path) -> int:
    """Columns by the header of a CSV: with a blank in a name, a column that is left out, and carriage returns."""
    (folder / "names.csv").write_bytes(b'order,"ordered on",kg\r\n1,2,3\r\n')
    for (types, behind), wanted in HEADERS.items():
        source = f'a = source "a.csv" header "{folder}/names.csv" ({types})\nb = select a where {behind}\n'
        made = taken(source)
        came = (made.nodes[0]["fields"], made.nodes[1]["where"]) if not made.faults else made.faults[0].told.replace(f"{folder}/", "")
        differences.expect(wanted, came, source)
    return len(HEADERS)


def taken(source: str) -> plan.Reader:
    """What comes of the statements of a part of a text."""
    found = list(text.statements(source))
    reader = plan.Reader(frozenset(map(form.name_of, found)))
    for statement in found:
        reader.take(statement)
    return reader


def check_pairs(differences: Differences) -> int:
    """Words that stand over a document on a page: they give it, or where it is one node this one."""
    count = 0
    for name in ("README.md", "docs/guide.md", "docs/words.md"):
        page = (ROOT / name).read_text()
        guide = WORDS_BLOCK.findall(page)[1] if name == "docs/guide.md" else ""
        for source, shown in PAIR.findall(page):
            count += 1
            if json.loads(shown).get("nodes"):
                came = "\n".join(said(source)) or plan.compiled(source).text()
                differences.expect(shown, came, f"{name}: the document of\n{source}")
            else:
                frames = "" if "frames =" in source else "frames = hop alarms every 10 minutes for 10 minutes\n"
                reader = taken(guide + frames * ("group frames" in source) + source)
                differences.expect((json.loads(shown), []), (reader.nodes[-1], reader.faults), f"{name}: the node of\n{source}")
    differences.expect(20, count, "how many words stand over a document")
    for file in sorted((ROOT / "examples").glob("*/*.words")):
        shown = [one for one in WORDS_BLOCK.findall((ROOT / "docs/words.md").read_text()) if one == file.read_text()]
        differences.expect(1, len(shown), f"{file.name} stands in docs/words.md")
    return count


def check_commands(differences: Differences, program: Path, folder: Path) -> int:
    for name in ("examples", "tools"):
        shutil.copytree(ROOT / name, folder / name)
    (folder / "crates/cedr/out").mkdir(parents=True)
    (folder / "crates/cedr/out/cedr").symlink_to(program)
    count = 0
    for block in blocks((ROOT / "docs/words.md").read_text()):
        if block.command:
            count += 1
            done = subprocess.run(["bash", "-c", block.command], cwd=folder, stdin=subprocess.DEVNULL, stdout=subprocess.PIPE,
                                  stderr=subprocess.STDOUT, timeout=SECONDS, check=False)
            differences.expect(block.text, done.stdout.decode(), f"docs/words.md: {block.command}")
    return count


# answers


def check_patterns(differences: Differences, folder: Path) -> int:
    fill(folder, word_patterns.files())
    for case in word_patterns.CASES:
        wanted = "".join(f"{line}\n" for line in [f"begin,end,{case.header}", *case.rows])
        came = tool(["ask", "-"], word_patterns.text_of(case).encode(), folder)
        differences.expect((0, wanted, ""), (came[0], came[1].decode(), came[2].decode()), f"the pattern {case.name}")
    rng = random.Random(SEED)
    for _ in range(NOTS):
        source, files, rows = word_patterns.random_not(rng)
        fill(folder, files)
        came = tool(["ask", "-"], source.encode(), folder)
        differences.expect((0, ["begin,end,x.n,y.n", *rows], b""), (came[0], came[1].decode().splitlines(), came[2]), f"a NOT over {files}")
    return len(word_patterns.CASES) + NOTS


def fill(folder: Path, files: dict) -> None:
    for name, data in files.items():
        (folder / name).write_text(data)


def check_answers(differences: Differences, folder: Path) -> int:
    """Dates, other commands, and what the program refuses."""
    fill(folder, {"reports.csv": '+,1,10,20,"a, ""b""",5\n+,2,12,inf,c,6\n-,2,15\n', "s.txt": "reports,+,1,10,20,a,5\n?\nreports,=,30\n?\n",
                  "c.txt": "checkpoint,1\nsource,reports,30\n1,10,40,a,5\nend\n", "n.txt": "reports,-,1,35\n", "f.txt": "reports,\n"})
    header, row = b"begin,end,machine,load\n", b'10,20,"a, ""b""",5\n'
    text_of = GOOD.encode()
    day = b"unit day\nepoch 2026-03-02\n" + text_of
    cases = [
        (["ask", "-"], text_of, (0, header + b"12,15,c,6\n" + row, b"")),
        (["ask", "-", "pool", "2"], text_of, (0, header + b"12,15,c,6\n" + row, b"")),
        (["ask", "-", "audit"], text_of, (0, header + b"12,15,c,6\n" + row + b"--\n", b"")),
        (["ask", "-", "live", "s.txt"], text_of, (0, header + b"10,20,a,5\n. 0\n10,20,a,5\n. 30\n", b"")),
        (["ask", "-", "live", "s.txt"], day, (0, header + b"2026-03-12T00:00:00Z,2026-03-22T00:00:00Z,a,5\n. 2026-03-02T00:00:00Z\n"
                                              b"2026-03-12T00:00:00Z,2026-03-22T00:00:00Z,a,5\n. 2026-04-01T00:00:00Z\n", b"")),
        (["ask", "-", "follow", "s.txt"], text_of, (0, b"change,new_end," + header + b"+,,10,20,a,5\n=,,30,,,\n", b"")),
        (["ask", "-", "follow", "s.txt"], day, (0, b"change,new_end," + header + b"+,,2026-03-12T00:00:00Z,2026-03-22T00:00:00Z,a,5\n"
                                                b"=,,2026-04-01T00:00:00Z,,,\n", b"")),
        (["ask", "-", "follow", "c.txt", "n.txt"], text_of, (0, b"change,new_end," + header + b"-,35,10,40,a,5\n", b"")),
        (["ask", "-", "follow", "c.txt", "f.txt"], text_of,
         (3, b"change,new_end," + header, b"f.txt:1: Nothing stands behind `reports,`. An event line of that source must.\n> 1 | reports,\n")),
        (["ask", "-", "save", "s.txt"], text_of, (0, b"checkpoint,1\nsource,reports,30\n1,10,20,a,5\nend\n", b"")),
        (["ask", "-", "stream"], text_of.replace(b"output reports", b"output reports strong"),
         (0, b"change,new_end," + header + b"+,,12,15,c,6\n+,," + row, b"")),
        (["ask", "-"], text_of.replace(b"output reports", b"output reports keep load as `kW, now`"), (0, b'begin,end,"kW, now"\n12,15,6\n10,20,5\n', b"")),
    ]
    for given, data, wanted in cases:
        differences.expect(wanted, tool(given, data, folder), f"{given} of {data.decode()}")
    came = tool(["ask", "-", "stream"], text_of, folder)
    changes = came[1].decode().splitlines()
    differences.expect(["+,,12,inf,c,6", "-,15,12,inf,c,6"], [one for one in changes if one.endswith("c,6")], "the changes of a stream")
    return len(cases) + 1 + check_dates(differences, folder)


def check_dates(differences: Differences, folder: Path) -> int:
    """The time 1500 in each unit after an epoch with a zone, and times that are no dates."""
    wanted = {"nanosecond": "2026-03-02T08:00:00.000001500Z", "microsecond": "2026-03-02T08:00:00.001500Z",
              "millisecond": "2026-03-02T08:00:01.500Z", "second": "2026-03-02T08:25:00Z", "minute": "2026-03-03T09:00:00Z",
              "hour": "2026-05-03T20:00:00Z", "day": "2030-04-10T08:00:00Z", "week": "2054-11-30T08:00:00Z"}
    fill(folder, {"reports.csv": "+,1,1500,4611686018427387903,a,5\n"})
    for unit, date in wanted.items():
        source = f"unit {unit}\nepoch 2026-03-02T09:00:00+01:00\n{GOOD}"
        end = tool(["ask", "-"], source.encode(), folder)[1].decode().splitlines()[-1].split(",")
        last = "2172-04-20T05:46:04.387903999Z"
        differences.expect(date, end[0], f"the date of 1500 in {unit}s")
        differences.expect(True, end[1] == "4611686018427387903" or unit == "nanosecond" and end[1].startswith(last[:4]), f"a late time in {unit}s: {end[1]}")
    return len(wanted)


# bad input


def check_bad_input(differences: Differences, folder: Path) -> int:
    fill(folder, {"reports.csv": "+,1,10,20,a,5\n+,2,30,30,a,5\n", "good.words": GOOD, "empty.words": "", "plan.json": '{"version":1,"nodes":[]}',
                  "lines.words": "unit s\n" * 100_000})
    (folder / "bytes.words").write_bytes(GOOD.encode() + b"x = \xff\n")
    (folder / "wide.words").write_bytes(GOOD.encode("utf-16"))
    (folder / "marked.words").write_bytes(b"\xef\xbb\xbf" + GOOD.replace("\n", "\r\n").encode())
    (folder / "zeros.words").write_bytes(b"\0" * 50)
    (folder / "large.words").write_bytes(b"#" * 1_048_577)
    told = [
        (["compile", "bytes.words"], 2, "bytes.words:3:5: This isn't a plan in words: the byte 0xff stands here, which isn't UTF-8."),
        (["compile", "wide.words"], 2, "wide.words:1:1: This isn't a plan in words: the text is UTF-16; it must be UTF-8."),
        (["compile", "zeros.words"], 2, "zeros.words:1:1: The sign 0x00 can't stand here."),
        (["compile", "large.words"], 2, "large.words:1:1: The text has 1,048,577 bytes. It may have 1,048,576."),
        (["compile", "empty.words"], 2, "empty.words:1:1: The text has no node."),
        (["compile", "lines.words"], 2, "lines.words:2:1: `unit` stands twice. A plan says it once."),
        (["compile", "god.words"], 4, "god.words: it can't be read: there is no such file. Perhaps `good.words` is meant."),
        (["compile", "."], 4, ".: it can't be read: it is a folder."),
        (["compile", "good\0.words"], None, ""),
        (["words", "plan.json"], 2, "plan.json:1:22: No node is the output, which hands out the answer."),
        (["words", "good.words"], 2, "good.words:1:1: The plan isn't JSON"),
        (["words", "none.json"], 4, "none.json: it can't be read: there is no such file."),
        (["ask", "good.words"], 3, "good.words:1:18: Line 2 of reports.csv, the file of `reports`, has a fault."),
        (["ask", "good.words", "live", "none.txt"], 4, "none.txt: The script can't be read: there is no such file."),
        (["ask", "good.words", "runs"], 1, "cedr-plan: `runs` is no command that answers a plan. They are run, pool N"),
        (["ask", "good.words", "pool", "99"], 1, "cedr-plan: N is `99`. It must be a number from 1 to 16 in digits"),
        (["ask", "good.words", "pool"], 1, "cedr-plan: `pool` is no command that answers a plan."),
        (["compile"], 1, "usage: cedr-plan compile FILE | words PLAN | check FILE | ask FILE [COMMAND WORD..]"),
        (["compile", "good.words", "more"], 1, "usage: cedr-plan"),
        (["--version"], 1, "usage: cedr-plan"),
        ([], 1, "usage: cedr-plan"),
    ]
    told = [one for one in told if one[1] is not None]
    for given, status, line in told:
        came = tool(given, b"", folder)
        differences.expect((status, b"", line, False), (came[0], came[1], came[2].decode()[:len(line)], b"Traceback" in came[2]), f"the words {given}")
    differences.expect(0, tool(["compile", "marked.words"], b"", folder)[0], "a byte order mark, and carriage returns")
    missing = GOOD.replace("reports.csv", "none.csv").encode()
    came = tool(["ask", "-"], missing, folder)
    line = "standard input:1:18: The file of `reports`, `none.csv`, can't be read: there is no such file."
    differences.expect((4, b"", line), (came[0], came[1], came[2].decode()[:len(line)]), "a source that can't be read")
    return len(told) + 2 + check_outside(differences, folder)


def check_outside(differences: Differences, folder: Path) -> int:
    """Outputs that take no more, programs that aren't there or say what they never do, and no lark."""
    with open("/dev/full", "wb") as full:
        came = tool(["compile", "good.words"], b"", folder, stdout=full)
    differences.expect((5, b"cedr-plan: standard output takes no more: No space left on device\n"), (came[0], came[2]), "a full device")
    reader, writer = os.pipe()
    os.close(reader)
    came = tool(["compile", "good.words"], b"", folder, stdout=writer)
    os.close(writer)
    differences.expect((5, b"cedr-plan: standard output takes no more: Broken pipe\n"), (came[0], came[2]), "a pipe that nobody reads")
    program = stand_in(folder, 'echo "plan fault 14 node 1" >&2; exit 2')
    came = tool(["ask", "good.words"], b"", folder, {"CEDR": program})
    line = "good.words:1:1: The program refuses the node `reports` with fault 14. No node reads this one.\n    reports = source"
    differences.expect((2, b"", line), (came[0], came[1], came[2].decode()[:len(line)]), "a refusal of a node")
    came = tool(["ask", "good.words"], b"", folder, {"CEDR": stand_in(folder, 'echo "out of memory" >&2; exit 6')})
    differences.expect((6, b"The system gave no more memory."), (came[0], came[2][:31]), "no memory")
    came = tool(["ask", "good.words"], b"", folder, {"CEDR": stand_in(folder, "kill -KILL $$")})
    differences.expect((137, b"The program was ended by the signal 9"), (came[0], came[2][:37]), "a signal")
    came = tool(["ask", "good.words"], b"", folder, {"CEDR": str(folder / "none")})
    differences.expect(126, came[0], "no program")
    (folder / "lark.py").write_text("raise ImportError\n")
    came = tool(["compile", "good.words"], b"", folder, {"PYTHONPATH": str(folder), "CEDR_PLAN_TRIED": "1"})
    wanted = 127, b"", b"cedr-plan: lark isn't there, which reads the words: apt-get install python3-lark\n"
    differences.expect(wanted, came, "no lark")
    came = tool(["words", "none.json"], b"", folder, {"PYTHONPATH": str(folder)})
    differences.expect(4, came[0], "words without lark")
    came = tool(["--help"], b"", folder)
    differences.expect((0, True), (came[0], came[1].startswith(b"usage: cedr-plan compile FILE")), "the help")
    return 9


def stand_in(folder: Path, script: str) -> str:
    path = folder / "stand_in"
    path.write_text(f"#!/bin/sh\n{script}\n")
    path.chmod(0o755)
    return str(path)


def main() -> int:
    program = built_program()
    os.environ["CEDR"] = str(program)
    differences = Differences()
    with tempfile.TemporaryDirectory(prefix="cedr-check-") as folder, tempfile.TemporaryDirectory(prefix="cedr-check-") as copy:
        here = Path(folder)
        trips = check_round_trips(differences, program, here)
        mistakes = check_mistakes(differences) + check_several(differences)
        spoilt_ones = check_spoilt(differences)
        rows, pairs = check_tables(differences) + check_spans(differences) + check_headers(differences, here), check_pairs(differences)
        commands = check_commands(differences, program, Path(copy))
        patterns, answers = check_patterns(differences, here), check_answers(differences, here)
        bad = check_bad_input(differences, here)
    print(f"words: {trips} documents in words and back, {mistakes} texts with mistakes, {spoilt_ones} spoilt ones, {rows} rows of tables and other forms, {pairs} documents and {commands} commands "
          f"of pages, {patterns} patterns, {answers} answers, {bad} bad inputs: {differences.count} differences")
    return 1 if differences.count else 0


if __name__ == "__main__":
    sys.exit(main())
