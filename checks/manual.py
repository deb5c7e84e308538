#!/usr/bin/env python3
"""Holds docs/cedr.1, the man page, to the tables of docs/ that it is made from, and writes it.

The page has each command, kind of line, operator, level, status and fault in the words of the docs, so that a change of
these shows here. Where groff is there, the page must pass it without a warning. Status 0: all right. 1: the page is
another one, or groff warns of it.

usage: checks/manual.py            compares
       checks/manual.py --write    writes the page
"""
import re
import shutil
import subprocess
import sys

sys.dont_write_bytecode = True

import doc_tables
from doc_tables import CODE, LINK, commands, paragraphs, table
from program import ROOT

PAGE = ROOT / "docs/cedr.1"
STRONG = re.compile(r"\*\*(.*?)\*\*|(?<!\w)\*([^*]+)\*(?!\w)")
VERSION = re.compile(r'const VERSION: &str = "cedr (\S+)\\n";')
OPERATOR = re.compile(r"^### (\w+)$", re.MULTILINE)
ODD_FAULT = re.compile(r"^Fault (\d+) is that of (.*?)[.;](?:\s|$)", re.MULTILINE)
FRONT = re.compile(r"`(\S+\.json)`:\n\n```json\n(.*?)```.*?cedr run \1\)\n```\n\n```text\n(.*?)```", re.DOTALL)
HEAD = """.\\" Made from the tables of docs/ by checks/manual.py --write. Change these, and not this page.
.TH CEDR 1 "" "cedr {version}" "User Commands"
.SH NAME
cedr \\- answers a plan over event files that are corrected afterwards
"""
SEE_ALSO = r"""
.BR "cedr\-explain \-\-help" :
a tool beside the program that says in sentences what a refusal means, and how far the files are read.
.PP
.BR "cedr\-plan \-\-help" :
a tool that makes plans of words, with columns by name and spans with units, and answers with a header.
.PP
The pages that this one is made from stand in
.I share/doc/cedr/docs
of the installed copy:
.I guide.md
shows each operator at work,
.I words.md
has plans in words,
.I plans.md
the plan language,
.I levels.md
the levels,
.I faults.md
each fault with an example, and
.I promises.md
what is proved of the program.
"""


def roff(text: str) -> str:
    """Text of the docs as roff: code and strong words in bold, links as their words."""
    parts = CODE.split(LINK.sub(lambda one: one[1], text))
    made = "".join(f"\\fB{literal(part)}\\fR" if place % 2 else plain(part) for place, part in enumerate(parts))
    # a full stop or a quote in front would make a request of the line
    return f"\\&{made}" if made[:1] in (".", "'") else made


def plain(text: str) -> str:
    return STRONG.sub(lambda one: f"\\fI{one[1] or one[2]}\\fR", escaped(text))


def escaped(text: str) -> str:
    return text.replace("\\", "\\e")


def literal(text: str) -> str:
    """Text of code, whose hyphens must come as the sign that is typed."""
    return escaped(text).replace("-", "\\-")


def block(text: str) -> str:
    """Lines as they stand."""
    return ".PP\n.nf\n.RS 4\n" + "".join(f"\\&{literal(line)}\n" for line in text.splitlines()) + ".RE\n.fi\n"


def entry(name: str, text: str) -> str:
    return f".TP\n{roff(name)}\n{roff(text)}\n"


def entries(rows) -> str:
    return "".join(entry(name, text) for name, text in rows)


def told(texts) -> str:
    """Paragraphs, and items of lists."""
    return "".join(f".IP \\(bu 2\n{roff(text[2:])}\n" if text.startswith("- ") else f".PP\n{roff(text)}\n"
                   for text in texts)


def titled(title: str, *parts: str) -> str:
    return f".SH {title}\n" + "".join(parts)


def synopsis() -> str:
    lines = []
    for one in commands():
        words = [f"\\fI{word}\\fR" for word in one.words]
        lines.append(" ".join(["\\fBcedr\\fR", f"\\fB{literal(one.name)}\\fR", *words]))
    return "\n.br\n".join(lines) + "\n"


def operators() -> str:
    """Each operator's paragraphs: its ports, its members, the types of its result and what it means."""
    names = OPERATOR.findall(doc_tables.section("docs/plans.md", "## Operators"))
    return entries((f"`{name}`", " ".join(paragraphs("docs/plans.md", f"### {name}"))) for name in names)


def line_faults() -> str:
    """The faults of the table, and those two that the text of the page has."""
    rows = [cells[0].split(", ", 1) for cells in table("docs/faults.md", "## A line of an event file")]
    odd = ODD_FAULT.findall("\n".join(paragraphs("docs/faults.md", "## A line of an event file")))
    every = sorted([(int(number), text) for number, text in [*rows, *odd]])
    if [number for number, _ in every] != list(range(1, 11)):
        raise ValueError("docs/faults.md doesn't tell ten faults of a line")
    return entries((str(number), sentence(text)) for number, text in every)


def plan_faults() -> str:
    """The faults of the table, and that of a plan which is accepted and can't be saved."""
    rows = table("docs/plans.md", "## Faults")
    told_ones = [(cells[0], sentence(cells[1])) for cells in rows]
    told_ones += [(number, sentence(text)) for number, text in
                  ODD_FAULT.findall("\n".join(paragraphs("docs/faults.md", "## A plan")))]
    if [name.split()[0] for name, _ in told_ones] != [str(number) for number in range(1, 16)]:
        raise ValueError("docs/plans.md and docs/faults.md don't tell fifteen faults of a plan")
    return entries(told_ones)


def sentence(text: str) -> str:
    return f"{text[0].upper()}{text[1:]}."


def statuses() -> str:
    rows = table("docs/program.md", "## Exit statuses")
    return entries((number, f"{means[0].upper()}{means[1:]}. On standard error: {err}.") for number, means, err in rows)


def example() -> str:
    """The plan of the README's first page, its call and its answer."""
    name, plan, rows = FRONT.search((ROOT / "README.md").read_text()).groups()
    asks = (f"The plan `{name}` asks which machines were shut down within 12 hours of an install, and not restarted "
            "within 5 minutes:")
    return told([asks]) + block(plan) + told([f"`cedr run {name}` writes its answer:"]) + block(rows)


def levels() -> str:
    rows = table("docs/plans.md", "## Levels")
    return entries((name, f"{text} The block is {least}, the memory {most}.") for name, least, most, text in rows)


def page() -> str:
    version = VERSION.search((ROOT / "crates/cedr/src/main.rt").read_text())[1]
    plans, program, followed = "docs/plans.md", "docs/program.md", "## A script that is followed"
    parts = [
        titled("SYNOPSIS", synopsis()),
        titled("DESCRIPTION", told(paragraphs("README.md", "# CEDR")[:1])),
        titled("COMMANDS", entries(table(program, "## Commands")), told(paragraphs(program, "## Commands"))),
        titled("EVENT FILES",
               told(paragraphs(program, "## Event files")[:1]), entries(table(program, "## Event files")),
               told(paragraphs(program, "## Event files")[1:]),
               told(["The sync of a line is the time from which on it changes something:"]),
               entries(table(program, "### Syncs"))),
        titled("PLANS",
               told(["A plan is a JSON text. Its document has the members"]), entries(table(plans, "## The document")),
               told(["and a node has"]), entries(table(plans, "## Nodes")), told(paragraphs(plans, "## Nodes")),
               told(paragraphs(plans, "## Tests and columns"))),
        titled("OPERATORS", operators()),
        titled("LEVELS", told(paragraphs(plans, "## Levels")[:1]), levels()),
        titled("LIMITS", entries((what, f"{limit}; beyond it {fault}.")
                                 for what, limit, fault in table(plans, "## Limits"))),
        titled("CHECKPOINTS",
               told(paragraphs(program, "## Checkpoints")[:2]), entries(table(program, "## Checkpoints")),
               told(paragraphs(program, "## Checkpoints")[4:])),
        titled("A SCRIPT THAT IS FOLLOWED",
               told(paragraphs(program, followed)[:2]), entries(table(program, followed)), told(paragraphs(program, followed)[2:])),
        titled("THE ORDER OF ROWS", told(paragraphs(program, "## The order of rows"))),
        titled("EXIT STATUS", statuses()),
        titled("FAULTS OF A LINE", line_faults()),
        titled("FAULTS OF A PLAN", plan_faults()),
        titled("EXAMPLE", example()),
        titled("SEE ALSO", SEE_ALSO.lstrip("\n")),
    ]
    return HEAD.format(version=version) + "".join(parts)


def warnings() -> str:
    """What groff has to say of the page, or why it wasn't asked."""
    if not shutil.which("groff"):
        return ""
    words = ["groff", "-man", "-Tutf8", "-ww", "-z", "-K", "utf8", PAGE]
    asked = subprocess.run(words, capture_output=True, text=True, check=False)
    return asked.stdout + asked.stderr


def main() -> int:
    made = page()
    if sys.argv[1:] == ["--write"]:
        PAGE.write_text(made)
    if not PAGE.is_file() or PAGE.read_text() != made:
        print("manual: docs/cedr.1 isn't what docs/ make of it; python3 checks/manual.py --write makes it anew")
        return 1
    warned = warnings()
    print(warned, end="")
    if warned:
        by_groff = "groff warns of it"
    elif shutil.which("groff"):
        by_groff = "groff has no warning"
    else:
        by_groff = "its warnings skipped: there is no groff"
    print(f"manual: docs/cedr.1 has {len(commands())} commands and {made.count('.TP')} entries as docs/ have them, "
          f"{by_groff}")
    return 1 if warned else 0


if __name__ == "__main__":
    sys.exit(main())
