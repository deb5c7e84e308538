"""Ordinary mistakes in plans in words, each with the place and the sentence that must be said of it, written by hand."""
from __future__ import annotations

from typing import NamedTuple

TEXT = """\
unit second
reports = source "reports.csv" (machine text, state text, load int)
visits  = source "visits.csv" (machine text, cost int)
high    = select reports where load >= 50 and state = "on"
missed  = unless high h, visits v within 2 minutes for 1 second where h.machine = v.machine
out     = output missed strong keep h.machine, h.load
"""
SOURCES = "".join(TEXT.splitlines(keepends=True)[:3])
OF_REPORTS = "Its columns are machine (text), state (text), load (int)."
OPERATORS = ("The operators are source, select, project, union, join, window, shift, hop, starts, ends, group, sequence, unless, "
             "output, atleast and except.")
UNITS = "The units are nanosecond, microsecond, millisecond, second, minute, hour, day and week."


class Mistake(NamedTuple):
    """A text, the part of it at which the fault is told, and the sentence."""
    name: str
    text: str
    mark: str
    told: str

    def place(self) -> tuple:
        """The line and the column of the mark, of which the text has one; at the text's end where there is no mark."""
        if self.mark and self.text.count(self.mark) != 1:
            raise ValueError(f"{self.name}: {self.mark!r} stands {self.text.count(self.mark)} times in the text")
        place = self.text.index(self.mark) if self.mark else len(self.text.rstrip())
        return self.text.count("\n", 0, place) + 1, place - self.text.rfind("\n", 0, place)


def changed(name: str, old: str, new: str, mark: str, told: str) -> Mistake:
    """A mistake in the text above."""
    if TEXT.count(old) != 1:
        raise ValueError(f"{name}: {old!r} stands {TEXT.count(old)} times in the text")
    return Mistake(name, TEXT.replace(old, new), mark, told)


def node(name: str, line: str, mark: str, told: str) -> Mistake:
    """A mistake in a node over the sources of the text above."""
    return Mistake(name, f"{SOURCES}{line}\nout = output n\n", mark, told)


SELECT, UNLESS = "select reports where", "missed  = unless high h, visits v within"
FORMS = [
    changed("a word of another language for the tests", "where load", "having load", "load >=", "`load` can't stand here."),
    changed("a misspelt `where`", "where load", "wher load", "wher load", "`wher` can't stand here. Perhaps `where` is meant."),
    changed("a misspelt `within`", "within 2", "withn 2", "withn 2", "`withn` can't stand here. Perhaps `within` is meant."),
    changed("a misspelt `keep`", "keep h", "kep h", "kep h", "`kep` can't stand here. Perhaps `keep` is meant."),
    changed("a word in capitals", "where load", "WHERE load", "WHERE load", "`WHERE` can't stand here. Perhaps `where` is meant."),
    changed("`or`", "50 and", "50 or", "or state", "`or` can't stand here. There is no `or`: two selects, each with one side, and a `union` of them say it."),
    changed("`&&`", "50 and", "50 &&", "&& state", "`&` can't stand here. Tests are joined by `and`."),
    changed("a comma between tests", "50 and", "50,", ", state = ", "`,` can't stand here."),
    changed("single quotes", '"on"', "'on'", "'on'", "`'` can't stand here. A text stands between double quotes (\")."),
    changed("a text without quotes", '"on"', "on", "on\n", 'There is no column `on` here. A text stands between double quotes: "on".'),
    changed("an open text", '"on"', '"on', '"on', "This text has no closing quote in its line."),
    changed("a line break in a text", '"on"', '"o\nn"', '"o\n', "This text has no closing quote in its line."),
    changed("an open name", "h.machine, h", "h.`machine, h", "`machine, h", "This name has no closing backquote in its line."),
    changed("a backslash that stands for nothing", '"on"', '"o\\n\\q"', '"o\\n', '"o\\n\\q" has a backslash that stands for nothing.'),
    changed("half a letter", '"on"', '"\\ud800"', '"\\ud800"', '"\\ud800" has a backslash that stands for nothing.'),
    changed("a semicolon", "h.load\n", "h.load;\n", ";", "`;` can't stand here. A statement ends with its line, and without a sign."),
    changed("another comment", "50 and", "50 // half\n  and", "// half", "`/` can't stand here. What is said to people alone stands behind a `#`."),
    changed("a computed side", "load >= 50", "load * 2 >= 50", "* 2", "`*` can't stand here. Nothing is worked out in a plan"),
    Mistake("a closing bracket that is missing", 'reports = source "reports.csv" (machine text', "", "The statement ends here. Here may stand `)` or a comma."),
    changed("a comma that is missing between columns", "machine text, cost", "machine text cost", "cost int", "`cost` can't stand here. Here may stand `)` or a comma."),
    changed("a colon between a column and its type", "cost int", "cost: int", ": int", "`:` can't stand here. Leave the colon out, as in machine text and unit second."),
    changed("square brackets", "(machine text, cost int)", "[machine text, cost int]", "[machine", "`[` can't stand here. Columns stand between round brackets."),
    changed("two signs of equality", "high    = ", "high    == ", "== ", "`==` stands behind the name `high`. It must be `=`."),
    Mistake("no sign of equality", f"{SOURCES}high select\n", "high select", "`high select` is no statement. A node is a name, `=`, and an operator with what it reads"),
    changed("a node that begins with a blank", "unit second\n", " unit second\n", "unit second", "Nothing stands before this line that it could go on with."),
    changed("a pattern of texts", "state = \"on\"", 'state like "o"', "like", "`like` can't stand here. A test compares two sides by =, !=, <, <=, > or >=; a range is two tests with `and`."),
    changed("quotes of a printed text", '"on"', "“on”", "“on", "`“` can't stand here. A text stands between double quotes (\")."),
    changed("a blank of another kind", "where load", "where\xa0load", "\xa0", "The sign 0xa0 can't stand here. A blank is the plain one or a tab."),
    changed("a statement that begins with a blank", "out     = output", "  out = output", "out =", "This line goes on with the statement above, since it begins with a blank."),
    Mistake("one behind a node without clauses", f"{SOURCES}n = starts reports\n m = ends n\n", "m = ends", "This line goes on with the statement above"),
    Mistake("a misspelt setting", "units second\n", "units", "`units second` is no statement. Perhaps `unit` is meant."),
    Mistake("a colon behind a setting", "unit: second\n", ":", "`:` can't stand here. Leave the colon out, as in machine text and unit second."),
    Mistake("a call", f"{SOURCES}n = group reports by machine sum(load)\n", "(load)\n", "`(` can't stand here. Columns of a list stand without brackets"),
    Mistake("all columns", f"{SOURCES}n = select * from reports\n", "* from", "`*` can't stand here. A node reads another one by its name, and all columns stay"),
    Mistake("an output without a name", f"{SOURCES}output reports\n", "output", "`output reports` is no statement. A node has a name in front of its operator: out = output reports."),
    Mistake("a pattern in small letters", f"{SOURCES}event q\n", "event", "`event q` is no statement. A pattern begins with EVENT, and its words are in capitals."),
    changed("a name between quotes", "h.machine, h.load", 'h.machine, h.load as "load"', '"load"', '`"load"` can\'t stand here. A name stands without quotes, or between backquotes.'),
    Mistake("a comment behind what ends too soon", "a = select # which one\n", " #", "The statement ends here."),
    changed("types without names", "machine text, cost int", "text, int", "text, int", "The column of the type `text` has no name. It stands in front, as in machine text."),
    Mistake("SQL", "SELECT machine FROM reports\n", "SELECT", "`SELECT machine` is no statement. A node is a name, `=`, and an operator with what it reads"),
    Mistake("a word alone", f"{SOURCES}nothing\n", "nothing", "`nothing` is no statement. A node is a name, `=`, and an operator with what it reads"),
    Mistake("a second value of a setting", "unit second minute\n", "minute", "`minute` can't stand here. Here may stand the end of the statement."),
    Mistake("a document", '{"version":1,"nodes":[]}\n', "{", "This is JSON, and not a plan in words. `cedr-plan words PLAN` writes a document as words."),
    Mistake("an event file", "+,1,10,20,a\n", "+", "This is a line of an event file, and not a plan in words. A source reads such a file."),
    Mistake("an input that is missing", "a = select\n", "", "The statement ends here. Here may stand a number, a name or a text between double quotes."),
    changed("a number with a comma", "2 minutes", "2,000 minutes", ",000", "`,` can't stand here. The digits of a number stand without signs between: 43200."),
    Mistake("a test that ends", f"{SOURCES}n = {SELECT} load >=\n", "", "The statement ends here. Here may stand a number, a name or a text between double quotes."),
]
NAMES = [
    changed("two nodes of one name", "visits  = ", "reports = ", 'reports = source "v', "`reports` is the name of an earlier node too. Each node has a name of its own."),
    changed("a node that isn't there", "select reports", "select report", "report where", "There is no node `report` above. Perhaps `reports` is meant. The nodes above are reports and visits."),
    changed("a node that stands below", "select reports", "select missed", "missed where", "There is no node `missed` above."),
    changed("a name with a letter that isn't ASCII", "high    =", "höhe =", "höhe", "`höhe` names a node, whose name has 1 to 64 ASCII letters, digits and `_` alone."),
    changed("a name of 65 letters", "high    =", "h" * 65 + " =", "h" * 65, f"`{'h' * 65}` names a node, whose name has 1 to 64"),
    changed("a name with a blank", "high    =", "`too high` =", "`too", "`too high` names a node, whose name has 1 to 64 ASCII letters, digits and `_` alone."),
    changed("an unknown operator", "select reports", "filter reports", "filter", f"`filter` is no operator. Perhaps `select` is meant, which keeps the rows that pass tests. {OPERATORS}"),
    changed("a misspelt operator", "unless high", "unles high", "unles ", "`unles` is no operator. Perhaps `unless` is meant"),
    changed("a word of another system for a source", "source \"visits", "read \"visits", "read", "`read` is no operator. Perhaps `source` is meant, which reads an event file."),
    changed("a misspelt column", "load >= 50", "laod >= 50", "laod", f"There is no column `laod` here. Perhaps `load` is meant. {OF_REPORTS}"),
    changed("a column that is nowhere", "load >= 50", "weight >= 50", "weight", f"There is no column `weight` here. {OF_REPORTS}"),
    changed("a column by its number", "load >= 50", "2 >= 50", "2 >= 50", "A test begins with a column, and not with 2."),
    changed("a column without its input", "where h.machine", "where machine", "machine = v", "There is no column `machine` here. Perhaps `h.machine` or `v.machine` is meant."),
    changed("a misspelt short name", "where h.machine", "where k.machine", "k.machine", "There is no column `k.machine` here. Perhaps `h.machine` or `v.machine` is meant."),
    changed("a name in place of a short one", "= v.machine", "= visits.machine", "visits.machine", "There is no column `visits.machine` here."),
    changed("a column of the second input of an unless", "keep h.machine", "keep v.machine", "v.machine, ", "There is no column `v.machine` here."),
    changed("a column without what it has become", "keep h.machine", "keep machine", "machine, h", "There is no column `machine` here. Perhaps `h.machine` is meant. Its columns are h.machine (text), h.state (text), h.load (int)."),
    changed("two inputs of one short name", "visits v", "visits h", "h within", "Two inputs are called `h` here. Give each a short name of its own, as in alarms a, alarms b."),
    node("a node twice without short names", "n = join reports, reports", "reports\nout", "Two inputs are called `reports` here."),
    changed("two columns of one name", "machine text, cost int", "cost text, cost int", "cost int", "Two columns of `visits` are called `cost`. Give one another name behind `as`."),
    node("two columns kept under one name", "n = project reports keep load, machine as load", "machine as", "Two columns of `n` are called `load`. Give one another name behind `as`."),
    node("two sums of one column", "n = group reports sum load, load", "load\nout", "Two columns of `n` are called `sum_load`. Give one another name behind `as`."),
    changed("two columns of one name in the answer", "keep h.machine, h.load", "keep h.machine, h.load as h.machine", "h.load as", "Two columns of the answer are called `h.machine`."),
    node("a short name of an input of a union", "n = union reports r, reports s", "r, reports", "The inputs of a `union` have no short names. Its columns are called as those of the first input."),
    node("a short name of an input of an atleast", "n = atleast 1 of reports r, reports within 5 s", "r, reports", "The inputs of an `atleast` have no short names. Its columns are called first, second and so on, by their begins."),
    node("a second ordinal that isn't there", "n = atleast 1 of reports, reports within 5 s where second.load > 3", "second.load", "There is no column `second.load` here. Perhaps `first.load` is meant."),
    changed("a reserved word as a short name", "high h,", "high by,", ", visits v", "`,` can't stand here."),
    changed("a column of no type", "cost int", "cost", "cost)", "The column `cost` has no type. Write cost text, or cost int for a whole number."),
    changed("an unknown type", "cost int", "cost float", "float", "`float` is no type. It must be `text` or `int`. There are no decimals: count in a smaller unit, as 1250 cents for 12.50, and write `int`."),
    changed("a type of other systems", "state text", "state varchar", "varchar", "`varchar` is no type. It must be `text` or `int`. Write `text` for it."),
    changed("a dash without a header", "cost int", "-", "-)", "A `-` stands where a `header` names a column that is none of the events."),
]
TESTS = [
    changed("a text compared with a number", 'state = "on"', "state = 1", "state = 1", "`state` is a text, and 1 is a number. The two sides of a test are of one type. Write \"1\" for the text."),
    changed("a number compared with a text", "load >= 50", 'load >= "50"', 'load >= "50"', '`load` is a number, and "50" is a text. The two sides of a test are of one type.'),
    changed("columns of two types", "= v.machine", "= v.cost", "h.machine = ", "`h.machine` is a text, and v.cost is a number. The two sides of a test are of one type."),
    changed("`==`", 'state = "on"', 'state == "on"', '== "on"', "`==` is no comparison. They are `=`, `!=`, `<`, `<=`, `>` and `>=`. Write `=`."),
    changed("`<>`", 'state = "on"', 'state <> "on"', '<> "on"', "`<>` is no comparison. They are `=`, `!=`, `<`, `<=`, `>` and `>=`. Write `!=`."),
    changed("`=>`", "load >= 50", "load => 50", "=> 50", "`=>` is no comparison. They are `=`, `!=`, `<`, `<=`, `>` and `>=`. Write `>=`."),
    changed("a sign of mathematics", "load >= 50", "load ≥ 50", "≥ 50", "`≥` is no comparison. They are `=`, `!=`, `<`, `<=`, `>` and `>=`. Write `>=`."),
    changed("a number in front", "load >= 50", "50 <= load", "50 <= load", "A test begins with a column, and not with 50; turn it round, as in load .. 50."),
    changed("a decimal", "load >= 50", "load >= 50.5", "50.5", "50.5 isn't a whole number. It has a decimal point; count in a smaller unit, as 1250 for 12.50."),
    changed("a number beyond 64 bits", "load >= 50", "load >= 9223372036854775808", "9223372036854775808", "9223372036854775808 is out of range: it must be from -9,223,372,036,854,775,808 to 9,223,372,036,854,775,807."),
    changed("a number of 5,000 digits", "load >= 50", "load >= " + "9" * 5_000, "9" * 5_000, f"{'9' * 40} .. is out of range"),
    changed("17 tests", "load >= 50 and", "load >= 50 and " * 16, "state = ", "This is test 17, and a node has at most 16."),
    node("a test of a sum's text", "n = group reports sum machine", "machine\nout", "`machine` is a text, and numbers alone are summed."),
    node("`where` of a window", "n = window reports for 5 s where load > 3", "where", "`where` says nothing to a `window`. Its words are `for`, `strong`, `middle`, `block` and `memory`."),
    node("a `where` twice", "n = select reports where load > 3 where load < 9", "where load < 9", "`where` stands twice. A node says it once."),
    node("a `within` of a join", "n = join reports r, visits v within 5 s", "within", "`within` says nothing to a `join`. Its words are `where`, `strong`, `middle`, `block` and `memory`."),
    node("a `keep` of a select", "n = select reports keep load", "keep", "`keep` says nothing to a `select`."),
    node("a `for` of a sequence", "n = sequence reports r, visits v within 5 s for 1 s", "for 1", "`for` says nothing to a `sequence`."),
    node("a level of a source", 'n = source "n.csv" (a text) strong', "strong", "`strong` says nothing to a `source`. It has no such words."),
]
SPANS = [
    changed("a misspelt unit", "2 minutes", "2 minuts", "minuts", f"`minuts` is no unit. Perhaps `minutes` is meant. {UNITS}"),
    changed("a unit in capitals", "2 minutes", "2 Minutes", "Minutes", "`Minutes` is no unit. Units are written in small letters: `minutes`."),
    changed("an `m`", "2 minutes", "2 m", "m for", "`m` is no unit. Write `min` for minutes."),
    changed("months", "2 minutes", "2 months", "months", "`months` is no unit. A month has 28 to 31 days; write how many days are meant."),
    changed("a year", "2 minutes", "1 year", "year", "`year` is no unit. A year has 365 or 366 days; write how many days are meant."),
    changed("no unit", "2 minutes", "120", "120", "120 has no unit. Where a line says `unit second`, each span has one: 120 seconds."),
    changed("a second number without a unit", "2 minutes", "2 minutes 30", "30 for", "30 stands behind a span. Each number of a span has its unit, as in 1 hour 30 minutes."),
    changed("no line `unit`", "unit second\n", "", "minutes", "`minutes` stands here, and the text doesn't say what the times of its files count. Write a line such as `unit second` at its top."),
    changed("a unit that doesn't divide", "unit second", "unit hour", "2 minutes", "2 minutes isn't a whole number of hours: it lies between 0 and 1. Write one of these, or count the times of the files in minutes, with `unit minute`."),
    changed("half a second", "1 second", "0.5 seconds", "0.5", "0.5 seconds isn't a whole number of seconds: it lies between 0 and 1. Write one of these, or count the times of the files in milliseconds, with `unit millisecond`."),
    changed("no time at all", "2 minutes", "0 minutes", "0 minutes", "0 minutes is out of range. A span here is from 1 to 1,099,511,627,776 seconds."),
    changed("a span below 0", "2 minutes", "-2 minutes", "-2", "-2 minutes is out of range. A span here is from 1 to 1,099,511,627,776 seconds."),
    changed("a span over the limit", "2 minutes", "1099511627777 seconds", "1099511627777", "1099511627777 seconds is out of range. A span here is from 1 to 1,099,511,627,776 seconds."),
    changed("a span over the limit in days", "2 minutes", "12725830 days", "12725830", "12725830 days is out of range."),
    changed("a span of 5,000 digits", "2 minutes", "9" * 5_000 + " s", "9" * 5_000, "This number has 5,000 digits, and is beyond every limit."),
    changed("a `within` that is missing", " within 2 minutes", "", "unless high", "An `unless` says `within`, which is missing here: missed = unless alarms a, visits v within 2 minutes for 1 second"),
    changed("a `for` that is missing", " for 1 second", "", "unless high", "An `unless` says `for`, which is missing here"),
    node("a `by` that is missing", "n = shift reports", "shift", "A `shift` says `by`, which is missing here: n = shift alarms by 60 seconds."),
    node("a `keep` that is missing", "n = project reports", "project", "A `project` says `keep`, which is missing here: n = project reports keep machine, load."),
    node("columns for a span", "n = shift reports by load", "by load", "A span stands behind this `by`, as in by 5 minutes."),
    node("a span for columns", "n = group reports by 5 minutes count", "5 minutes", "Columns stand behind this `by`, as in by machine."),
    node("a span that is for ever", "n = window reports for inf", "inf", "`inf` can't stand here."),
    changed("a unit that there is none of", "unit second", "unit sec0nd", "sec0nd", "`sec0nd` is no unit. Perhaps `second` is meant."),
    changed("a unit of no words", "unit second", "unit 1", "1\n", "`1` is no unit."),
    changed("a unit twice", "unit second\n", "unit second\nunit minute\n", "unit minute", "`unit` stands twice. A plan says it once."),
    Mistake("a unit below", TEXT.replace("unit second\n", "").replace("2 minutes for 1 second", "120 for 1") + "unit second\n", "unit second",
            "The `unit` stands above the nodes, whose spans it is for."),
]
LEVELS = [
    changed("two levels", "strong keep", "strong middle keep", "middle", "`middle` is a second level. A node has one."),
    changed("a level beside bounds", "strong keep", "strong block 0 memory 5 s keep", "block", "`block` is a second level. A node has one."),
    changed("a block alone", "strong keep", "block 5 s keep", "block", "A level has a block, how long it waits, and a memory, how late a change may be"),
    changed("a memory alone", "strong keep", "memory 5 s keep", "memory", "A level has a block, how long it waits, and a memory, how late a change may be"),
    changed("a block over the memory", "strong keep", "block 9 s memory 5 s keep", "9 s", "The block is over the memory."),
    changed("a block without limit over a memory", "strong keep", "block inf memory 5 s keep", "inf", "The block is over the memory."),
    changed("a level that there is none of", "strong keep", "weak keep", "weak",
            "`weak` would be a short name of the input, and no column here has it in front. A weak level says its block and its memory, as in block 0 memory 1 hour."),
    changed("a misspelt level with nothing behind", "strong keep h.machine, h.load", "stong", "stong",
            "`stong` would be a short name of the input, and no column here has it in front. Perhaps `strong` is meant."),
    node("a short name that says nothing", "n = window reports r for 5 s", "r for", "`r` would be a short name of the input, and no column here has it in front."),
    changed("a misspelt level", "strong keep", "stong 5 keep", "stong", "`stong` can't stand here. Perhaps `strong` is meant."),
    changed("a block over the limit", "strong keep", "block 1099511627777 s memory inf keep", "1099511627777", "1099511627777 s is out of range. A span here is from 0 to 1,099,511,627,776 seconds."),
]
COUNTS = [
    node("one input too few", "n = join reports r", "join", "A `join` reads 2 nodes, and 1 stands here."),
    node("one input too many", "n = select reports, visits", "visits\nout", "A `select` reads 1 node, and 2 stand here. A `union` in front of it makes one of up to four."),
    node("five inputs", "n = union reports, reports, reports, reports, visits", "visits\nout", "A `union` reads 2 to 4 nodes, and 5 stand here."),
    node("inputs of other types", "n = union reports, visits", "visits\nout", "The inputs of a `union` have columns of the same types: `reports` has machine (text), state (text), load (int); `visits` has machine (text), cost (int)."),
    node("no number of an atleast", "n = atleast reports, visits within 5 s", "atleast", "An `atleast` says how many of its inputs it takes: atleast 2 of smoke, heat, gas within 10 seconds."),
    node("a number over the inputs", "n = atleast 3 of reports, reports within 5 s", "3 of", "3 of 2 inputs are asked for. It must be from 1 to 2."),
    node("none of the inputs", "n = atleast 0 of reports, reports within 5 s", "0 of", "0 is out of range"),
    node("a number of another operator", "n = union 2 of reports, reports", "2 of", "`2 of` stands before the inputs of an `atleast` alone."),
    node("a file of a select", 'n = select "reports.csv"', '"reports.csv"\nout', "A file is read by a `source` alone. A `select` reads nodes by their names."),
    node("a source of a node", "n = source reports", "source reports", "A `source` reads a file, whose name stands between double quotes"),
    node("a source without columns", 'n = source "n.csv"', '"n.csv"', "The columns of its events are missing."),
    node("17 columns", f'n = source "n.csv" ({", ".join(f"k{place} int" for place in range(17))})', "k16", "This is column 17 of the source, and it may have 16."),
    node("a result of 18 columns", "n = sequence reports a, reports b, reports c, reports d within 5 s\nm = join n x, n y", "join n", "Its result would have 24 columns"),
    changed("a node that nothing reads", "unless high h", "unless reports h", "high  ", "No node reads `high`, so it says nothing to the answer. Let a later node read it, or take it out."),
    changed("no output", "output missed strong keep h.machine, h.load", "starts missed", "", "No node is the output, which hands out the answer. Write a last line: out = output out."),
    Mistake("two outputs", TEXT + "log = output high\n", "log", "This is a second output, and a plan has one."),
    Mistake("a node that reads the output", TEXT + "log = starts out\n", "out\n", "`out` is the output, which no node reads."),
    Mistake("65 nodes", SOURCES + "".join(f"n{place} = starts reports\n" for place in range(63)), "n62", "This is node 65 of the plan, and it may have 64."),
    Mistake("an empty text", "", "", "The text has no node. A plan in words is a line for each node"),
    Mistake("a text of comments", "# nothing\n\n# more\n", "# nothing", "The text has no node."),
    Mistake("a unit alone", "unit second\n", "unit", "The text has no node."),
    Mistake("an edge of 0", "edge 0\n" + TEXT, "0\n", "0 is out of range: it must be from 1 to 1,024."),
    Mistake("an edge in words", "edge many\n" + TEXT, "many", "many stands here. It must be a number."),
    Mistake("a version that there is none of", "version 3\n" + TEXT, "3\n", "3 is out of range: it must be from 1 to 2."),
    Mistake("a version that is too low", "version 1\n" + TEXT.replace("unless high h, visits v within 2 minutes for 1 second", "except high h, visits v"), "version",
            "Version 1 hasn't all that the except `missed` says. Write version 2, or leave this line out"),
    Mistake("an epoch that is no date", "epoch 1970-13-01\n" + TEXT, "1970", "1970-13-01 isn't a date in the form 1970-01-01 or 1970-01-01T00:00:00Z."),
    Mistake("an epoch without a unit", "epoch 1970-01-01\na = source \"a.csv\" ()\nb = output a\n", "epoch", "An `epoch` needs a `unit`, which says what times count from then on: unit second."),
    Mistake("a setting that there is none of", "zone Berlin\n" + TEXT, "zone", "`zone Berlin` is no statement."),
    changed("a header that isn't there", "\"visits.csv\" (machine text, cost int)", "\"visits.csv\" header \"none.csv\" (text, int)", '"none.csv"', 'The file "none.csv", whose header has the names, can\'t be read: there is no such file.'),
]
EVENTS = SOURCES + "EVENT n\nWHEN {}\n"


def pattern(name: str, text: str, mark: str, told: str) -> Mistake:
    return Mistake(name, EVENTS.format(text), mark, told)


PATTERNS = [
    pattern("a type of events that isn't there", "SEQUENCE(reports r, alarms a, 5 s)", "alarms", "No statement says which events `alarms` are. Write one such as alarms = source \"alarms.csv\" (machine text)."),
    pattern("an operator of patterns that isn't there", "SEQENCE(reports r, visits v, 5 s)", "SEQENCE", "`SEQENCE` is no operator of patterns. Perhaps SEQUENCE is meant. They are SEQUENCE, UNLESS, ALL, ANY, ATLEAST and NOT."),
    pattern("no span", "SEQUENCE(reports r, visits v)", "SEQUENCE", "SEQUENCE says at last within which span: SEQUENCE(A x, B y, 5 minutes)."),
    pattern("a span in front", "SEQUENCE(5 s, reports r, visits v)", "SEQUENCE", "SEQUENCE says at last within which span"),
    pattern("one event", "SEQUENCE(reports r, 5 s)", "SEQUENCE", "SEQUENCE has 2 to 4 events or patterns, and 1 stands here."),
    pattern("ATMOST", "ATMOST(1, reports r, visits v, 5 s)", "ATMOST", "ATMOST isn't taken. No operator has rows for what is there too seldom"),
    pattern("CANCEL-WHEN", "CANCEL-WHEN(SEQUENCE(reports r, visits v, 5 s), visits w)", "CANCEL-WHEN", "CANCEL-WHEN isn't taken. No operator sees a pattern that has only begun"),
    pattern("two events of one name", "SEQUENCE(reports r, visits r, 5 s)", "r, 5 s", "Two events are called `r`. Give each a name of its own, as in visits x."),
    pattern("a test of no event", "SEQUENCE(reports r, visits v, 5 s) WHERE {w.machine = v.machine}", "w.machine", "There is no event `w` here. The events are r and v."),
    pattern("a test without an event", "SEQUENCE(reports r, visits v, 5 s) WHERE {machine = v.machine}", "machine = v", "`machine` has no event in front of it. Write it as in r.machine."),
    pattern("a test without braces", "SEQUENCE(reports r, visits v, 5 s) WHERE r.machine = v.machine", "r.machine", "`r` can't stand here. Here may stand `{`."),
    pattern("the column of a test that isn't there", "SEQUENCE(reports r, visits v, 5 s) WHERE {r.machin = v.machine}", "r.machin", "There is no column `r.machin` here. Perhaps `r.machine` is meant."),
    pattern("an answer of what must not come", "UNLESS(reports r, visits v, 5 s) OUTPUT v.machine", "v.machine", "`v` is of the part of an UNLESS that must not come, so no event of it is there afterwards."),
    pattern("a test of what must not come", "SEQUENCE(UNLESS(reports r, visits v, 5 s), visits w, 9 s) WHERE {v.cost = w.cost}", "v.cost", "`v` is of the part of an UNLESS that must not come"),
    pattern("an event of an ALL by its name", "ALL(reports r, reports s, 5 s) OUTPUT r.load", "r.load", "`r` is of an ALL, whose events stand in the order of their begins: they are called first, second and so on."),
    pattern("a test that tells the events of an ALL apart", "ALL(reports r, reports s, 5 s) WHERE {r.load < s.load}", "r.load", "The events of ALL stand in the order of their begins, so a test can't tell which of them is which"),
    pattern("a name that two parts have", "SEQUENCE(ALL(reports r, reports s, 5 s), ALL(visits v, visits w, 5 s), 9 s) OUTPUT first.machine", "first.machine",
            "`first` is of two parts of the pattern, and nothing says which one is meant."),
    pattern("a NOT over two parts of one name", "NOT(visits z, SEQUENCE(ALL(reports r, reports s, 5 s), ALL(visits v, visits w, 5 s), 9 s))", "NOT",
            "Two parts of this SEQUENCE call their events first and second, and nothing says which of them is meant."),
    pattern("an ATLEAST without a number", "ATLEAST(reports r, reports s, 5 s)", "ATLEAST", "ATLEAST says first how many of its events it takes: ATLEAST(2, A x, B y, C z, 5 minutes)."),
    pattern("an ANY with a span", "ANY(reports r, reports s, 5 s)", "5 s)", "ANY has no span, since one event is enough: ANY(A x, B y)."),
    pattern("a NOT of no sequence", "NOT(visits v, reports r)", "NOT", "NOT has an event, and the SEQUENCE in which it must not come: NOT(C z, SEQUENCE(A x, B y, 5 minutes))."),
    pattern("a NOT that is tied to one end", "NOT(visits v, SEQUENCE(reports r, reports s, 5 s)) WHERE {v.machine = r.machine}", "v.machine", "`v.machine` is tied to one end of the sequence alone."),
    pattern("a NOT whose ends aren't equal", "NOT(visits v, SEQUENCE(reports r, reports s, 5 s)) WHERE {r.machine = v.machine} AND {v.machine = s.machine}",
            "v.machine} AND", "`v.machine` is equal to `r.machine` and to `s.machine`. Say that these are equal too: {r.machine = s.machine}."),
    pattern("a NOT that is tied by another sign", "NOT(visits v, SEQUENCE(reports r, reports s, 5 s)) WHERE {v.cost < r.load}", "v.cost", "What must not come between is tied to the sequence by equal columns alone, and this test says `<`."),
    pattern("a level that there is none of", "reports r WITH LEVEL weak", "weak", "`weak` can't stand here."),
    pattern("events of other types in an ALL", "ALL(reports r, visits v, 5 s)", "visits v", "The inputs of an `atleast` have columns of the same types"),
]
ALL = [*FORMS, *NAMES, *TESTS, *SPANS, *LEVELS, *COUNTS, *PATTERNS]
