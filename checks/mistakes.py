"""Ordinary mistakes of people who write a plan or an event file, or call the program.

What `cedr-explain` says of each is written by hand, from docs/plans.md, docs/faults.md and docs/program.md."""
from typing import NamedTuple

PLAN = '''{"version":1,"nodes":[
 {"name":"orders","op":"source","file":"orders.csv","fields":["text","int"]},
 {"name":"payments","op":"source","file":"payments.csv","fields":["text","int"]},
 {"name":"large","op":"select","from":["orders"],"where":[[1,">=",{"int":100}]]},
 {"name":"unpaid","op":"unless","from":["large","payments"],"scope":86400,"hold":3600,"where":[[0,"=",{"column":2}]]},
 {"name":"hours","op":"hop","from":["unpaid"],"every":3600,"width":3600},
 {"name":"totals","op":"group","from":["hours"],"keys":[0],"count":true,"sum":[1]},
 {"name":"out","op":"output","from":["totals"],"level":"strong"}]}
'''
FILES = {
    "plan.json": PLAN,
    "orders.csv": "+,1,1000,1001,A1,250\n+,2,2000,2001,A2,40\n+,3,3000,3001,A3,700\n-,2,2000\n=,3000\n",
    "payments.csv": "+,1,5000,5001,A1,250\n=,5000\n",
    "script.txt": "orders,+,1,1000,1001,A1,250\npayments,+,1,5000,5001,A1,250\n?\n",
    "saved.txt": "checkpoint,1\nsource,orders,1000\n1,1000,1001,A1,250\n2,2000,2000\nsource,payments,0\n1,5000,5001,A1,250\n"
                 "end\n",
    "next.txt": "orders,+,3,3000,3001,A3,700\norders,-,3,3000\n?\n",
}
COLUMNS = "Its columns are 0 (text), 1 (int) of `large`; 2 (text), 3 (int) of `payments`."
COMPARISONS = 'It must be one of "=", "!=", "<", "<=", ">", ">=".'
KINDS = "It must be `+` for an insertion, `-` for a retraction, `~` for a revision or `=` for a guarantee."
WHOLE = "It must be a whole number from 0 to 4,611,686,018,427,387,903, in digits alone"
SPAN = "It must be a whole number from 1 to 1,099,511,627,776"
MANY = "9" * 5_000
USAGE = ("usage: cedr history FILE | check PLAN | serial PLAN | run PLAN | stream PLAN | audit PLAN | "
         "live PLAN SCRIPT | make N | pool N PLAN | parts N PLAN | save PLAN SCRIPT | resume PLAN CHECKPOINT SCRIPT | "
         "follow PLAN SCRIPT | follow PLAN CHECKPOINT SCRIPT")


class Mistake(NamedTuple):
    """What was done: the words behind the program, and in which file which text stands for which other one.

    `told` is what the program says, of status `status`. `lines` are among the lines that the tool adds, in this order.
    Where `mark` is given, the first of them stands behind the file, the line and the column at which the first mark is
    in the plan.
    """
    name: str
    words: str
    status: int
    told: str
    lines: list
    file: str = ""
    old: str = ""
    new: str = ""
    mark: str = ""

    def files(self) -> dict:
        """The files with the mistake in them, as bytes.

        Where no text is told that another one replaces, the whole file is new.
        """
        files = {name: text.encode() for name, text in FILES.items()}
        if self.file and not self.old:
            files[self.file] = self.new.encode("utf-8", "surrogateescape")
        elif self.file:
            before, old, behind = FILES[self.file].partition(self.old)
            if not old:
                raise ValueError(f"{self.name}: {self.old} isn't in {self.file}")
            files[self.file] = (before + self.new + behind).encode("utf-8", "surrogateescape")
        return files

    def wanted(self) -> list:
        if not self.mark:
            return self.lines
        text = self.files()["plan.json"].decode()
        place = text.index(self.mark)
        line, column = text.count("\n", 0, place) + 1, place - text.rfind("\n", 0, place)
        return [f"plan.json:{line}:{column}: {self.lines[0]}", *self.lines[1:]]


def in_plan(name: str, old: str, new: str, fault: int, node: int, mark: str, *lines: str,
            words: str = "run plan.json") -> Mistake:
    """A mistake in plan.json."""
    return Mistake(name, words, 2, f"plan fault {fault} node {node}", [*lines], "plan.json", old, new, mark)


def in_events(name: str, old: str, new: str, told: str, *lines: str, words: str = "run plan.json") -> Mistake:
    """A mistake in orders.csv."""
    return Mistake(name, words, 3, f"events orders {told}", [*lines], "orders.csv", old, new)


def in_words(name: str, words: str, *lines: str) -> Mistake:
    """Words that match no command."""
    return Mistake(name, words, 1, USAGE, [*lines])


def unreadable(name: str, words: str, *lines: str, old: str = "", new: str = "") -> Mistake:
    """A file that can't be read, named by the words or by plan.json."""
    return Mistake(name, words, 4, "read fault", [*lines], "plan.json" if old else "", old, new)


def accepted(name: str, old: str, new: str, mark: str, *lines: str) -> Mistake:
    """A plan that is accepted, with a member that says nothing."""
    return Mistake(name, "check plan.json", 0, "", [*lines], "plan.json", old, new, mark)


TESTS = '"where":[[0,"=",{"column":2}]]'
FIELDS = '"orders.csv","fields":["text","int"]'
JSON = [
    in_plan("a comma behind the last node", '"strong"}]}', '"strong"},]}', 2, 0, ",]}",
            "The plan isn't JSON: nothing follows this comma before the `]`; leave it out."),
    in_plan("no comma between two nodes", '["text","int"]},\n {"name":"payments"',
            '["text","int"]}\n {"name":"payments"', 2, 0, '{"name":"payments"',
            "The plan isn't JSON: a comma or `]` is missing here."),
    in_plan("single quotes", '"orders.csv"', "'orders.csv'", 2, 0, "'orders.csv'",
            'The plan isn\'t JSON: a text stands between double quotes ("), and not between single ones.'),
    in_plan("a comment", ' {"name":"large"', ' // orders of 100 and more\n {"name":"large"', 2, 0, "// orders",
            "The plan isn't JSON: JSON has no comments."),
    in_plan("a name without quotes", '"hold":3600', "hold:3600", 2, 0, "hold:",
            'The plan isn\'t JSON: a member\'s name stands between double quotes: "hold".'),
    in_plan("a truth value of Python", '"count":true', '"count":True', 2, 0, "True",
            "The plan isn't JSON: JSON writes true, false and null, in small letters, and not True."),
    in_plan("a brace too few", '"strong"}]}', '"strong"}]', 2, 0, "",
            "plan.json:9:1: The plan isn't JSON: the text ends here, and the object that begins at line 1, column 1 "
            "has no `}`."),
    in_plan("an event file as the plan", "", FILES["orders.csv"], 2, 0, "+,1,1000",
            "This is an event file, and no plan. The plan isn't JSON: `+` isn't a number of JSON: digits, perhaps "
            "after one `-`, without a sign `+` or a zero in front."),
    in_plan("a byte order mark before the plan", "", "\ufeff" + PLAN, 2, 0, "\ufeff",
            "The plan isn't JSON: the text begins with a byte order mark; save it as UTF-8 without one."),
    in_plan("an empty plan", "", " ", 2, 0, "",
            "plan.json:1:2: The plan isn't JSON: the text ends here, where a value is missing."),
    in_plan("a plan that is too long", "", PLAN + " " * 1_048_576, 1, 0, "{",
            f"The plan has {len(PLAN) + 1_048_576:,} bytes. It may have 1,048,576."),
]
DOCUMENT = [
    in_plan("no version", '"version":1,', "", 3, 0, "{",
            "`version` is missing. It must be the number 1 or 2, the version of the plan language: "
            '{"version":1,"nodes":[..]}.'),
    in_plan("the version as a text", '"version":1', '"version":"1"', 3, 0, '"1"',
            '`version` is "1", a text. It must be the number 1 or 2, the version of the plan language, in one digit.'),
    in_plan("an array of nodes alone", "", "[]", 3, 0, "[]",
            "The document is an array. It must be an object with the members `version` and `nodes`: "
            '{"version":1,"nodes":[..]}.'),
    in_plan("edges of no room", '"version":1,', '"version":1,"edge":0,', 6, 0, "0,",
            "`edge` is 0. It must be a whole number from 1 to 1,024."),
    in_plan("65 nodes", "", '{"version":1,"nodes":[' + ",".join(["0"] * 65) + "]}", 5, 0, "",
            "plan.json:1:151: The plan has 65 nodes, of which this is number 65. It may have 64."),
    in_plan("no output", ',\n {"name":"out","op":"output","from":["totals"],"level":"strong"}', "", 13, 0,
            '[\n {"name":"orders"',
            "No node is the output, which hands out the answer. Put one at the end: "
            '{"name":"out","op":"output","from":["totals"]}.'),
    in_plan("two outputs", '{"name":"out"', '{"name":"log","op":"output","from":["large"]},\n {"name":"out"', 13, 8,
            '{"name":"out"',
            "Node 7, the output `log`, is an output already, and a plan has one. A `union` makes one answer of up to "
            "four; for two answers write two plans."),
    in_plan("a node that is left over", '"from":["totals"]', '"from":["hours"]', 14, 6, '{"name":"totals"',
            "No node has `totals` in its `from`, so it says nothing to the answer. The output reads `hours`. Let a "
            "later node read it, or take it out."),
]
MEMBERS = [
    in_plan("a column by its name", '[[1,">=",{"int":100}]]', '[["amount",">=",{"int":100}]]', 3, 3, '"amount"',
            'The column of test 1 of `where` is "amount", a text. A column is a whole number, counted from 0, and '
            "never a name."),
    in_plan("two signs for equality", TESTS, TESTS.replace('"="', '"=="'), 3, 4, '"=="',
            f'The comparison of test 1 of `where` is "==". {COMPARISONS} Write "=".', words="pool 2 plan.json"),
    in_plan("a number beside no object", '{"int":100}', "100", 3, 3, "100",
            'What test 1 of `where` compares with is 100, a number. It must be an object: {"int":100} for this number, '
            'or {"column":100} for a column.'),
    in_plan("a text beside no object", '[[1,">=",{"int":100}]]', '[[0,"=","A1"]]', 3, 3, '"A1"',
            'What test 1 of `where` compares with is "A1", a text. It must be an object: {"text":"A1"} for this text, '
            'or {"column":1} for a column.'),
    in_plan("a number between quotes", '{"int":100}', '{"int":"100"}', 3, 3, '"100"',
            'The `int` of test 1 of `where` is "100", a text. It must be a whole number from '
            "-9,223,372,036,854,775,808 to 9,223,372,036,854,775,807, without quotes and unit. Write it without "
            "quotes: 100."),
    in_plan("one test in no array", '[[1,">=",{"int":100}]]', '[1,">=",{"int":100}]', 3, 3, '[1,">="',
            '`where` is the test [1,">=",{"int":100}] itself. It must be an array of tests: [[1,">=",{"int":100}]].'),
    in_plan("a condition as a text", '[[1,">=",{"int":100}]]', '"amount >= 100"', 3, 3, '"amount',
            '`where` is "amount >= 100", a text. It must be an array of tests, as [[0,"=",{"int":5}]]; [] has none.'),
    in_plan("a span with a unit", "86400", '"24h"', 3, 4, '"24h"',
            f'`scope` is "24h", a text. {SPAN}, without quotes and unit. 24h is 86400 where times are in seconds, and '
            "86400000 where in milliseconds."),
    in_plan("a span of more digits than Python's int takes", '"every":3600', f'"every":"{MANY}"', 3, 5, '"999',
            f'`every` is "{MANY[:59]} .., a text. {SPAN}, without quotes and unit.'),
    in_plan("the same with a unit", "86400", f'"{MANY}h"', 3, 4, '"999',
            f'`scope` is "{MANY[:59]} .., a text. {SPAN}, without quotes and unit.'),
    in_plan("a type of decimals", FIELDS, FIELDS.replace('"int"', '"float"'), 3, 1, '"float"',
            'Field 1 of `fields` is "float". It must be "int" or "text". There are no decimals: count in a smaller '
            'unit, as 1250 cents for 12.50, and write "int".'),
    in_plan("a type of texts", FIELDS, FIELDS.replace('"text"', '"string"'), 3, 1, '"string"',
            'Field 0 of `fields` is "string". It must be "int" or "text". Write "text" for it.'),
    in_plan("a type of dates", FIELDS, FIELDS.replace('"int"', '"timestamp"'), 3, 1, '"timestamp"',
            'Field 1 of `fields` is "timestamp". It must be "int" or "text". A date is a whole number of a unit, as '
            '1767225600 seconds for 2026-01-01, and its type is "int".'),
    in_plan("no hold", ',"hold":3600', "", 3, 4, '{"name":"unpaid"', '`hold` is missing. Write it as in "hold":1.'),
    in_plan("a misspelt member", '"where":[[1', '"were":[[1', 3, 3, '{"name":"large"',
            '`where` is missing. Write it as in "where":[[0,"=",{"column":1}]].',
            "plan.json:4:57: The member `were` of node 3 says nothing. Perhaps `where` is meant."),
    in_plan("one name and no array", '"from":["orders"]', '"from":"orders"', 3, 3, '"orders","where"',
            '`from` is "orders", a text. It must be an array of names, even of one: ["orders"].'),
    in_plan("an input too few", '["large","payments"]', '["large"]', 3, 4, '["large"]',
            "`from` has 1 name. An `unless` reads 2 earlier nodes."),
    in_plan("an input too many", '"from":["hours"]', '"from":["hours","large"]', 5, 6, '"large"],"keys"',
            "`from` has 2 names. A `group` reads 1 earlier node. A `union` in front of it makes one of up to four."),
    in_plan("a name with a hyphen", '"name":"large"', '"name":"large-orders"', 3, 3, '"large-orders"',
            '`name` is "large-orders". A name has 1 to 64 ASCII letters, digits and `_` alone, as "large_orders" has.'),
    in_plan("a flag between quotes", '"count":true', '"count":"true"', 3, 6, '"true"',
            '`count` is "true", a text. It must be true or false, without quotes.'),
    in_plan("a column in no array", '"sum":[1]', '"sum":1', 3, 6, "1}",
            '`sum` is 1, a number. It must be an array of columns, as in "sum":[]. For this one column write [1].'),
    in_plan("an operator of another system", '"op":"select"', '"op":"filter"', 4, 3, '"filter"',
            '`op` is "filter". Perhaps "select" is meant, which keeps the rows that pass tests. The operators of '
            "version 1 are source, select, project, union, join, window, shift, hop, starts, ends, group, sequence, "
            "unless, output."),
    in_plan("an operator of version 2", '"op":"unless"', '"op":"except"', 4, 4, '"except"',
            '`op` is "except". except is an operator of version 2: write "version":2 at the top of the plan.'),
    in_plan("a span of nothing", '"every":3600', '"every":0', 6, 5, '0,"width"', f"`every` is 0. {SPAN}."),
    in_plan("a number with a point", "86400", "86400.0", 6, 4, "86400.0",
            f"`scope` is 86400.0. {SPAN}, written in digits alone, without point and exponent, and below 2^64."),
    in_plan("a column from the end", '"sum":[1]', '"sum":[-1]', 6, 6, "-1",
            "Entry 0 of `sum` is -1. A column is a whole number, counted from 0, in digits alone."),
    in_plan("a weak level by its name", '"strong"', '"weak"', 7, 7, '"weak"',
            '`level` is "weak". It must be "strong", "middle" or {"block":0,"memory":60}. A weak level is the object, '
            'whose memory says how late a change may be: {"block":0,"memory":60}.'),
    in_plan("a block over its memory", '"strong"', '{"block":600,"memory":60}', 7, 7, '{"block"',
            "The level's block, 600, is over its memory, 60. What is waited for can't be forgotten before: make the "
            "memory as long at least."),
    in_plan("a level without a memory", '"strong"', '{"block":600}', 3, 7, '{"block"',
            'The level has no `memory`. It must have a `block` and a `memory`, each a number or "inf", as in '
            '{"block":0,"memory":60}.'),
]
NODES = [
    in_plan("a name twice", '"name":"payments"', '"name":"orders"', 8, 2,
            '"orders","op":"source","file":"payments.csv"',
            '`name` is "orders", which is the name of node 1, the source `orders`, too. Each node has a name of its '
            "own."),
    in_plan("a misspelt input", '["large","payments"]', '["large","payment"]', 9, 4, '"payment"',
            '`from` has "payment". No node has that name. Perhaps `payments` is meant. The earlier nodes are orders, '
            "payments, large."),
    in_plan("an input that stands behind", '"from":["orders"]', '"from":["hours"]', 9, 3, '"hours"],"where"',
            '`from` has "hours". Node 5 has that name, but stands behind; move it in front of this one. The earlier '
            "nodes are orders, payments."),
    in_plan("a result that is too wide", '"keys":[0]', '"keys":[' + ",".join(["0"] * 15) + "]", 10, 6,
            '{"name":"totals"',
            "Its result would have 17 fields: 15 by `keys`, 1 by `sum`, and the count. It may have 16. Put a `project` "
            "in front of it that keeps the fields that are needed."),
    in_plan("a column counted within the second input", TESTS, TESTS.replace("2", "4"), 11, 4, "4}",
            f"The column that test 1 of `where` compares with is 4, which is past the end. {COLUMNS}"),
    in_plan("columns counted from 1", TESTS, TESTS.replace("[[0", "[[1"), 12, 4, '[1,"="',
            f"Test 1 of `where` compares column 1, which is an int, with column 2, which is a text. {COLUMNS}"),
    in_plan("a number compared with a text", '{"int":100}', '{"text":"100"}', 12, 3, '[1,">="',
            "Test 1 of `where` compares column 1, which is an int, with a text. Its columns are 0 (text), 1 (int) of "
            "`orders`."),
    in_plan("a sum over a text", '"sum":[1]', '"sum":[0]', 12, 6, "0]}",
            "Entry 0 of `sum` is column 0, which is a text. Numbers alone are summed. Its columns are 0 (text), 1 "
            "(int) of `hours`."),
]
LINES = [
    in_events("a header", "+,1,1000", "id,begin,end,order,amount\n+,1,1000", "line 1 fault 2",
              "`orders.csv` is the file of the source `orders`.",
              f"orders.csv:1: Its first field is `id`. {KINDS} The line looks like a header, and an event file has "
              "none: take it out.",
              "> 1 | id,begin,end,order,amount", "  2 | +,1,1000,1001,A1,250"),
    in_events("semicolons", "+,1,1000,1001,A1,250", "+;1;1000;1001;A1;250", "line 1 fault 2",
              "orders.csv:1: Its fields are separated by semicolons. They must be by commas: +,ID,BEGIN,END."),
    in_events("a field too few", ",A2,40", ",A2", "line 2 fault 2",
              "orders.csv:2: It has 5 fields. An insertion has 6, since its source has 2 by the plan: "
              "+,ID,BEGIN,END,TEXT,INT.",
              "  1 | +,1,1000,1001,A1,250", "> 2 | +,2,2000,2001,A2", "  3 | +,3,3000,3001,A3,700"),
    in_events("a comma in a field", "A2,", "A2, urgent,", "line 2 fault 2",
              "orders.csv:2: It has 7 fields. An insertion has 6, since its source has 2 by the plan: "
              "+,ID,BEGIN,END,TEXT,INT. A field with a comma in it stands between quotes.", words="pool 2 plan.json"),
    in_events("a quote in a field", "A2,", 'A2 "urgent",', "line 2 fault 2",
              'orders.csv:2: Field 5, `A2 "urgent"`, has a quote and doesn\'t begin with one. Such a field stands '
              'between quotes, and a quote in it is written twice: "A2 ""urgent""".'),
    in_events("a byte order mark", "+,1,1000", "\ufeff+,1,1000", "line 1 fault 2",
              "orders.csv:1: The file begins with a byte order mark, which no line may have in front. Save the file as "
              "UTF-8 without one."),
    in_events("carriage returns alone", "\n+,2", "\r+,2", "line 1 fault 2",
              "orders.csv:1: A carriage return stands inside it, behind `+,1,1000,1001,A1,250`. One alone is dropped, "
              "and that at the line's end."),
    in_events("blanks behind the commas", "+,1,1000", "+, 1, 1000", "line 1 fault 3",
              "orders.csv:1: Its ID is ` 1`. It must be a whole number from 0 to 18,446,744,073,709,551,615, in digits "
              "alone. It has a blank at its begin or its end.",
              f"orders.csv:1: Its BEGIN is ` 1000`. {WHOLE}. It has a blank at its begin or its end."),
    in_events("a date", "1000,1001", "2026-01-01T00:00:00Z,1001", "line 1 fault 3",
              f"orders.csv:1: Its BEGIN is `2026-01-01T00:00:00Z`. {WHOLE}. It is a date; a time is a whole number of "
              "a unit, as 1767225600 seconds for 2026-01-01."),
    in_events("no end", "1000,1001", "1000,", "line 1 fault 3",
              f"orders.csv:1: Its END is ``. {WHOLE}, or `inf`. The END of what has no end is `inf`."),
    in_events("an event of no length", "1000,1001", "1000,1000", "line 1 fault 4",
              "orders.csv:1: Its END, 1000, isn't after its BEGIN, 1000. An event is valid from BEGIN on and before "
              "END. An event of one moment has the END 1001."),
    in_events("a decimal", ",250", ",2.50", "line 1 fault 5",
              "orders.csv:1: Its field 1, `2.50`, must be an int by the plan: a whole number from -2^63 to 2^63 - 1, "
              "in digits, perhaps after a `-`. It has a decimal point; count in a smaller unit, as 1250 for 12.50."),
    in_events("an ID twice", "+,3", "+,1", "line 3 fault 6",
              "orders.csv:3: Its ID, 1, was inserted before, by line 1. Each insertion has an ID of its own, even "
              "where that event was withdrawn. A line `~,1,BEGIN,END,FIELD..` gives that event another begin, end and "
              "other fields."),
    in_events("a retraction before its insertion", "+,2,2000,2001,A2,40\n+,3,3000,3001,A3,700\n-,2,2000\n",
              "-,2,2000\n+,2,2000,2001,A2,40\n", "line 2 fault 7",
              "orders.csv:2: Its ID, 2, was inserted by no line before. Line 3 does: it must stand before. A line `-` "
              "or `~` names an event that a line `+` of the same file inserted."),
    in_events("a retraction to a later end", "-,2,2000", "-,2,2600", "line 4 fault 8 begin 2000 end 2001",
              "orders.csv:4: The event 2 is valid from 2000 on and before 2001 by line 2. A retraction makes an end "
              "earlier: its END must be from 2000, which withdraws the event, to 2000. For a later end write "
              "`~,2,2000,2600,FIELD..`."),
    in_events("a retraction of what was withdrawn", "=,3000", "-,2,2000", "line 5 fault 8 begin 2000 end 2000",
              "orders.csv:5: The event 2 was withdrawn before, by line 4. A line `~,2,BEGIN,END,FIELD..` alone can "
              "bring it back."),
    in_events("a line that breaks a guarantee", "=,3000\n", "=,3000\n+,4,2500,2501,A4,90\n",
              "line 6 fault 9 sync 2500 mark 3000",
              "orders.csv:6: It changes something from 2500 on, its BEGIN, and line 5, `=,3000`, guarantees that no "
              "later line does so before 3000. Such a line is best left out, or the guarantee comes later. "
              'docs/guide.md says in "Corrections" what can still be put right once a guarantee has passed.'),
    in_events("a revision of what a guarantee has passed", "=,3000\n", "=,3000\n~,1,4000,4001,A1,250\n",
              "line 6 fault 9 sync 1000 mark 3000",
              "orders.csv:6: It changes something from 1000 on, the begin that the event had by line 1, and line 5, "
              "`=,3000`, guarantees that no later line does so before 3000. Such a line is best left out, or the "
              'guarantee comes later. docs/guide.md says in "Corrections" what can still be put right once a guarantee '
              "has passed."),
    in_events("a line that is too long", "A1", "A" * 65_536, "line 1 fault 1",
              "orders.csv:1: It has over 65,536 bytes before its line feed."),
    Mistake("a script's line without a source", "live plan.json script.txt", 3, "events script.txt line 1 fault 2",
            ["script.txt:1: A line of a script is `?` alone, or the name of a source, a comma and an event line of it. "
             "The name of the source is missing in front, as in orders,+,1,1000,1001,A1,250. The plan's sources are "
             "orders, payments."],
            "script.txt", "orders,", ""),
    Mistake("a script's line of a misspelt source", "live plan.json script.txt", 3, "events script.txt line 2 fault 2",
            ["script.txt:2: A line of a script is `?` alone, or the name of a source, a comma and an event line of it. "
             "`payment` is no source. The plan's sources are orders, payments."],
            "script.txt", "payments,", "payment,"),
]
OUTSIDE = [
    unreadable("a plan that isn't there", "run plans.json",
               "The plan, `plans.json`, can't be read: there is no such file. Perhaps `plan.json` is meant."),
    unreadable("a hyphen for standard input", "history -",
               "The event file, `-`, can't be read: there is no such file. Standard input has no short name: write "
               "/dev/stdin."),
    unreadable("a source that isn't there", "run plan.json",
               "The file of the source `payments`, `payment.csv`, can't be read: there is no such file. Perhaps "
               "`payments.csv` is meant.", old="payments.csv", new="payment.csv"),
    unreadable("a source by a pattern", "pool 2 plan.json",
               "The file of the source `orders`, `*.csv`, can't be read: there is no such file. Nobody replaces `*` "
               "and `?` in a plan: a source has one file, and a `union` reads up to four sources.",
               old="orders.csv", new="*.csv"),
    unreadable("a folder for a file", "history .", "The event file, `.`, can't be read: it is a folder."),
    in_words("no command", "", "No command was given.", "`cedr --help` says what each command does."),
    in_words("a plan without a command", "plan.json",
             "A command stands before the plan: `cedr run plan.json` answers it, and `cedr check plan.json` says "
             "whether it is right."),
    in_words("another word for help", "-h", "`-h` is no command. Perhaps `--help` is meant."),
    in_words("a misspelt command", "histroy orders.csv", "`histroy` is no command. Perhaps `history` is meant."),
    in_words("no number of threads", "pool plan.json",
             "Behind `pool` stands one word; it is called as `cedr pool N PLAN`."),
    in_words("too many threads", "pool 32 plan.json",
             "N is `32`. It must be a number from 1 to 16 in digits; the form is `cedr pool N PLAN`."),
    in_words("an option", "run --strict plan.json",
             "Behind `run` stand 2 words; it is called as `cedr run PLAN`.",
             "`--strict` would be an option, and the program has none but `--help` and `--version`, which stand "
             "alone."),
]
UNREAD = [
    accepted("a misspelt level", '"level"', '"levle"', '"strong"',
             "note: The member `levle` of node 7, the output `out`, says nothing. Perhaps `level` is meant."),
    accepted("a source's level", '"orders.csv",', '"orders.csv","level":"strong",', '"strong"',
             "note: The member `level` of node 1, the source `orders`, says nothing. A level is that of a node's "
             "ports, and a source has none: write it in the nodes that read the source."),
    accepted("a name with a backtick, of which a part is another name", '"orders.csv",',
             '"orders.csv","level`s":"strong",', '"strong"',
             "note: The member `level`s` of node 1, the source `orders`, says nothing."),
    accepted("a least field in version 1", '"sum":[1]', '"sum":[1],"least":[1]', "[1]}",
             "note: The member `least` of node 6, the group `totals`, says nothing. In a plan of version 2 it does: "
             'write "version":2.'),
    accepted("a member twice", '"width":3600', '"width":60,"width":3600', "3600}",
             "note: The member `width` of node 5, the hop `hours`, stands twice. This last one counts."),
    accepted("two sides of a test", '{"int":100}', '{"int":100,"text":"100"}', '"100"',
             "note: Test 1 of node 3, the select `large`, has the member `text` beside `int`. `int` counts."),
    accepted("a comment as a member", '"version":1,', '"version":1,"comment":"orders",', '"orders","nodes"',
             "note: The member `comment` of the plan says nothing."),
]
ALL = [*JSON, *DOCUMENT, *MEMBERS, *NODES, *LINES, *OUTSIDE, *UNREAD]
