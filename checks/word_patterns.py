"""Patterns over small files, with the answers worked out by hand, and the answer to a NOT as its definition has it."""
from __future__ import annotations

import random
import re
from typing import NamedTuple

TYPES = 'K = source "c.csv" (count text, n int)\n' + "".join(f'{name} = source "{name.lower()}.csv" (m text, n int)\n' for name in "ABC")
# The begin, the machine and the number of each event. Each holds for one unit, but for the one of A at 10.
EVENTS = {
    "A": [(10, "p", 1), (12, "q", 2)],
    "B": [(8, "p", 3), (14, "p", 4), (15, "q", 5), (30, "p", 6)],
    "C": [(11, "p", 7), (15, "q", 8), (40, "p", 9)],
}
LONG = {("A", 10): 50}


class Case(NamedTuple):
    name: str
    text: str
    header: str
    rows: list


CASES = [
    # 10 and 14 of p, 12 and 15 of q; 30 is 20 behind 10
    Case("SEQUENCE", "SEQUENCE(A x, B y, 10) WHERE {x.m = y.m} OUTPUT x.m", "x.m", ["14,20,p", "15,22,q"]),
    Case("SEQUENCE of three", "SEQUENCE(A x, B y, C z, 100) WHERE {x.m = y.m} AND {y.m = z.m} OUTPUT y.n, z.n", "y.n,z.n",
         ["40,110,4,9", "40,110,6,9"]),
    Case("SEQUENCE without tests", "SEQUENCE(A x, C y, 4) OUTPUT x.m AS a, y.m AS c", "a,c", ["11,14,p,p", "15,16,q,q"]),
    Case("tests of one event", "SEQUENCE(A x, B y, 10) WHERE {x.m = y.m AND y.n > 4} OUTPUT y.n", "y.n", ["15,22,5"]),
    # 14 isn't before 10 + 4, and 15 is before 12 + 4
    Case("UNLESS", "UNLESS(A x, B y, 4) WHERE {x.m = y.m} OUTPUT x.m", "x.m", ["14,15,p"]),
    # 11 isn't before 8 + 3, 15 is between 14 and 17, and not after 15
    Case("UNLESS without tests", "UNLESS(B x, C y, 3) OUTPUT x.n", "x.n", ["11,12,3", "18,19,5", "33,34,6"]),
    # a C of p within 30 of the second event of the sequence: 40 is not before 14 + 26, and is before 14 + 27
    Case("UNLESS of a SEQUENCE", "UNLESS(SEQUENCE(A x, B y, 10), C z, 26) WHERE {x.m = y.m} AND {x.m = z.m} OUTPUT y.n AS n", "n",
         ["40,41,4", "41,42,5"]),
    Case("UNLESS of a SEQUENCE that comes", "UNLESS(SEQUENCE(A x, B y, 10), C z, 27) WHERE {x.m = y.m} AND {x.m = z.m} OUTPUT y.n AS n",
         "n", ["42,43,5"]),
    # in either order: 8 and 10, 10 and 14, 12 and 15
    Case("ALL", "ALL(A x, B y, 10) WHERE {x.m = y.m} OUTPUT first.n, second.n", "first.n,second.n",
         ["10,18,3,1", "14,20,1,4", "15,22,2,5"]),
    Case("ALL with a test of one", "ALL(A x, B y, 10) WHERE {x.m = y.m} AND {y.n = 3} OUTPUT first.m", "first.m", ["10,18,p"]),
    # two of the three: A and B as above, 10 and 11, 8 and 11, 11 and 14; the C of q at 15 begins with the B of q, and 3 after A
    Case("ATLEAST", "ATLEAST(2, A x, B y, C z, 10) WHERE {x.m = y.m} AND {y.m = z.m} OUTPUT first.n, second.n", "first.n,second.n",
         ["10,18,3,1", "11,18,3,7", "11,20,1,7", "14,20,1,4", "14,21,7,4", "15,22,2,5", "15,22,2,8"]),
    # the sequences A at 10 and B at 14 of p, A at 12 and B at 15 of q; those of B and C: 8 and 11 of p, and 14 and 40, 30 and 40 of p
    Case("ALL of SEQUENCEs",
         "ALL(SEQUENCE(A x, B y, 10), SEQUENCE(B u, C v, 30), 30) WHERE {x.m = y.m} AND {u.m = v.m} AND {x.m = u.m}",
         "first.x.m,first.x.n,first.y.m,first.y.n,second.x.m,second.x.n,second.y.m,second.y.n", ["14,41,p,3,p,7,p,1,p,4", "40,44,p,1,p,4,p,4,p,9", "40,44,p,1,p,4,p,6,p,9"]),
    Case("SEQUENCE of an ALL", "SEQUENCE(ALL(A x, B y, 10), C z, 40) WHERE {x.m = y.m} AND {first.m = z.m} OUTPUT first.n, z.n", "first.n,z.n",
         ["11,50,3,7", "40,50,3,9", "40,54,1,9"]),
    Case("ANY", "ANY(A x, C y) OUTPUT first.n", "first.n", ["10,11,1", "11,12,7", "12,13,2", "15,16,8", "40,41,9"]),
    # of p 11 lies between 10 and 14; of q 15 is where the last event begins, and so isn't between
    Case("NOT", "NOT(C z, SEQUENCE(A x, B y, 10)) WHERE {x.m = y.m} AND {x.m = z.m} OUTPUT x.m", "x.m", ["15,22,q"]),
    # any C between: 11 lies between 10 and 14; none between 12 and 15, as 15 isn't before 15
    Case("NOT without keys", "NOT(C z, SEQUENCE(A x, B y, 10)) WHERE {x.m = y.m} OUTPUT x.m", "x.m", ["15,22,q"]),
    Case("NOT of those of one number", "NOT(C z, SEQUENCE(A x, B y, 10)) WHERE {x.m = y.m} AND {x.m = z.m} AND {z.n = 9} OUTPUT x.m", "x.m",
         ["14,20,p", "15,22,q"]),
    # the B of p at 8 is before 10, and no B between 10 and 40 but 14 and 30
    Case("NOT of the last one's type", "NOT(B z, SEQUENCE(A x, B y, 100)) WHERE {x.m = y.m} AND {x.m = z.m} OUTPUT y.n", "y.n",
         ["14,110,4", "15,112,5"]),
    # no A has the number of a B
    Case("NOT by two columns", "NOT(C z, SEQUENCE(A x, B y, 10)) WHERE {x.m = y.m} AND {z.m = y.m} AND {z.n = x.n AND x.n = y.n}", "x.m,x.n,y.m,y.n", []),
    Case("NOT of a column that is called count", "NOT(K z, SEQUENCE(A x, B y, 10)) WHERE {x.m = y.m} AND {z.count = x.m} OUTPUT x.m", "x.m", ["15,22,q"]),
    Case("NOT of three", "NOT(C z, SEQUENCE(B w, A x, B y, 10)) WHERE {w.m = x.m} AND {x.m = y.m} AND {y.m = z.m} OUTPUT w.n", "w.n", []),
    Case("one event", 'A x WHERE {x.m = "q"} OUTPUT x.n', "x.n", ["12,13,2"]),
    Case("one event without a name", "A", "m,n", ["12,13,q,2", "10,50,p,1"]),
    Case("a level", "SEQUENCE(A x, B y, 10) WHERE {x.m = y.m} OUTPUT x.m WITH LEVEL strong", "x.m", ["14,20,p", "15,22,q"]),
    Case("a SEQUENCE in a SEQUENCE", "SEQUENCE(SEQUENCE(A x, B y, 10), C z, 40) WHERE {x.m = y.m} AND {y.m = z.m} OUTPUT z.n", "z.n", ["40,54,9"]),
]


def text_of(case: Case) -> str:
    """The pattern behind the sources of the types that it names."""
    named = "".join(line for line in TYPES.splitlines(keepends=True) if re.search(rf"\b{line[0]}\b", case.text))
    return f"{named}EVENT q\nWHEN {case.text}\n"


def files() -> dict:
    return {f"{name.lower()}.csv": event_lines(name, rows) for name, rows in EVENTS.items()}


def event_lines(name: str, rows: list) -> str:
    return "".join(f"+,{number},{begin},{LONG.get((name, begin), begin + 1)},{machine},{value}\n"
                   for number, (begin, machine, value) in enumerate(rows))


# The tests of a NOT, by which columns its events are tied, and by which those of the sequence are.
NOT_TESTS = {
    "{x.m = y.m} AND {z.m = y.m}": ((1,), (1,)),
    "{x.m = y.m}": ((), (1,)),
    "{x.m = y.m AND x.n = y.n} AND {z.m = y.m} AND {z.n = x.n}": ((1, 2), (1, 2)),
    "{x.m = y.m AND x.n = y.n} AND {z.n = y.n}": ((2,), (1, 2)),
}


def random_not(rng: random.Random) -> tuple:
    """A text, the lines of its files, and the rows by the definition: no such event of C strictly between the two begins."""
    events = {name: [(rng.randrange(25), rng.choice("pq"), rng.randrange(2)) for _ in range(rng.randrange(7))] for name in "ABC"}
    span, tests = rng.choice([3, 8, 20]), rng.choice([*NOT_TESTS])
    tied, joined = NOT_TESTS[tests]
    rows = [(x[0] + span, y[0], x[2], y[2]) for x in events["A"] for y in events["B"]
            if all(x[column] == y[column] for column in joined) and x[0] < y[0] < x[0] + span
            and not any(x[0] < z[0] < y[0] and all(z[column] == y[column] for column in tied) for z in events["C"])]
    lines = {f"{name.lower()}.csv": event_lines("", one) for name, one in events.items()}
    sources = "".join(line for line in TYPES.splitlines(keepends=True) if line[0] in "ABC")
    text = f"{sources}EVENT q\nWHEN NOT(C z, SEQUENCE(A x, B y, {span}))\nWHERE {tests}\nOUTPUT x.n, y.n\n"
    return text, lines, [f"{begin},{end},{x},{y}" for end, begin, x, y in sorted(rows)]
