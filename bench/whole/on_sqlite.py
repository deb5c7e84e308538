#!/usr/bin/env python3
"""Answers the plan `join`, `join_group`, `followed` or `except` over the files a.csv and b.csv here, `atleast` over these and
c.csv, or `sums` or `peaks` over a.csv, by Python and SQLite in memory, to compare speeds with: the lines are read by Python,
where no fault is looked for, and the rows are found, sorted and counted by SQLite. Writes the bytes that `cedr serial` writes.

usage: on_sqlite.py join|join_group|followed|except|atleast|sums|peaks
"""
import sqlite3
import sys

# A row of b that meets a row of a begins less than its greatest length before it, so that the index finds it.
JOIN = """
CREATE TEMP TABLE joined AS
SELECT max(a.begin, b.begin) AS begin, min(a.end, b.end) AS end, a.machine AS machine, a.value AS value,
       b.value AS other
FROM a JOIN b ON b.machine = a.machine AND b.begin < a.end AND b.end > a.begin
     AND b.begin > a.begin - (SELECT max(end - begin) FROM b)
"""

SORTED = "SELECT begin, end, machine, value, machine, other FROM joined ORDER BY end, begin, machine, value, other"

# Each begin adds a row to its machine and each end takes one away; what is there lasts until the next of these.
COUNTED = """
WITH steps AS (SELECT machine, begin AS time, 1 AS rows, value FROM {0}
               UNION ALL SELECT machine, end, -1, -value FROM {0}),
     points AS (SELECT machine, time, sum(rows) AS rows, sum(value) AS value FROM steps GROUP BY machine, time),
     counted AS (SELECT time AS begin, lead(time) OVER ahead AS end, machine, sum(rows) OVER ahead AS rows,
                        sum(value) OVER ahead AS value
                 FROM points WINDOW ahead AS (PARTITION BY machine ORDER BY time))
"""

GROUPED = COUNTED + """
SELECT begin, end, machine, rows, value FROM counted WHERE rows > 0 ORDER BY end, begin, machine, rows, value
"""

# A row of a that is valid in a segment begins less than its greatest length before the segment's begin, or with it, so
# that the index finds it.
PEAKS = COUNTED + """
SELECT c.begin, c.end, c.machine, c.rows, c.value, min(a.value) AS least, max(a.value) AS greatest
FROM counted AS c JOIN a ON a.machine = c.machine AND a.begin <= c.begin AND a.end >= c.end
     AND a.begin > c.begin - (SELECT max(end - begin) FROM a)
WHERE c.rows > 0 GROUP BY c.machine, c.begin ORDER BY c.end, c.begin, c.machine
"""

# Two rows of different ports, the second begun after the first one and within the scope.
NEAR = """
SELECT later.begin, first.begin + 10 AS end, first.machine, first.value, later.machine, later.value AS other
FROM ports AS first JOIN ports AS later ON later.machine = first.machine AND later.port {0} first.port
     AND later.begin > first.begin AND later.begin < first.begin + 10
ORDER BY end, later.begin, first.machine, first.value, other
"""

# Each row of b that meets a row of a, and one that begins with its end. What lies between the last end before such a row
# and its begin is a part in which none is valid.
EXCEPTED = """
WITH met AS (SELECT a.rowid AS id, a.begin AS since, a.machine AS machine, a.value AS value, b.begin AS begin, b.end AS end
             FROM a JOIN b ON b.machine = a.machine AND b.begin < a.end AND b.end > a.begin
                  AND b.begin > a.begin - (SELECT max(end - begin) FROM b)
             UNION ALL SELECT rowid, begin, machine, value, end, end FROM a),
     parts AS (SELECT max(since, coalesce(max(end) OVER before, since)) AS begin, begin AS end, machine, value FROM met
               WINDOW before AS (PARTITION BY id ORDER BY begin ROWS BETWEEN UNBOUNDED PRECEDING AND 1 PRECEDING))
SELECT begin, end, machine, value FROM parts WHERE begin < end ORDER BY end, begin, machine, value
"""


def events(name: str) -> list:
    """The valid intervals and payloads that the lines of a file leave."""
    found = {}
    with open(name) as file:
        for line in file:
            kind, *fields = line.rstrip("\n").split(",")
            if kind == "+":
                found[fields[0]] = int(fields[1]), int(fields[2]), fields[3], int(fields[4])
            elif kind == "-":
                begin, _, machine, value = found[fields[0]]
                found[fields[0]] = begin, int(fields[1]), machine, value
    return [event for event in found.values() if event[0] < event[1]]


def fill(database: sqlite3.Connection, name: str) -> None:
    database.execute(f"CREATE TABLE {name} (begin INTEGER, end INTEGER, machine TEXT, value INTEGER)")
    database.executemany(f"INSERT INTO {name} VALUES (?, ?, ?, ?)", events(f"{name}.csv"))


def of_two(database: sqlite3.Connection, query: str):
    """What is asked of both files."""
    for name in ("a", "b"):
        fill(database, name)
    database.execute("CREATE INDEX b_by_machine ON b (machine, begin)")
    return database.execute(query)


def of_joined(database: sqlite3.Connection, query: str):
    """What is asked of the join of both files."""
    of_two(database, JOIN)
    return database.execute(query.format("joined"))


def of_ports(names: str, relation: str):
    """What is asked of the rows of these files in one table, where the second one's port is in this relation to the first's."""
    def ask(database: sqlite3.Connection, query: str):
        database.execute("CREATE TABLE ports (port INTEGER, begin INTEGER, machine TEXT, value INTEGER)")
        for port, name in enumerate(names):
            fill(database, name)
            database.execute(f"INSERT INTO ports SELECT {port}, begin, machine, value FROM {name}")
        database.execute("CREATE INDEX ports_by_machine ON ports (machine, begin)")
        return database.execute(query.format(relation))
    return ask


def of_one(database: sqlite3.Connection, query: str):
    """What is asked of the file a.csv."""
    fill(database, "a")
    database.execute("CREATE INDEX a_by_machine ON a (machine, begin)")
    return database.execute(query.format("a"))


ASKED = {"join": (of_joined, SORTED), "join_group": (of_joined, GROUPED), "sums": (of_one, GROUPED), "peaks": (of_one, PEAKS),
         "followed": (of_ports("ab", ">"), NEAR), "atleast": (of_ports("abc", "!="), NEAR), "except": (of_two, EXCEPTED)}


def main() -> None:
    ask, query = ASKED[sys.argv[1]]
    rows = ask(sqlite3.connect(":memory:"), query)
    sys.stdout.writelines(",".join(map(str, row)) + "\n" for row in rows)


main()
