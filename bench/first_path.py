#!/usr/bin/env python3
"""Times the first path against SQLite: load a CSV of integers, sort the rows by all columns, print them as CSV.

  python3 bench/first_path.py [--rows N] [--runs N] [--program PATH]

The proved program is the one that `rt run` left in crates/bouquet/out; sqlite3 is Debian's (apt-get install sqlite3).
Both are whole processes over the same file in the same run, by turns, with their output in a file each. Wanted: the
rows are the same, bouquet is at least five times as fast, and takes at most 300 MB. The status is 1 where the rows
differ.
"""
import os
import random
import sys

from beside_sqlite import DATA, SEED, arguments, beside, first_difference, report, write_csv

COLUMNS = "A,B,C,D"
TIMES = 5
MEGABYTES = 300


def rows_of_integers(rows):
    """A has many ties, the other columns few."""
    draw = random.Random(SEED).randint
    wide = 10**9
    for _ in range(rows):
        yield str(draw(1, 1000)), str(draw(-wide, wide)), str(draw(-wide, wide)), str(draw(-wide, wide))


def main():
    given = arguments(__doc__)
    name = f"rows-{given.rows}.csv"
    write_csv(os.path.join(DATA, name), COLUMNS, rows_of_integers(given.rows))
    table = "CREATE TABLE T ({});\n".format(", ".join(f"{it} INTEGER" for it in COLUMNS.split(",")))
    seconds, memory, outputs = beside(
        given.program,
        f"{table}LOAD '{name}' INTO T;\nSELECT * FROM T;\n",
        f"{table}.mode csv\n.import --csv --skip 1 {name} T\nSELECT {COLUMNS} FROM T ORDER BY {COLUMNS};\n",
        given.runs,
    )
    difference = first_difference(outputs, COLUMNS, given.rows)
    if difference:
        sys.exit(difference)
    report("first path", seconds, memory, TIMES, MEGABYTES)


if __name__ == "__main__":
    main()
