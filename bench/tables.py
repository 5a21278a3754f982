#!/usr/bin/env python3
"""Times tables with texts against SQLite: load a CSV, and load it and print its rows in order.

  python3 bench/tables.py [--rows N] [--runs N] [--program PATH]

The proved program is the one that `rt run` left in crates/bouquet/out; sqlite3 is Debian's (apt-get install sqlite3).
Both are whole processes over the same file in the same run, by turns, with their output in a file each.

  few    a text of 1,000 values, and two numbers
  many   a number, a text of 1,000 values, and a text of as many values as there are rows

Wanted: the rows are the same; `few` is loaded 4 and printed 5 times as fast, `many` 1.5 times; the memory is at most the
file, twice its words, its texts, 150 bytes a different text and 100 MB; a file whose last field is wrong is refused in
the time of a good load. The status is 1 where rows differ.
"""
import os
import random
import statistics
import sys

from beside_sqlite import DATA, SEED, arguments, beside, first_difference, report, run, write_csv

WORD_BYTES = 8
BYTES_A_TEXT = 150
LONGEST_TEXT = 20
ROOM = 100e6
REFUSED = 1


def value_of_thousand(draw):
    return f"value number {draw.randint(1, 1000):04}"


def number(draw):
    return str(draw.randint(-10**9, 10**9))


def few_row(draw, _):
    return value_of_thousand(draw), number(draw), number(draw)


def many_row(draw, i):
    return number(draw), value_of_thousand(draw), f"{draw.randint(0, 10**6):06} of {i:07}"


class Table:
    """A table T: its columns, how a row is drawn, how many texts differ, and how many times faster it is wanted."""

    def __init__(self, name, columns, row, texts, times_loaded, times_printed):
        self.name = name
        self.names = ",".join(name for name, _ in columns)
        self.width = len(columns)
        self.created = "CREATE TABLE T ({});\n".format(", ".join(f"{name} {kind}" for name, kind in columns))
        self.row = row
        self.texts = texts
        self.times_loaded = times_loaded
        self.times_printed = times_printed

    def make(self, rows):
        """Writes the file, and beside it one whose last field is no number or too long. Returns their paths."""
        good, wrong = (os.path.join(DATA, f"{self.name}-{rows}{suffix}.csv") for suffix in ("", "-wrong"))
        draw = random.Random(SEED)
        write_csv(good, self.names, (self.row(draw, i) for i in range(rows)))
        with open(good, "rb") as file, open(wrong, "wb") as other:
            other.write(file.read().rstrip(b"\n") + b"x" * 30 + b"\n")
        return good, wrong

    def loaded(self, path):
        return f"{self.created}LOAD '{os.path.basename(path)}' INTO T;\n"

    def loaded_by_sqlite(self, path):
        created = self.created.replace("VARCHAR(20)", "TEXT")
        return f"{created}.mode csv\n.import --csv --skip 1 {os.path.basename(path)} T\n"

    def most_megabytes(self, path, rows):
        words = 2 * WORD_BYTES * self.width * rows
        texts = (LONGEST_TEXT + BYTES_A_TEXT) * self.texts(rows)
        return (os.path.getsize(path) + words + texts + ROOM) / 1e6


INTEGER, TEXT = "INTEGER", "VARCHAR(20)"
TABLES = [
    Table("few", [("S", TEXT), ("N", INTEGER), ("M", INTEGER)], few_row, lambda rows: 1000, 4, 5),
    Table("many", [("N", INTEGER), ("S", TEXT), ("U", TEXT)], many_row, lambda rows: rows + 1000, 1.5, 1.5),
]


def main():
    given = arguments(__doc__)
    for table in TABLES:
        good, wrong = table.make(given.rows)
        most = table.most_megabytes(good, given.rows)
        script, sqlite_script = table.loaded(good), table.loaded_by_sqlite(good)
        loaded, memory, _ = beside(given.program, script, sqlite_script, given.runs)
        report(f"{table.name}, loaded", loaded, memory, table.times_loaded, most)

        script += "SELECT * FROM T;\n"
        sqlite_script += f"SELECT * FROM T ORDER BY {table.names};\n"
        printed, memory, outputs = beside(given.program, script, sqlite_script, given.runs)
        difference = first_difference(outputs, table.names, given.rows)
        if difference:
            sys.exit(f"{table.name}: {difference}")
        report(f"{table.name}, printed", printed, memory, table.times_printed, most)

        script = table.loaded(wrong)
        refused = statistics.median(run([given.program], script, "wrong", REFUSED)[0] for _ in range(given.runs))
        print(f"{table.name}, last field wrong: {refused:.3f} s, a good load {loaded[0]:.3f} s")


if __name__ == "__main__":
    main()
