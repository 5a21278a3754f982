#!/usr/bin/env python3
"""Times filters over one table against SQLite without an index: twenty queries in turn that each keep about a
thousandth of the rows, as the difference of a run with and one without them.

  python3 bench/filters.py [--rows N] [--runs N] [--program PATH]

The proved program is the one that `rt run` left in crates/bouquet/out; sqlite3 is Debian's (apt-get install sqlite3).
Both are whole processes over the same file in the same run, by turns, with their output in a file each. The table
has two numbers and a text of 1,000 values. There are four queries of each form: a comparison, BETWEEN, IN of ten
numbers, equality of a text, and two ANDs under an OR.

Wanted: the rows are the same, and all twenty together are answered 10 times as fast. The status is 1 where rows differ.
"""
import os
import random
import sys

from beside_sqlite import DATA, SEED, arguments, beside, first_difference, write_csv

FORMS = 5
QUERIES_OF_A_FORM = 4
TIMES = 10
MOST_A = 10**6
MOST_B = 10**4
CREATED = "CREATE TABLE T (A INTEGER, B INTEGER, S {});\n"


def text(number):
    return f"value number {number:04}"


def row(draw):
    return str(draw.randrange(MOST_A)), str(draw.randrange(MOST_B)), text(draw.randrange(1000))


def conditions():
    """Twenty conditions, each true on about a thousandth of the rows."""
    draw = random.Random(SEED)
    for low in (draw.randrange(MOST_A - 1000) for _ in range(QUERIES_OF_A_FORM)):
        yield f"A BETWEEN {low} AND {low + 999}"
    for _ in range(QUERIES_OF_A_FORM):
        yield "B IN ({})".format(", ".join(str(n) for n in draw.sample(range(MOST_B), 10)))
    for _ in range(QUERIES_OF_A_FORM):
        yield f"S = '{text(draw.randrange(1000))}'"
    for part in (draw.randrange(10, 100) for _ in range(QUERIES_OF_A_FORM)):
        # each AND keeps one row of two thousand: A one of `part`, B one of 2000 / part
        a, b = MOST_A // part, MOST_B * part // 2000
        yield f"(A < {a} AND B < {b}) OR (A >= {MOST_A - a} AND B >= {MOST_B - b})"
    yield f"A < {MOST_A // 1000}"
    yield f"A >= {MOST_A - MOST_A // 1000}"
    yield f"{MOST_B // 1000} > B"
    yield f"B >= {MOST_B - MOST_B // 1000}"


def main():
    given = arguments(__doc__)
    path = os.path.join(DATA, f"filters-{given.rows}.csv")
    draw = random.Random(SEED)
    write_csv(path, "A,B,S", (row(draw) for _ in range(given.rows)))
    name = os.path.basename(path)
    loads = (
        CREATED.format("VARCHAR(20)") + f"LOAD '{name}' INTO T;\n",
        CREATED.format("TEXT") + f".mode csv\n.import --csv --skip 1 {name} T\n",
    )
    wheres = list(conditions())
    assert len(wheres) == FORMS * QUERIES_OF_A_FORM
    selects = (
        "".join(f"SELECT * FROM T WHERE {where};\n" for where in wheres),
        "".join(f"SELECT * FROM T WHERE {where} ORDER BY A, B, S;\n" for where in wheres),
    )
    before, _, _ = beside(given.program, *loads, given.runs)
    after, memory, outputs = beside(given.program, loads[0] + selects[0], loads[1] + selects[1], given.runs)
    difference = first_difference(outputs, "A,B,S", None)
    if difference:
        sys.exit(difference)
    ours, theirs = (late - early for late, early in zip(after, before))
    each = ours / len(wheres) / given.rows * 1e9
    print(
        f"filters: bouquet {ours:.3f} s, {each:.1f} ns a row and query, sqlite3 {theirs:.3f} s: "
        f"{theirs / ours:.2f} times as fast, wanted {TIMES}; peak {memory:.0f} MB"
    )


if __name__ == "__main__":
    main()
