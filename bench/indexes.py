#!/usr/bin/env python3
"""Times CREATE INDEX on a column of numbers against SQLite, as the difference of a run with and one without it.

  python3 bench/indexes.py [--rows N] [--runs N] [--program PATH]

The proved program is the one that `rt run` left in crates/bouquet/out; sqlite3 is Debian's (apt-get install sqlite3).
Both are whole processes over the same file in the same run, by turns, with their output in a file each.

Wanted: the index is made 3 times as fast.
"""
import os
import random

from beside_sqlite import DATA, SEED, arguments, beside, write_csv

TIMES = 3
MOST_KEY = 10**9
CREATED = "CREATE TABLE T (K INTEGER, V INTEGER);\n"
INDEX = "CREATE INDEX BY_K ON T (K);\n"


def main():
    given = arguments(__doc__)
    name = f"indexes-{given.rows}.csv"
    draw = random.Random(SEED)
    write_csv(os.path.join(DATA, name), "K,V", ((str(draw.randrange(MOST_KEY)), str(i)) for i in range(given.rows)))
    loads = (
        CREATED + f"LOAD '{name}' INTO T;\n",
        CREATED + f".mode csv\n.import --csv --skip 1 {name} T\n",
    )
    before, _, _ = beside(given.program, *loads, given.runs)
    after, memory, _ = beside(given.program, *(load + INDEX for load in loads), given.runs)
    ours, theirs = (late - early for late, early in zip(after, before))
    print(
        f"indexes: bouquet {ours:.3f} s, sqlite3 {theirs:.3f} s: {theirs / ours:.2f} times as fast, wanted {TIMES}; "
        f"peak {memory:.0f} MB"
    )


if __name__ == "__main__":
    main()
