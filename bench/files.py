#!/usr/bin/env python3
"""Times OPEN and SAVE of a file with as many contours and plans as one may have, CHECK of bouquets, and tools/table.

  python3 bench/files.py [--contours N] [--plans N] [--rows N] [--runs N] [--only files|checks|table] [--clock wall|cpu]
                         [--program PATH]

The proved program is the one that `rt run` left in crates/bouquet/out. Timed are whole processes, by turns; a time is a
difference of medians of two scripts, divided by how often one does what the other doesn't. With `--clock cpu` times are
the processor's, for a machine that is at other work.

  files   a query over six tables of one row has plans of six leaves; the file holds them by turns in each contour. One
          script opens the file, one saves the bouquet as well.
  checks  a circle of six tables of 2,000 rows, six equalities, four levels for each, so 4,096 points. The bouquet is
          compiled, and checked some times. Then its file is filled up: each of its contours gets random nested loops
          until it has `--plans` plans, behind its own plans (an honest file) or before them (a chosen one, in which
          the plans that fit come last).
  table   tools/table --indexes turns two files of the same 3,600,000 rows into tables, one that LOAD takes as it is, and one of
          148 MB as a spreadsheet saves it, with semicolons, decimal commas and other dates. Beside it SQLite's `.import` reads
          the first one, with an index of two columns.

Wanted: a file of 128 contours of 4096 plans each is opened, and saved, in a few seconds. A check takes at most twice as long
as the compilation, that of the honest file less than a second, and that of the chosen one at most ten. 148 MB become a table in 20 s.
The status is 1 if a sound bouquet isn't found sound.
"""
import argparse
import itertools
import json
import os
import random
import statistics
import sys

from beside_sqlite import DATA, HERE, PROCESSOR, PROGRAM, SEED, SQLITE, WALL, by_turns, run, write_csv

SECONDS, TABLE_SECONDS = 5, 20
TABLES = 6
QUERY = "SELECT * FROM " + ", ".join(f"T{i}" for i in range(TABLES))
MADE = "".join(f"CREATE TABLE T{i} (A INTEGER);\nLOAD 'files-row.csv' INTO T{i};\n" for i in range(TABLES))
OPENED = MADE + f"OPEN Z FROM 'files-many.bq' AS {QUERY};\n"
SAVED = OPENED + "SAVE Z TO 'files-again.bq';\n"

CIRCLE_ROWS, CIRCLE_VALUES = 2_000, 500
CHECKS = 5
SOUND = b"-- check sound=yes\n"


def plans():
    """Texts of plans by nested loops, in all orders of the tables and by turns in two shapes."""
    for a, b, c, d, e, f in itertools.cycle(itertools.permutations(range(TABLES))):
        yield f"N(N(N(N(N(S{a},S{b}),S{c}),S{d}),S{e}),S{f})"
        yield f"N(N(S{a},N(S{b},S{c})),N(S{d},N(S{e},S{f})))"


def file_of(contours, plans_each):
    texts = plans()
    return {
        "bouquet": 1,
        "query": QUERY,
        "levels": 25,
        "threshold": 20,
        "relations": [{"rows": 1, "kept": 1, "indexes": 0}] * TABLES,
        "contours": [{"cost": "1000", "plans": list(itertools.islice(texts, plans_each))} for _ in range(contours)],
    }


def write_file(name, value):
    path = os.path.join(DATA, name)
    with open(path, "w") as file:
        json.dump(value, file, separators=(",", ":"), sort_keys=True)
    return path


def files(program, contours, plans_each, runs, clock):
    with open(os.path.join(DATA, "files-row.csv"), "w") as file:
        file.write("A\n1\n")
    path = write_file("files-many.bq", file_of(contours, plans_each))
    measured = by_turns({"opened": (program, OPENED), "saved": (program, SAVED)}, runs, clock)
    opened, saved = (statistics.median(it[0] for it in measured[side]) for side in ("opened", "saved"))
    memory = max(it[1] for it in measured["saved"])
    with open(path, "rb") as one, open(os.path.join(DATA, "files-again.bq"), "rb") as other:
        same = one.read() == other.read()
    print(
        f"files: {os.path.getsize(path) / 1e6:.1f} MB opened in {opened:.2f} s, saved in {saved - opened:.2f} s, wanted "
        f"{SECONDS} each; peak {memory:.0f} MB; what is saved is what was opened: {'yes' if same else 'no'}"
    )


# Checks.


def circle():
    """The statements that make the tables of a circle, and its query."""
    made = []
    for table in range(TABLES):
        source = random.Random(SEED + table)
        name = f"files-circle-{table}.csv"
        rows = ([str(source.randrange(CIRCLE_VALUES)), str(source.randrange(CIRCLE_VALUES))] for _ in range(CIRCLE_ROWS))
        write_csv(os.path.join(DATA, name), "A,B", rows)
        made.append(f"CREATE TABLE T{table} (A INTEGER, B INTEGER);\nLOAD '{name}' INTO T{table};\n"
                    f"CREATE INDEX BY_A{table} ON T{table} (A);\n")
    edges = " AND ".join(f"T{i}.B = T{(i + 1) % TABLES}.A" for i in range(TABLES))
    return "".join(made), f"{QUERY} WHERE {edges}"


def tree(source, leaves):
    """The text of a random plan of nested loops over these leaves."""
    if len(leaves) == 1:
        return f"S{leaves[0]}"
    at = source.randrange(1, len(leaves))
    return f"N({tree(source, leaves[:at])},{tree(source, leaves[at:])})"


def more_plans(source, count):
    """So many different plans of nested loops."""
    found = {}
    while len(found) < count:
        leaves = source.sample(range(TABLES), TABLES)
        found[tree(source, leaves)] = None
    return list(found)


def filled(value, plans_each, own_first):
    """A bouquet's file with so many plans on each contour, its own first or last."""
    source = random.Random(SEED)
    contours = []
    for contour in value["contours"]:
        more = more_plans(source, plans_each - len(contour["plans"]))
        plans_now = contour["plans"] + more if own_first else more + contour["plans"]
        contours.append({"cost": contour["cost"], "plans": plans_now})
    return {**value, "contours": contours}


def seconds_of(program, before, after, times, runs, clock):
    """How long what `after` adds takes, and whether each check in it found the bouquet sound; and the peak memory."""
    measured = by_turns({"without": (program, before), "with": (program, before + after * times)}, runs, clock)
    without, within = (statistics.median(it[0] for it in measured[side]) for side in ("without", "with"))
    with open(measured["with"][-1][2], "rb") as file:
        sound = file.read().count(SOUND) == after.count("CHECK") * times
    return (within - without) / times, max(it[1] for it in measured["with"]), sound


def checks(program, plans_each, runs, clock):
    made, query = circle()
    compiled = f"COMPILE Q LEVELS 4 AS {query};\n"
    run(program, made + compiled + "SAVE Q TO 'files-circle.bq';\n", "circle")
    with open(os.path.join(DATA, "files-circle.bq")) as file:
        value = json.load(file)
    compiling, _, _ = seconds_of(program, made, compiled, 1, runs, clock)
    checking, memory, all_sound = seconds_of(program, made + compiled, "CHECK Q;\n", CHECKS, runs, clock)
    print(
        f"checks: {len(value['contours'])} contours compiled in {compiling * 1e3:.0f} ms, checked in {checking * 1e3:.0f} ms, "
        f"wanted twice as long at most; peak {memory:.0f} MB; sound: {'yes' if all_sound else 'no'}"
    )
    for kind, own_first, wanted in (("honest", True, 1), ("chosen", False, 10)):
        path = write_file(f"files-{kind}.bq", filled(value, plans_each, own_first))
        opened = f"{made}OPEN Z FROM 'files-{kind}.bq' AS {query};\n"
        checking, memory, sound = seconds_of(program, opened, "CHECK Z;\n", 1, runs, clock)
        print(
            f"checks: {kind} file of {os.path.getsize(path) / 1e6:.1f} MB checked in {checking:.2f} s, wanted {wanted} at most; "
            f"peak {memory:.0f} MB; sound: {'yes' if sound else 'no'}"
        )
        all_sound = all_sound and sound
    return all_sound


# Tables.

TOOL = [sys.executable, os.path.join(HERE, "..", "tools", "table"), "--indexes", "--replace", "--into", "files-clean"]
CITIES = "Berlin", "Hamburg", "New York", "Rio de Janeiro", "Ulm", "Rome"
IMPORTED = """CREATE TABLE T (ID INTEGER, CUSTOMER INTEGER, DAY TEXT, PRICE REAL, CITY TEXT);
CREATE INDEX BY_ID ON T (ID);
CREATE INDEX BY_CUSTOMER ON T (CUSTOMER);
.mode csv
.import --skip 1 files-plain.csv T
"""


def sales(rows, is_plain):
    """Rows of sales: their number, a customer, a day, a price and a city."""
    source = random.Random(SEED)
    for number in range(rows):
        month, day, cents = source.randrange(1, 13), source.randrange(1, 29), source.randrange(10_000_000)
        price = str(cents) if is_plain else f"{cents // 100},{cents % 100:02}"
        date = f"2025-{month:02}-{day:02}" if is_plain else f"{day}.{month}.2025"
        yield str(number), str(source.randrange(300_000)), date, price, source.choice(CITIES)


def table(rows, runs, clock):
    names = {"plain": "files-plain.csv", "saved": "files-saved.csv"}
    write_csv(os.path.join(DATA, names["plain"]), "ID,CUSTOMER,DAY,PRICE,CITY", sales(rows, True))
    saved = ([";".join(it)] for it in sales(rows, False))
    write_csv(os.path.join(DATA, names["saved"]), "Id;Customer;Day;Price;City", saved)
    sides = {side: ([*TOOL, name], "") for side, name in names.items()}
    measured = by_turns({**sides, "import": (SQLITE, IMPORTED)}, runs, clock)
    for side, name in names.items():
        seconds = statistics.median(it[0] for it in measured[side])
        beside = statistics.median(it[0] for it in measured["import"])
        print(
            f"table: {side} file of {os.path.getsize(os.path.join(DATA, name)) / 1e6:.0f} MB in {seconds:.1f} s, wanted "
            f"{TABLE_SECONDS} at most; peak {max(it[1] for it in measured[side]):.0f} MB; sqlite3's import {beside:.1f} s"
        )


def main():
    words = argparse.ArgumentParser(description=__doc__, formatter_class=argparse.RawDescriptionHelpFormatter)
    words.add_argument("--contours", type=int, default=128)
    words.add_argument("--plans", type=int, default=4096)
    words.add_argument("--rows", type=int, default=3_600_000)
    words.add_argument("--runs", type=int, default=3)
    words.add_argument("--only", choices=("files", "checks", "table"))
    words.add_argument("--clock", choices=(WALL, PROCESSOR), default=WALL)
    words.add_argument("--program", default=PROGRAM)
    given = words.parse_args()
    os.makedirs(DATA, exist_ok=True)
    program = [os.path.abspath(given.program)]
    if given.only in (None, "table"):
        table(given.rows, given.runs, given.clock)
    if given.only in (None, "files"):
        files(program, given.contours, given.plans, given.runs, given.clock)
    if given.only in (None, "checks") and not checks(program, given.plans, given.runs, given.clock):
        sys.exit(1)


if __name__ == "__main__":
    main()
