#!/usr/bin/env python3
"""Times joins of a film database and of orders beside SQLite and PostgreSQL, without statistics and after ANALYZE.

  python3 bench/robust [--scale X] [--seed N] [--repeat N] [--seconds N] [--minutes N] [--only WORD]
                          [--sides NAME,..] [--program PATH] [--json FILE] [--svg FILE]
  python3 bench/robust --from FILE [--svg FILE] [--first-in FILE]

The proved program is the one that `rt run` left in crates/bouquet/out. The other two are Debian's: apt-get install
sqlite3 postgresql. Seeded data is made in bench/data (bench/robust/data.py): at scale 1 a film database of some three
million rows, and two order databases of some 430,000 each. Tables, indexes and queries stand in bench/robust/queries.py.
All sides get the same files, indexes on the same columns, and the same text of each query, without ORDER BY. SQLite and
PostgreSQL are told the primary keys as well.

The sides are, by their names for --sides:

  bouquet              SELECT: it has no statistics, and compiles each query
  bouquet-learn        COMPILE and LEARN in its place
  sqlite3              in memory, without ANALYZE
  sqlite3-analyze      in memory, after ANALYZE
  postgres             PostgreSQL 15, without ANALYZE; a server of the script's own, with all in its memory
  postgres-analyze     PostgreSQL 15, after ANALYZE

How a query is timed says bench/robust/servers.py: compiling and planning are in its time, loading and indexes are not.
The sides take turns, `--repeat` times. In the first turn each query is asked once. In each later turn those are asked
three times in a row that took less than a second, and once those that took less than ten; others aren't asked again. A
query's time is the middle of all of these. Where no answer has come after `--seconds`, 60, that is a time-out, which
counts as so many seconds. No turn but the first is begun after `--minutes`, 60. `--only` takes the queries with this
word in their name.

Printed are tables in Markdown:

  - of each side: the sum of its times, their geometric mean, the greatest quotient of one of its times and the best
    side's for that query, in how many queries it is the fastest, and its time-outs;
  - of each side: the sum and the geometric mean for each database;
  - of each query: its rows, the time of each side in milliseconds, and bouquet's quotient to the best;
  - of each query: its tables, and the work, the runs and the contour that bouquet prints.

--json writes these figures into a file after each turn, with all times, the machine, the versions and the settings; --from reads such a
file, and measures nothing. --svg draws them. --first-in looks whether a document has the first table.

The status is 1 where the rows of two sides differ or the document hasn't the table, and else 0.
"""
import argparse
import collections
import contextlib
import csv
import json
import os
import platform
import re
import signal
import statistics
import sys
import time

sys.path.append(os.path.dirname(os.path.dirname(os.path.abspath(__file__))))

import data as seeded
from beside_sqlite import DATA, PROGRAM, SEED
from picture import picture, tables
from queries import DATABASES, TABLES, queries
from servers import BINARIES, PRAGMAS, SETTINGS, Bouquet, Learning, Postgres, Server, Sqlite, finished

SIDES = ("bouquet", "bouquet-learn", "sqlite3", "sqlite3-analyze", "postgres", "postgres-analyze")
ASK_OFTEN, ASK_AGAIN = 1, 10
TIMES_IN_A_ROW = 3
MORE_TURNS = 3

Database = collections.namedtuple("Database", "name, folder, tables, data")


class Asked:
    """A query on one side: its times, whether it has timed out, and what bouquet reports of it."""

    def __init__(self):
        self.seconds = []
        self.timed_out = False
        self.report = None

    def times_to_ask(self):
        if not self.seconds:
            return 0 if self.timed_out else 1
        most = max(self.seconds)
        return 0 if self.timed_out or most >= ASK_AGAIN else 1 if most >= ASK_OFTEN else TIMES_IN_A_ROW

    def is_known(self):
        return self.timed_out or bool(self.seconds)

    def middle(self):
        """None for a time-out, and where the time isn't known yet."""
        return None if self.timed_out or not self.seconds else round(statistics.median(self.seconds), 7)

    def take(self, answer):
        if answer is None:
            self.timed_out = True
            return
        if answer.seconds is not None:
            self.seconds.append(answer.seconds)
        if answer.marker.re is Bouquet.marker:
            self.report = [it.decode() for it in answer.marker.groups()]


class Rows:
    """The rows of each query, as the first side gave them."""

    def __init__(self):
        self.known = {}

    def compare(self, query, side, text):
        rows = sorted(csv.reader(text.splitlines()))
        first, known = self.known.setdefault(query.name, (side.name, rows))
        if known != rows:
            at = next((it for it, pair in enumerate(zip(known, rows)) if pair[0] != pair[1]), min(len(known), len(rows)))
            sys.exit(
                f"robust: {query.name}: {first} gives {len(known)} rows, {side.name} {len(rows)}; in order they differ from "
                f"row {at + 1} on: {known[at : at + 1]} and {rows[at : at + 1]}"
            )

    def count(self, query):
        return len(self.known[query.name][1]) if query.name in self.known else None


def made_databases(given):
    """The databases, with their files written."""
    for name, kind in DATABASES.items():
        folder = os.path.join(DATA, f"robust-{name}-{given.scale:g}-{given.seed}")
        data = seeded.database(name, given.scale, given.seed)
        seeded.write_files(data, folder, TABLES[kind])
        yield Database(name, folder, TABLES[kind], data)


def asked_turn(side, database, asked_queries, found, rows, seconds):
    """One turn of a side on one database."""
    texts = [it for it in asked_queries for _ in range(found[it.name, side.name].times_to_ask())]
    first = f"SELECT * FROM {database.tables[0].name}"
    answers = side.ask(database, first, [it.text for it in texts], seconds)
    for query, answer in zip(texts, answers):
        found[query.name, side.name].take(answer)
        if answer:
            rows.compare(query, side, answer.text)


def measure(given, sides, databases, asked_queries):
    """Asks all queries of all sides by turns, and in some more while a query's time couldn't be told. After each turn this
    yields what was found, by query and side, the rows, and how many turns there were."""
    found, rows, turn, begun = collections.defaultdict(Asked), Rows(), 0, time.monotonic()
    while turn < given.repeat or not all(it.is_known() for it in found.values()):
        if turn == given.repeat + MORE_TURNS:
            sys.exit("robust: the times of some queries can't be told: the machine is too busy")
        if turn and time.monotonic() - begun > given.minutes * 60:
            return
        turn += 1
        for database in databases:
            chosen = [it for it in asked_queries if it.database == database.name]
            for side in sides if chosen else ():
                print(f"{time.monotonic() - begun:4.0f} s, turn {turn}: {database.name}, {side.name}", file=sys.stderr, flush=True)
                asked_turn(side, database, chosen, found, rows, given.seconds)
        yield found, rows, turn


def processor():
    with open("/proc/cpuinfo") as file:
        models = re.findall(r"model name\s*: (.*)", file.read())
    return f"{models[0] if models else platform.machine()}, {os.cpu_count()} cores"


def figures_of_query(query, sides, found, rows):
    at = {side.name: found[query.name, side.name] for side in sides}
    ours = at.get(Bouquet.name)
    return {
        "name": query.name,
        "tables": query.text.partition(" FROM ")[2].partition(" WHERE ")[0].count(",") + 1,
        "rows": rows.count(query),
        "report": dict(zip(("work", "runs", "contour", "plan"), ours.report)) if ours and ours.report else None,
        "seconds": {name: it.middle() for name, it in at.items()},
        "all": {name: [round(seconds, 6) for seconds in it.seconds] for name, it in at.items()},
    }


def made_sides(given, server):
    makers = {
        "bouquet": lambda: Bouquet(given.program),
        "bouquet-learn": lambda: Learning(given.program),
        "sqlite3": lambda: Sqlite(False),
        "sqlite3-analyze": lambda: Sqlite(True),
        "postgres": lambda: Postgres(False, server),
        "postgres-analyze": lambda: Postgres(True, server),
    }
    return [makers[name]() for name in given.sides]


def measured_figures(given):
    """Makes the data, measures, and yields all figures after each turn."""
    databases = list(made_databases(given))
    asked_queries = [it for it in queries({it.name: it.data.names() for it in databases}) if given.only in it.name]
    if not asked_queries:
        sys.exit(f"robust: no query has {given.only} in its name")
    served = any(it.startswith("postgres") for it in given.sides)
    with Server() if served else contextlib.nullcontext() as server:
        sides = made_sides(given, server)
        for side in sides:
            for database in databases:
                side.prepare(database)
        for found, rows, turns in measure(given, sides, databases, asked_queries):
            yield {
                "machine": processor(),
                "versions": versions(served),
                "settings": {"PostgreSQL": SETTINGS, "sqlite3": PRAGMAS},
                "scale": given.scale,
                "seed": given.seed,
                "turns": turns,
                "limit": given.seconds,
                "rows": {it.name: rows_of_files(it) for it in databases},
                "sides": [it.name for it in sides],
                "queries": [figures_of_query(it, sides, found, rows) for it in asked_queries],
            }


def versions(served):
    found = {"sqlite3": finished(["sqlite3", "--version"]).split()[0]}
    if served:
        found["PostgreSQL"] = finished([os.path.join(BINARIES, "postgres"), "--version"]).split()[2]
    return found


def rows_of_files(database):
    count = 0
    for table in database.tables:
        with open(os.path.join(database.folder, f"{table.name}.csv"), "rb") as file:
            count += sum(1 for _ in file) - 1
    return count


def has_table(path, wanted):
    """Whether a document has a table; if not, that is said."""
    with open(path, encoding="utf-8") as file:
        found = f"\n{wanted}\n" in f"\n{file.read()}\n"
    if not found:
        print(f"robust: {path} hasn't this table: {wanted.splitlines()[-1]}", file=sys.stderr)
    return found


def arguments():
    words = argparse.ArgumentParser(description=__doc__, formatter_class=argparse.RawDescriptionHelpFormatter)
    words.add_argument("--scale", type=float, default=1)
    words.add_argument("--seed", type=int, default=SEED)
    words.add_argument("--repeat", type=int, default=3)
    words.add_argument("--seconds", type=float, default=60)
    words.add_argument("--minutes", type=float, default=60)
    words.add_argument("--only", default="")
    words.add_argument("--sides", type=lambda it: it.split(","), default=list(SIDES))
    words.add_argument("--program", type=os.path.abspath, default=os.path.abspath(PROGRAM))
    words.add_argument("--json")
    words.add_argument("--svg")
    words.add_argument("--from", dest="figures")
    words.add_argument("--first-in")
    given = words.parse_args()
    if given.repeat < 1:
        words.error("at least one turn is needed")
    if unknown := set(given.sides) - set(SIDES):
        words.error(f"no side {', '.join(sorted(unknown))}")
    if not given.figures and "bouquet" in given.sides and not os.path.isfile(given.program):
        words.error(f"there is no program {given.program}")
    return given


def write(given, figures):
    if given.json:
        with open(given.json, "w") as file:
            file.write(json.dumps(figures, indent=1) + "\n")
    if given.svg:
        with open(given.svg, "w") as file:
            file.write(picture(figures))


def main():
    given = arguments()
    signal.signal(signal.SIGTERM, lambda *_: sys.exit("robust: terminated"))
    if given.figures:
        with open(given.figures) as file:
            figures = json.load(file)
        write(given, figures)
    else:
        os.makedirs(DATA, exist_ok=True)
        for figures in measured_figures(given):
            write(given, figures)
    printed = tables(figures)
    print("\n\n".join(printed))
    sys.exit(1 if given.first_in and not has_table(given.first_in, printed[0]) else 0)


if __name__ == "__main__":
    main()
