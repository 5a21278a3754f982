#!/usr/bin/env python3
"""Times joins against SQLite: a small answer from three large tables, and six joins of a star of a million sales.
Then it times LEARN beside RUN, for the same queries.

  python3 bench/joins.py [--scale N] [--rows N] [--runs N] [--only WORD] [--clock wall|cpu] [--program PATH]
                         [--beside PATH] [--begun 1]

The proved program is the one that `rt run` left in crates/bouquet/out; sqlite3 is Debian's (apt-get install sqlite3).
Both are whole processes over the same files in the same run, by turns, with their output in a file each, and sqlite3
once without ANALYZE and once with it. Both have the same indexes, one on each column that an equality names.

A query's time is a difference of medians: of a script that loads, makes the indexes, for the third side runs ANALYZE,
and asks the query some times in turn, and of one that does the same without asking; divided by how often it is asked.
So it holds the query's compiling and printing, and none of the loading. Behind `+-` stands how uncertain it is: the
median deviations of both scripts from their medians, together, divided as well. Where a wanted time is met or missed
only within that, it is said to be unclear: take more runs, or a quieter machine. With `--clock cpu` times are the
processor's instead of the wall clock's: on a machine that is at other work these say more, and on a quiet one the same,
since either side is one thread and the files are read from memory.

  three       CUSTOMER, ORDERS and LINEITEM, 76,500 rows a scale: the ten orders of a customer with the wanted line
  frequent    two tables: ten of 10,000 items, of which one has a tenth of all sales
  days        three, uniform: three days of 1,000, and buyers of a city; few rows
  uniform     three, uniform: a seventh of the days, a sixth of the buyers, a tenth of the sales; no condition on a key
  skewed      three: the same ten items, and a quarter of the stores, of which one has a fifth of all sales
  correlated  four: the most frequent store, the city of nine in ten of its buyers, and ten rare items
  all         five: the quarter of the stores, a month, the ten items of `frequent`, and the city of `correlated`

All but the first are joins of SALE, which has `--rows` rows, with STORE, DAY, ITEM and BUYER, which have 100 rows, and
a thousandth, a hundredth and a tenth of `--rows`, but never less than 100. Store and item number n are drawn as often
as 1/n, days uniformly, and buyers uniformly from the store's city for nine sales of ten, else from all. `--only` takes
the queries with this word in their name.

Our side also compiles each query once, and then runs it some times in turn by RUN, or as often by LEARN. The time of
one is a difference of medians too: of such a script, and of one that ends with the COMPILE. Printed are for each query

  the times of a RUN and of a LEARN, and how many times as long LEARN takes
  the work of both, and LEARN's divided by RUN's
  the executions of both, and how many skips LEARN tells

and at the end, of both quotients, the greatest, the 95th of a hundred and the middle one; the executions of all queries
by RUN and by LEARN; and all skips. A quotient of times is left out where it can't be said.

`--beside` has another build of the program RUN the same compiled queries, by turns with this one. Its outputs have to be
the same. Printed are both times, and how many times as long it takes. `--begun 1` counts how many of a RUN's executions
are begun: the others are paid without being made. Valgrind counts the calls, which takes minutes a query.

Wanted: the rows are the same; `three` is answered 2 times as fast as by sqlite3 without ANALYZE, the other six together
3 times as fast; none of the six takes more than 10 times as long and more than 50 ms; and a LEARN takes at most a
twentieth longer than a RUN. The status is 1 where rows differ, those of RUN and LEARN among them, or where RUN has
another report than SELECT.
"""
import bisect
import collections
import filecmp
import itertools
import os
import random
import statistics
import sys

from beside_sqlite import DATA, PROCESSOR, SEED, SQLITE, WALL, arguments, by_turns, first_difference, write_csv
from begun import executions_begun
from bound import quotients

TIMES_THREE = 2
TIMES_STAR = 3
TIMES_LEARN = 1.05
MOST_TIMES_SLOWER = 10
MOST_SECONDS_ANYWAY = 0.05
ROWS_A_SCALE = 76_500
STORES = 100
SIDES = OURS, PLAIN, ANALYSED = "bouquet", "sqlite3", "sqlite3 after ANALYZE"
COMPILE, RUN, LEARN = "COMPILE", "RUN", "LEARN"
BESIDE = ", beside"

# `times` is how often a query is asked in turn, and `compiled_times` how often it is run in turn once it is compiled.
Query = collections.namedtuple("Query", "name, columns, tables, where, times, compiled_times")


class Table:
    """A table: its columns with their kinds, those that are indexed, and its rows, anew at each call."""

    def __init__(self, name, columns, indexed, rows):
        self.name = name
        self.columns = columns
        self.indexed = indexed
        self.rows = rows

    def file(self, size):
        """The name of its file, which is made where it isn't there."""
        name = f"joins-{self.name.lower()}-{size}.csv"
        header = ",".join(column for column, _ in self.columns)
        write_csv(os.path.join(DATA, name), header, ([str(it) for it in row] for row in self.rows()))
        return name

    def created(self):
        return "CREATE TABLE {} ({});\n".format(self.name, ", ".join(" ".join(column) for column in self.columns))

    def indexes(self):
        return "".join(f"CREATE INDEX BY_{column} ON {self.name} ({column});\n" for column in self.indexed)


def integers(*names):
    return [(name, "INTEGER") for name in names]


def three_tables(scale):
    customers, orders, lines = 1_500 * scale, 15_000 * scale, 60_000 * scale
    segments = ("AUTOMOBILE", "BUILDING", "FURNITURE", "HOUSEHOLD", "MACHINERY")
    return [
        Table(
            "CUSTOMER",
            [("C_CUSTKEY", "INTEGER"), ("C_NAME", "VARCHAR(25)"), ("C_SEGMENT", "VARCHAR(10)")],
            ["C_CUSTKEY"],
            lambda: ((i, f"Customer#{i:09}", segments[i % 5]) for i in range(1, customers + 1)),
        ),
        Table(
            "ORDERS",
            integers("O_ORDERKEY", "O_CUSTKEY", "O_DAY"),
            ["O_ORDERKEY", "O_CUSTKEY"],
            lambda: ((j, 1 + j % customers, j % 365) for j in range(1, orders + 1)),
        ),
        Table(
            "LINEITEM",
            integers("L_ORDERKEY", "L_LINE", "L_QTY"),
            ["L_ORDERKEY"],
            lambda: ((1 + (k - 1) // 4, 1 + (k - 1) % 4, 1 + k % 50) for k in range(1, lines + 1)),
        ),
    ]


THREE_QUERIES = [
    Query(
        "three",
        "C_NAME, O_ORDERKEY, L_LINE",
        "CUSTOMER, ORDERS, LINEITEM",
        "C_CUSTKEY = O_CUSTKEY AND O_ORDERKEY = L_ORDERKEY AND C_CUSTKEY BETWEEN 14 AND 16 "
        "AND L_QTY = 50 AND L_LINE = 1",
        100,
        1000,
    ),
]


class Star:
    """The sizes of the star's tables."""

    def __init__(self, rows):
        self.sales = rows
        self.buyers, self.items, self.days = (max(STORES, rows // part) for part in (10, 100, 1000))
        self.groups = self.items // 10

    def tables(self):
        return [
            Table(
                "SALE",
                integers("S_STORE", "S_DAY", "S_ITEM", "S_BUYER", "S_COUNT"),
                ["S_STORE", "S_DAY", "S_ITEM", "S_BUYER"],
                self.drawn_sales,
            ),
            Table(
                "STORE",
                [("ST_KEY", "INTEGER"), ("ST_NAME", "VARCHAR(12)"), ("ST_SIZE", "INTEGER")],
                ["ST_KEY"],
                lambda: ((i, f"Store {i:03}", 1 + i % 4) for i in range(1, STORES + 1)),
            ),
            Table(
                "DAY",
                integers("D_KEY", "D_MONTH", "D_WEEKDAY"),
                ["D_KEY"],
                lambda: ((i, 1 + (i - 1) // 30, 1 + i % 7) for i in range(1, self.days + 1)),
            ),
            Table(
                "ITEM",
                [("I_KEY", "INTEGER"), ("I_NAME", "VARCHAR(12)"), ("I_GROUP", "INTEGER")],
                ["I_KEY"],
                lambda: ((i, f"Item {i:06}", i % self.groups) for i in range(1, self.items + 1)),
            ),
            Table(
                "BUYER",
                [("B_KEY", "INTEGER"), ("B_NAME", "VARCHAR(14)"), ("B_CITY", "INTEGER"), ("B_AGE", "INTEGER")],
                ["B_KEY"],
                self.drawn_buyers,
            ),
        ]

    def drawn_sales(self):
        """A buyer lives in city 1 + (number - 1) mod STORES, and the city of a store has its number."""
        draw = random.Random(SEED)
        store, item = zipf(draw, STORES), zipf(draw, self.items)
        for _ in range(self.sales):
            s = store()
            near = draw.random() < 0.9
            buyer = s + STORES * draw.randrange(self.buyers // STORES) if near else draw.randint(1, self.buyers)
            yield s, draw.randint(1, self.days), item(), buyer, draw.randint(1, 10)

    def drawn_buyers(self):
        draw = random.Random(SEED)
        for i in range(1, self.buyers + 1):
            yield i, f"Buyer {i:07}", 1 + (i - 1) % STORES, draw.randint(18, 77)

    def queries(self):
        store, day, item, buyer = "S_STORE = ST_KEY", "S_DAY = D_KEY", "S_ITEM = I_KEY", "S_BUYER = B_KEY"
        frequent, rare = "I_GROUP = 1", f"I_GROUP = {self.groups // 2}"
        asked = [
            ("frequent", "I_NAME, S_BUYER, S_DAY", "SALE, ITEM", (item, frequent)),
            (
                "days",
                "D_KEY, B_NAME, S_COUNT",
                "SALE, DAY, BUYER",
                (day, buyer, "D_KEY BETWEEN 50 AND 52", "B_CITY = 7"),
            ),
            (
                "uniform",
                "B_NAME, D_KEY, S_COUNT",
                "SALE, DAY, BUYER",
                (day, buyer, "D_WEEKDAY = 7", "B_AGE BETWEEN 30 AND 39", "S_COUNT = 10"),
            ),
            (
                "skewed",
                "ST_NAME, I_NAME, S_COUNT",
                "SALE, STORE, ITEM",
                (store, item, "ST_SIZE = 2", frequent, "S_COUNT = 1"),
            ),
            (
                "correlated",
                "I_NAME, B_NAME, S_DAY",
                "SALE, STORE, ITEM, BUYER",
                (store, item, buyer, "ST_NAME = 'Store 001'", "B_CITY = 1", rare),
            ),
            (
                "all",
                "ST_NAME, D_KEY, I_NAME, B_NAME",
                "SALE, STORE, DAY, ITEM, BUYER",
                (store, day, item, buyer, "ST_SIZE = 2", "D_MONTH = 3", frequent, "B_CITY = 1"),
            ),
        ]
        return [Query(name, columns, tables, " AND ".join(where), 5, 20) for name, columns, tables, where in asked]


def zipf(draw, most):
    """Draws numbers of 1 to `most`, each as often as 1 divided by it."""
    sums = list(itertools.accumulate(1 / i for i in range(1, most + 1)))
    return lambda: 1 + min(bisect.bisect(sums, draw.random() * sums[-1]), most - 1)


def select(query):
    return f"SELECT {query.columns} FROM {query.tables} WHERE {query.where}"


class Scripts:
    """What one side is given over some tables: loading alone, with the indexes, and with a query. Only ours compiles
    one."""

    def __init__(self, side, program, tables, size):
        self.words = [program] if side == OURS else SQLITE
        self.ordered = side != OURS
        load = "LOAD '{}' INTO {};\n" if side == OURS else ".import --csv --skip 1 {} {}\n"
        self.loaded = "" if side == OURS else ".mode csv\n"
        self.loaded += "".join(it.created() + load.format(it.file(size), it.name) for it in tables)
        self.indexed = self.loaded + "".join(it.indexes() for it in tables)
        if side == ANALYSED:
            self.indexed += "ANALYZE;\n"

    def asked(self, query):
        order = f" ORDER BY {query.columns}" if self.ordered else ""
        return self.indexed + f"{select(query)}{order};\n" * query.times

    def compiled(self, query, statement, times=None):
        """A query compiled, and then run some times if the statement is RUN or LEARN."""
        runs = "" if statement == COMPILE else f"{statement} Q;\n" * (times or query.compiled_times)
        return self.indexed + f"COMPILE Q AS {select(query)};\n" + runs


def report_line(path):
    """The last report line of an output, without its dashes."""
    last = ""
    with open(path, "rb") as file:
        for line in file:
            if line.startswith(b"-- rows="):
                last = line.decode().strip("- \n")
    return last


class Seconds:
    """A time, and how far it may be from the true one."""

    def __init__(self, middle, doubt):
        self.middle = middle
        self.doubt = doubt

    @staticmethod
    def of(runs):
        middle = statistics.median(seconds for seconds, _, _ in runs)
        return Seconds(middle, statistics.median(abs(seconds - middle) for seconds, _, _ in runs))

    def without(self, other, times):
        return Seconds((self.middle - other.middle) / times, (self.doubt + other.doubt) / times)

    def __str__(self):
        return f"{self.middle * 1e3:.2f} +-{self.doubt * 1e3:.2f} ms"

    def times_of(self, other):
        """How many times the other's time this is, where it can be said."""
        return f"{self.middle / other.middle:.2f}" if min(self.middle, other.middle) > 0 else "?"


def total(all_seconds):
    all_seconds = list(all_seconds)
    return Seconds(sum(it.middle for it in all_seconds), sum(it.doubt for it in all_seconds))


def compared(seconds):
    ours, plain, analysed = (seconds[side] for side in SIDES)
    return (
        f"bouquet {ours}, sqlite3 {plain}: {plain.times_of(ours)} times as fast, "
        f"after ANALYZE {analysed}: {analysed.times_of(ours)}"
    )


def verdict(ours, theirs, most):
    """Whether our time is within `most` of theirs, whatever both are within their doubts. One below 0 says nothing."""
    if min(it.middle + it.doubt for it in (ours, theirs)) <= 0:
        return "unclear"
    if ours.middle + ours.doubt <= most(theirs.middle - theirs.doubt):
        return "met"
    return "unclear" if ours.middle - ours.doubt <= most(theirs.middle + theirs.doubt) else "not met"


def stop_at_difference(query, *outputs):
    """Ends where two outputs of a query have other rows."""
    difference = first_difference(outputs, query.columns.replace(" ", ""), None)
    if difference:
        sys.exit(f"{query.name}: {difference}")


def memory(runs):
    return max(megabytes for _, megabytes, _ in runs)


class Answered:
    """A query's seconds and peak memory on each side, and the outputs."""

    def __init__(self, query, before, asked):
        self.query = query
        self.seconds = {
            side: Seconds.of(asked[side]).without(Seconds.of(before[side]), query.times) for side in SIDES
        }
        self.memory = {side: memory(asked[side]) for side in SIDES}
        self.outputs = {side: asked[side][-1][2] for side in SIDES}

    def stop_where_rows_differ(self):
        for side in (PLAIN, ANALYSED):
            stop_at_difference(self.query, self.outputs[OURS], self.outputs[side])

    def line(self, wanted, most):
        return (
            f"{self.query.name}: {compared(self.seconds)}; "
            f"wanted {wanted}: {verdict(self.seconds[OURS], self.seconds[PLAIN], most)}; "
            f"peak {self.memory[OURS]:.0f} MB, sqlite3 {self.memory[PLAIN]:.0f} MB; {report_line(self.outputs[OURS])}"
        )


class Executed:
    """What a statement takes that runs a compiled query: the seconds, what its report says, and how many skips it
    tells."""

    def __init__(self, query, compiled, runs):
        self.seconds = Seconds.of(runs).without(Seconds.of(compiled), query.compiled_times)
        self.output = runs[-1][2]
        self.report = report_line(self.output)
        said = dict(word.split("=", 1) for word in self.report.split())
        self.work, self.executions = int(said["work"]), int(said["runs"])
        with open(self.output, "rb") as file:
            self.skips = sum(line.startswith(b"-- skip ") for line in file) // query.compiled_times


class Learned:
    """A compiled query's RUN beside its LEARN, whose rows are the same. RUN has the report of SELECT."""

    def __init__(self, query, runs, selected):
        compiled, run, learn = (runs[f"{query.name}, {statement}"] for statement in (COMPILE, RUN, LEARN))
        self.query = query
        self.run, self.learn = Executed(query, compiled, run), Executed(query, compiled, learn)
        stop_at_difference(query, self.run.output, self.learn.output)
        if self.run.report != report_line(selected):
            sys.exit(f"{query.name}: RUN has another report than SELECT: {self.run.report}")

    def works(self):
        """LEARN's work divided by RUN's."""
        return self.learn.work / self.run.work

    def line(self):
        run, learn = self.run, self.learn
        met = verdict(learn.seconds, run.seconds, lambda it: TIMES_LEARN * it)
        return (
            f"{self.query.name}, compiled: RUN {run.seconds}, LEARN {learn.seconds}: "
            f"{learn.seconds.times_of(run.seconds)} times as long, wanted at most {TIMES_LEARN}: {met}; "
            f"work {run.work}, {learn.work}: {self.works():.2f}; "
            f"executions {run.executions}, {learn.executions}; skips {learn.skips}"
        )


class Beside:
    """A compiled query's RUN by this program and by another build, whose output is the same."""

    def __init__(self, query, runs):
        self.query = query
        self.here, self.there = (
            Executed(query, runs[f"{query.name}, {COMPILE}{side}"], runs[f"{query.name}, {RUN}{side}"])
            for side in ("", BESIDE)
        )
        if not filecmp.cmp(self.here.output, self.there.output, shallow=False):
            sys.exit(f"{query.name}: the other build prints something else")

    def line(self):
        here, there = self.here.seconds, self.there.seconds
        return f"{self.query.name}: RUN {here}, by the other build {there}: {there.times_of(here)} times as long"


def print_beside(beside):
    """How the other build's runs compare, for each query and in the sum."""
    for it in beside:
        print(it.line())
    if beside:
        here, there = (total(getattr(it, side).seconds for it in beside) for side in ("here", "there"))
        print(f"sum of {len(beside)} queries: RUN {here}, by the other build {there}: {there.times_of(here)} times as long")


def print_begun(scripts, queries, given):
    """How many of a RUN's executions are begun."""
    for query in queries:
        begun = executions_begun(given.program, scripts.compiled(query, RUN, 1))
        print(f"{query.name}: {begun} executions of a RUN are begun")


def sum_of_learned(learned):
    """How LEARN compares with RUN over all queries."""
    seconds = [(it.learn.seconds.middle, it.run.seconds.middle) for it in learned]
    times = [learn / run for learn, run in seconds if min(learn, run) > 0]
    return (
        f"LEARN beside RUN, {len(learned)} queries, worst / 95th of a hundred / middle: "
        f"works {quotients([it.works() for it in learned])}, times {quotients(times)}; "
        f"executions {sum(it.run.executions for it in learned)}, {sum(it.learn.executions for it in learned)}; "
        f"skips {sum(it.learn.skips for it in learned)}"
    )


def measured(name, tables, size, queries, given):
    """Runs all scripts by turns, and prints how long loading takes. Returns how the queries were answered, and how RUN
    and LEARN compare."""
    scripts = {side: Scripts(side, given.program, tables, size) for side in SIDES}
    steps = {"loaded": lambda it: it.loaded, "indexed": lambda it: it.indexed}
    for query in queries:
        steps[query.name] = lambda it, query=query: it.asked(query)
    sides = {
        f"{step}, {side}": (scripts[side].words, text(scripts[side])) for step, text in steps.items() for side in SIDES
    }
    for query in queries:
        for statement in (COMPILE, RUN, LEARN):
            sides[f"{query.name}, {statement}"] = scripts[OURS].words, scripts[OURS].compiled(query, statement)
            if given.beside and statement != LEARN:
                other = [os.path.abspath(given.beside)], scripts[OURS].compiled(query, statement)
                sides[f"{query.name}, {statement}{BESIDE}"] = other
    runs = by_turns(sides, given.runs, given.clock)
    loaded, indexed, *asked = ({side: runs[f"{step}, {side}"] for side in SIDES} for step in steps)
    for what, at in (("loaded", loaded), ("loaded, with indexes", indexed)):
        seconds = {side: Seconds.of(at[side]) for side in SIDES}
        peaks = f"peak {memory(at[OURS]):.0f} MB, sqlite3 {memory(at[PLAIN]):.0f} MB"
        print(f"{name}, {what}: {compared(seconds)}; {peaks}")
    answered = [Answered(query, indexed, it) for query, it in zip(queries, asked)]
    for it in answered:
        it.stop_where_rows_differ()
    print_beside([Beside(query, runs) for query in queries] if given.beside else [])
    print_begun(scripts[OURS], queries if given.begun else [], given)
    return answered, [Learned(it.query, runs, it.outputs[OURS]) for it in answered]


def join_three(given, queries):
    name = f"three tables of {ROWS_A_SCALE * given.scale:,} rows"
    answered, learned = measured(name, three_tables(given.scale), given.scale, queries, given)
    for it in answered:
        print(it.line(f"{TIMES_THREE} times", lambda theirs: theirs / TIMES_THREE))
    return learned


def most_of_star(theirs):
    return max(MOST_TIMES_SLOWER * theirs, MOST_SECONDS_ANYWAY)


def join_star(given, star, queries):
    answered, learned = measured(f"star of {given.rows:,} rows", star.tables(), given.rows, queries, given)
    for it in answered:
        print(it.line(f"at most {most_of_star(it.seconds[PLAIN].middle) * 1e3:.0f} ms", most_of_star))
    seconds = {side: total(it.seconds[side] for it in answered) for side in SIDES}
    met = verdict(seconds[OURS], seconds[PLAIN], lambda theirs: theirs / TIMES_STAR)
    print(f"star, sum of {len(answered)} queries: {compared(seconds)}; wanted {TIMES_STAR} times: {met}")
    return learned


def main():
    given = arguments(__doc__, scale=10, only="", clock=WALL, beside="", begun=0)
    if given.clock not in (WALL, PROCESSOR):
        sys.exit(f"no clock {given.clock}")
    star = Star(given.rows)
    three, of_star = ([it for it in queries if given.only in it.name] for queries in (THREE_QUERIES, star.queries()))
    learned = join_three(given, three) if three else []
    if of_star:
        learned += join_star(given, star, of_star)
    for it in learned:
        print(it.line())
    if learned:
        print(sum_of_learned(learned))


if __name__ == "__main__":
    main()
