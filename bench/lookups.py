#!/usr/bin/env python3
"""Times queries for few rows of a million, or for none, against SQLite with the same indexes.

  python3 bench/lookups.py [--rows N] [--asked N] [--scale N] [--runs N] [--only WORD] [--clock wall|cpu] [--program PATH]

The proved program is the one that `rt run` left in crates/bouquet/out; sqlite3 is Debian's (apt-get install sqlite3).
Both are whole processes over the same rows in the same run, by turns, with their output in a file each.

T has `--rows` rows. Its keys K are the even numbers from 0 on, in no order, and its texts S all differ. A is a number below
a million. Z is 0 in half of the rows, and in the others the number n as often as 1/n. K, Z and S have an index, A has none.

  key     one row: K = ..
  text    one row: S = ..
  none    no row: K = .., between two keys
  range   a thousandth of the rows: K BETWEEN .. AND ..
  part    a tenth of these, on average: K BETWEEN .. AND .. AND A < ..
  rare    the rows of a rare value: Z = ..
  common  half of a range: Z = 0 AND K BETWEEN .. AND ..; asked a fiftieth as often, since sqlite3 reads all rows of Z = 0
  small   ten rows: a table of ten keys, joined with T
  three   the query of this name of bench/joins.py, over its tables of `--scale`; asked a tenth as often

A query's time is a difference of medians, and behind `+-` stands how uncertain it is, as in bench/joins.py: one script asks
`--asked` queries in turn, each with other constants where it has any, another asks none, and the difference is divided by
how many they are: the more are asked, the less uncertain it is. `--only` takes the kinds with this word in their name.

sqlite3 restores its database, with the indexes, from a file into memory. That takes it a thirtieth of the time of a load,
and loads differ among themselves by more than the queries take. It orders rows by one column where that gives our order.

Wanted: the rows are the same; a query of `key` takes at most 0.1 ms, one of `range` at most 1.5 times what it takes sqlite3,
and one of `three` at most 1 ms. The status is 1 where rows differ, or where one of these is surely not met.
"""
import collections
import random
import sys

from beside_sqlite import PROCESSOR, SEED, SQLITE, WALL, arguments, by_turns, first_difference, rows_of, run
from joins import OURS, PLAIN, THREE_QUERIES, Scripts, Seconds, Table, integers, three_tables, verdict, zipf

COMMON = 0
MOST_A = 10**6
KEYS_OF_SMALL = 10
ASKED_LESS = {"common": 50, "three": 10}
MILLISECONDS, TIMES = "ms", "times"
AT_MOST = {"key": (0.1, MILLISECONDS), "range": (1.5, TIMES), "three": (1, MILLISECONDS)}

Kind = collections.namedtuple("Kind", "name, columns, tables, order, wheres")
NOTHING = Kind("nothing", "", "", "", [])


def text(number):
    return f"name {number:07}"


def in_no_order(draw, rows):
    numbers = list(range(rows))
    draw.shuffle(numbers)
    return numbers


def rows_of_t(rows):
    draw = random.Random(SEED)
    other = zipf(draw, rows // 10)
    for key, name in zip(in_no_order(draw, rows), in_no_order(draw, rows)):
        yield 2 * key, draw.randrange(MOST_A), COMMON if draw.random() < 0.5 else other(), text(name)


def rows_of_small(rows):
    return ((2 * key,) for key in random.Random(SEED).sample(range(rows), KEYS_OF_SMALL))


def two_tables(rows):
    return [
        Table("T", integers("K", "A", "Z") + [("S", "VARCHAR(12)")], ["K", "Z", "S"], lambda: rows_of_t(rows)),
        Table("SMALL", integers("R"), [], lambda: rows_of_small(rows)),
    ]


def times(name, asked):
    return max(1, asked // ASKED_LESS.get(name, 1))


def kinds_of_two(rows, asked):
    draw = random.Random(SEED)
    part = rows // 1000

    def key():
        return 2 * draw.randrange(rows)

    def keys():
        first = draw.randrange(rows - part)
        return f"K BETWEEN {2 * first} AND {2 * (first + part) - 1}"

    conditions = {
        "key": lambda: f"K = {key()}",
        "text": lambda: f"S = '{text(draw.randrange(rows))}'",
        "none": lambda: f"K = {key() + 1}",
        "range": keys,
        "part": lambda: f"{keys()} AND A < {draw.randrange(MOST_A // 5)}",
        "rare": lambda: f"Z = {draw.randint(part, rows // 10)}",
        "common": lambda: f"Z = {COMMON} AND {keys()}",
    }
    of_t = [
        Kind(name, "K, A, Z, S", "T", "K", [condition() for _ in range(times(name, asked))])
        for name, condition in conditions.items()
    ]
    return of_t + [Kind("small", "R, A, Z, S", "SMALL, T", "R", ["SMALL.R = T.K"] * asked)]


def kinds_of_three(asked):
    return [
        Kind(it.name, it.columns, it.tables, it.columns, [it.where] * times(it.name, asked)) for it in THREE_QUERIES
    ]


class Side:
    """A side's command, and how its scripts begin, so that it has the tables and the indexes."""

    def __init__(self, words, beginning, in_order):
        self.words = words
        self.beginning = beginning
        self.in_order = in_order

    def asked(self, kind):
        order = "" if self.in_order else f" ORDER BY {kind.order}"
        selects = (f"SELECT {kind.columns} FROM {kind.tables} WHERE {where}{order};\n" for where in kind.wheres)
        return self.words, self.beginning + "".join(selects)


def both_sides(name, tables, size, program):
    """Both sides, after sqlite3 has saved its database."""
    ours, theirs = (Scripts(side, program, tables, size) for side in (OURS, PLAIN))
    run(SQLITE, theirs.indexed + f".save {name}.db\n", name)
    return {
        OURS: Side(ours.words, ours.indexed, True),
        PLAIN: Side(theirs.words, f".mode csv\n.restore {name}.db\n", False),
    }


class Answered:
    """How both sides answered a kind: the time of a query, and the outputs, whose rows are the same."""

    def __init__(self, kind, before, asked):
        self.kind = kind
        self.seconds = [
            Seconds.of(late).without(Seconds.of(early), len(kind.wheres)) for early, late in zip(before, asked)
        ]
        outputs = [runs[-1][2] for runs in asked]
        header = kind.columns.replace(" ", "")
        difference = first_difference(outputs, header, None)
        if difference:
            sys.exit(f"{kind.name}: {difference}")
        self.rows = sum(1 for _ in rows_of(outputs[0], header)) / len(kind.wheres)
        self.verdict = judged(kind.name, *self.seconds)

    def line(self):
        ours, theirs = self.seconds
        most = f"; wanted at most {'{} {}'.format(*AT_MOST[self.kind.name])}: {self.verdict}" if self.verdict else ""
        return (
            f"{self.kind.name}: bouquet {shown(ours)}, sqlite3 {shown(theirs)}: {ours.times_of(theirs)} times as long; "
            f"{self.rows:.1f} rows{most}"
        )


def judged(name, ours, theirs):
    """Whether a query of this kind takes no longer than wanted; None where that isn't said."""
    most, unit = AT_MOST.get(name, (None, None))
    if unit == MILLISECONDS:
        return verdict(ours, ours, lambda _: most / 1e3)
    return verdict(ours, theirs, lambda it: most * it) if unit == TIMES else None


def shown(seconds):
    return f"{seconds.middle * 1e3:.3f} +-{seconds.doubt * 1e3:.3f} ms"


def answered(name, tables, size, kinds, given):
    """Runs all scripts over some tables by turns. Gives how each kind was answered."""
    sides = both_sides(name, tables, size, given.program)
    scripts = {f"{kind.name}, {side}": sides[side].asked(kind) for kind in [NOTHING, *kinds] for side in sides}
    runs = by_turns(scripts, given.runs, given.clock)
    before, *all_asked = ([runs[f"{kind.name}, {side}"] for side in sides] for kind in [NOTHING, *kinds])
    return [Answered(kind, before, asked) for kind, asked in zip(kinds, all_asked)]


def main():
    given = arguments(__doc__, asked=1000, scale=10, only="", clock=WALL)
    if given.clock not in (WALL, PROCESSOR):
        sys.exit(f"no clock {given.clock}")
    groups = [
        ("lookups", two_tables(given.rows), given.rows, kinds_of_two(given.rows, given.asked)),
        ("lookups-three", three_tables(given.scale), given.scale, kinds_of_three(given.asked)),
    ]
    verdicts = []
    for name, tables, size, kinds in groups:
        kinds = [kind for kind in kinds if given.only in kind.name]
        for it in answered(name, tables, size, kinds, given) if kinds else []:
            print(it.line())
            verdicts.append(it.verdict)
    if "not met" in verdicts:
        sys.exit(1)


if __name__ == "__main__":
    main()
