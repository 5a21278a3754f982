"""The queries with parameters of bench/bound.py: seeded databases whose queries are compiled once and run with several values.

The databases are made as the others, with numbers behind theirs. In each the conditions on one table, or on two of them, are
`F BETWEEN ? AND ?`. They are run with values that keep each row of a table, about a half of the rows, those of one value, and
none; where there are two such tables, each of these lists for both, and two that differ.
"""
import collections
import copy
import random

from beside_sqlite import SEED
from bound_data import FILTER_VALUES, Filter, database

FIRST = 60
ALL = Filter(0, FILTER_VALUES - 1)
HALF = Filter(0, FILTER_VALUES // 2 - 1)
ONE = Filter(3, 3)
NONE = Filter(FILTER_VALUES, FILTER_VALUES)


class Prepared(collections.namedtuple("Prepared", "data, tables")):
    """A database, and the numbers of the tables of which the condition has parameters, ascending."""

    def axes(self):
        return len(self.data.edges) + len(self.tables)

    def lists(self):
        """The values that it is run with: a filter for each of the tables."""
        same = [[it] * len(self.tables) for it in (ALL, HALF, ONE, NONE)]
        return same if len(self.tables) == 1 else same + [[ALL, ONE], [ONE, ALL]]

    def with_values(self, values):
        """The database whose query has these values in its text."""
        data = copy.copy(self.data)
        data.tables = list(data.tables)
        for table, value in zip(self.tables, values):
            data.tables[table] = copy.copy(data.tables[table])
            data.tables[table].filter = value
        return data

    def query(self):
        """The query, with its parameters."""
        return self.with_values([Parameters()] * len(self.tables)).query()

    def kept_part(self, table, value):
        """Which part of a table's rows a value keeps; 0 where there is no row."""
        rows = self.data.tables[table].values("F")
        return (sum(value.keeps(it) for it in rows), len(rows))


class Parameters:
    """The condition before its values come."""

    def text(self):
        return "BETWEEN ? AND ?"


def prepared(number):
    """The query of this number, from 0."""
    data = database(FIRST + number)
    draw = random.Random(SEED - 1 - number)
    few = len(data.tables) + len(data.edges) > 6
    return Prepared(data, sorted(draw.sample(range(len(data.tables)), 1 if few else draw.randint(1, 2))))


def using(values):
    """The values as USING has them."""
    return ", ".join(f"{it.low}, {it.high}" for it in values)
