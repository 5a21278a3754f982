"""The plan that a textbook estimate picks for a query of bench/bound.py.

An equality of two columns is taken to hold for one pair of rows in so many as the greater of the columns' numbers of
different values; `F = x` to keep one row in so many as F has different values; a range to keep that part of the rows that it
covers of the way from F's least value to its greatest. All of these are taken to be independent. They give the rows of each
set of tables, rounded up, and these what each plan costs, by the engine's own charges (crates/plan_tree, `work_of`).

The plans are all that the engine has: each way to cut a set of tables in two, with a nested loop, and with a hash join, a
merge join and an index loop by each equality between the two sides; scans and index scans. A plan's cost is a sum over its
nodes, and a node's cost depends on the tables below it alone, so the cheapest plan of a set is made of cheapest ones.
"""
import fractions
import math

from bound_data import FILTERED

PAGE_WORDS = 1024
NODE_ENTRIES = 64


def filter_part(table):
    """Which part of a table's rows its filter is taken to keep."""
    if table.filter is None:
        return fractions.Fraction(1)
    values, (low, high) = table.values(FILTERED), table.filter
    if low == high:
        return fractions.Fraction(1, len(set(values)))
    least, most = min(values), max(values)
    if least == most:
        return fractions.Fraction(int(low <= least <= high))
    return fractions.Fraction(max(0, min(high, most) - max(low, least)), most - least)


def edge_part(database, edge):
    """Which part of the pairs of rows an equality is taken to hold for."""
    return fractions.Fraction(1, max(len(set(database.tables[it].values(edge.column))) for it in (edge.left, edge.right)))


def pages_of(table):
    return -(-len(table.rows) // (PAGE_WORDS // len(table.columns)))


def height_of(table):
    """The height of an index on a column without NULL."""
    height = 1
    while NODE_ENTRIES**height < len(table.rows):
        height += 1
    return height


class Textbook:
    """The estimates for one database, and for each set of tables, a number with a bit for each, its cheapest plan."""

    def __init__(self, database):
        self.tables = database.tables
        self.edges = database.edges
        self.filter_parts = [filter_part(it) for it in database.tables]
        self.edge_parts = [edge_part(database, it) for it in database.edges]
        self.everything = (1 << len(self.tables)) - 1
        self.rows = [self.rows_of(it) for it in range(self.everything + 1)]
        self.best, self.counts = {}, {}
        for members in range(1, self.everything + 1):
            plans = list(self.plans_of(members))
            self.best[members] = min(plans)[:2]
            self.counts[members] = sum(count for _, _, count in plans)

    def rows_of(self, members):
        """How many rows a set of tables is taken to give."""
        rows = fractions.Fraction(1)
        for number, table in enumerate(self.tables):
            if members >> number & 1:
                rows *= len(table.rows) * self.filter_parts[number]
        for edge, part in zip(self.edges, self.edge_parts):
            if members >> edge.left & 1 and members >> edge.right & 1:
                rows *= part
        return math.ceil(rows)

    def plans_of(self, members):
        """What plans of a set cost, with the best plans as their sides, their texts, and for how many each stands."""
        if members & (members - 1) == 0:
            yield from self.leaves(members.bit_length() - 1)
            return
        left = (members - 1) & members
        while left:
            yield from self.joins(left, members & ~left)
            left = (left - 1) & members

    def leaves(self, number):
        table, out = self.tables[number], self.rows[1 << number]
        yield 1 + 8 * pages_of(table) + len(table.rows) + out, f"S{number}", 1
        if table.filter and FILTERED in table.indexed:
            found = math.ceil(len(table.rows) * self.filter_parts[number])
            column = table.columns.index(FILTERED)
            yield 1 + 2 * height_of(table) + 10 * found + out, f"I{number}.{column}", 1

    def joins(self, left, right):
        (left_cost, left_text), (right_cost, right_text) = self.best[left], self.best[right]
        sides, text = left_cost + right_cost, f"({left_text},{right_text})"
        l, r, out = self.rows[left], self.rows[right], self.rows[left | right]
        count = self.counts[left] * self.counts[right]
        yield sides + r + l * r + out, f"N{text}", count
        for edge in self.edges:
            ends = 1 << edge.left, 1 << edge.right
            if not (left & ends[0] and right & ends[1] or left & ends[1] and right & ends[0]):
                continue
            part = self.edge_parts[edge.number]
            pairs = math.ceil(l * r * part)
            sorting = l * l.bit_length() + r * r.bit_length()
            yield sides + 2 * r + l + pairs + out, f"H{edge.number}{text}", count
            yield sides + sorting + l + r + pairs + out, f"M{edge.number}{text}", count
            table = self.tables[right.bit_length() - 1]
            if right in ends and edge.column in table.indexed:
                pairs = math.ceil(l * len(table.rows) * part)
                cost = left_cost + 2 * height_of(table) * l + 11 * pairs + out
                yield cost, f"X{edge.number}({left_text},{right.bit_length() - 1})", self.counts[left]

    def plan(self):
        """The text of the cheapest plan of all tables."""
        return self.best[self.everything][1]

    def plans(self):
        """How many plans of all tables there are."""
        return self.counts[self.everything]
