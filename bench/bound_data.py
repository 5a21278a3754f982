"""The seeded databases of bench/bound.py: a few tables each, and a query that joins them all."""
import collections
import random

from beside_sqlite import SEED

KINDS = ("uniform", "skewed", "correlated", "empty", "keys")
SHAPES = ("chain", "star", "chain", "circle")
ROWS = {2: (100, 800), 3: (50, 300), 4: (25, 80)}
FILTERED = "F"
FILTER_VALUES = 10
MOST_INDEXES = {2: 4, 3: 3, 4: 2}

Edge = collections.namedtuple("Edge", "number, left, right, column")


class Filter(collections.namedtuple("Filter", "low, high")):
    """A condition on a table's column F: equality where both ends are one number, else a range with its ends."""

    def text(self):
        return f"= {self.low}" if self.low == self.high else f"BETWEEN {self.low} AND {self.high}"

    def keeps(self, value):
        return self.low <= value <= self.high


class Table:
    """A table: its name, its columns' names, its rows, the names of its indexed columns, and its filter or None."""

    def __init__(self, name, columns, rows, indexed, filtered):
        self.name = name
        self.columns = columns
        self.rows = rows
        self.indexed = indexed
        self.filter = filtered

    def values(self, column):
        at = self.columns.index(column)
        return [row[at] for row in self.rows]

    def kept(self):
        """The rows that the filter keeps."""
        at = self.columns.index(FILTERED)
        return [row for row in self.rows if self.filter is None or self.filter.keeps(row[at])]

    def kept_values(self, column):
        at = self.columns.index(column)
        return [row[at] for row in self.kept()]

    def file(self):
        return f"{self.name.lower()}.csv"

    def csv(self):
        lines = [self.columns, *(map(str, row) for row in self.rows)]
        return "".join(",".join(line) + "\n" for line in lines)

    def statements(self):
        columns = ", ".join(f"{column} INTEGER" for column in self.columns)
        made = f"CREATE TABLE {self.name} ({columns});\nLOAD '{self.file()}' INTO {self.name};\n"
        return made + "".join(f"CREATE INDEX {self.name}_{it} ON {self.name} ({it});\n" for it in self.indexed)


class Database:
    """A database: its kind, the shape of its query, its tables and the query's edges."""

    def __init__(self, kind, shape, tables, edges):
        self.kind = kind
        self.shape = shape
        self.tables = tables
        self.edges = edges

    def statements(self):
        return "".join(table.statements() for table in self.tables)

    def query(self):
        names = [table.name for table in self.tables]
        joins = [f"{names[it.left]}.{it.column} = {names[it.right]}.{it.column}" for it in self.edges]
        filters = [f"{it.name}.{FILTERED} {it.filter.text()}" for it in self.tables if it.filter]
        return f"SELECT {names[0]}.{FILTERED} FROM {', '.join(names)} WHERE {' AND '.join(joins + filters)}"


def edges_of(shape, count):
    """Chains join neighbours, circles the last table with the first as well, stars each table with the first."""
    if shape == "star":
        pairs = [(0, other) for other in range(1, count)]
    else:
        pairs = [(one, one + 1) for one in range(count - 1)]
    if shape == "circle" and count > 2:
        pairs.append((count - 1, 0))
    return [Edge(number, left, right, f"J{number}") for number, (left, right) in enumerate(pairs)]


class Columns:
    """Draws the columns of the tables of one database."""

    def __init__(self, draw, kind, edges, sizes):
        self.draw = draw
        self.kind = kind
        self.sizes = sizes
        least = min(sizes)
        self.domains = [draw.randrange(max(2, least // 3), 2 * least) for _ in edges]
        self.apart = draw.randrange(len(edges))

    def join_column(self, edge, table, hidden):
        """The values of a table's column for an edge; `hidden` is what the columns of a row have in common."""
        rows, domain = self.sizes[table], self.domains[edge.number]
        if self.kind == "skewed":
            return self.draw.choices(range(domain), [1 / (1 + it) for it in range(domain)], k=rows)
        if self.kind == "correlated":
            return [it % domain if self.draw.random() < 0.9 else self.draw.randrange(domain) for it in hidden]
        if self.kind == "keys":
            return self.key(edge, table)
        drawn = [self.draw.randrange(domain) for _ in range(rows)]
        is_apart = self.kind == "empty" and edge.number == self.apart and table == edge.right
        return [it + domain for it in drawn] if is_apart else drawn

    def key(self, edge, table):
        """Each value once on the right of the edge; on its left any of these."""
        if table == edge.right:
            return self.draw.sample(range(self.sizes[table]), self.sizes[table])
        return [self.draw.randrange(self.sizes[edge.right]) for _ in range(self.sizes[table])]

    def filter_column(self, hidden):
        if self.kind == "correlated":
            return [it % FILTER_VALUES for it in hidden]
        if self.kind == "skewed":
            return self.draw.choices(range(FILTER_VALUES), [1 / (1 + it) for it in range(FILTER_VALUES)], k=len(hidden))
        return [self.draw.randrange(FILTER_VALUES) for _ in hidden]


def filter_of(draw, values):
    """No filter, an equality with a value that is there, or a range, as often as each other."""
    choice = draw.randrange(3)
    if choice == 0:
        return None
    if choice == 1:
        value = draw.choice(values)
        return Filter(value, value)
    low = draw.randrange(FILTER_VALUES - 1)
    return Filter(low, draw.randrange(low + 1, FILTER_VALUES))


def database(number):
    """The database of this number, from 0: kinds by turns, then numbers of tables, then shapes of queries."""
    draw = random.Random(SEED + number)
    kind, turn = KINDS[number % len(KINDS)], number // len(KINDS)
    count = 2 + turn % len(ROWS)
    shape = SHAPES[turn // len(ROWS) % len(SHAPES)] if count > 2 else "chain"
    edges = edges_of(shape, count)
    sizes = [draw.randint(*ROWS[count]) for _ in range(count)]
    columns = Columns(draw, kind, edges, sizes)
    tables = []
    for table, size in enumerate(sizes):
        hidden = [draw.randrange(2 * FILTER_VALUES) for _ in range(size)]
        joined = [edge for edge in edges if table in (edge.left, edge.right)]
        drawn = [columns.join_column(edge, table, hidden) for edge in joined] + [columns.filter_column(hidden)]
        names = [edge.column for edge in joined] + [FILTERED]
        tables.append(Table(f"T{table}", names, list(zip(*drawn)), [], filter_of(draw, drawn[-1])))
    places = [(table, column) for table in tables for column in table.columns]
    for table, column in draw.sample(places, draw.randint(0, MOST_INDEXES[count])):
        table.indexed.append(column)
    return Database(kind, shape, tables, edges)
