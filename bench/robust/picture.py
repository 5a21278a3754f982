"""What bench/robust makes of its figures: tables in Markdown, and an SVG with a point for each query and side."""
import math

from svg import document, element

WIDTH, LEFT, RIGHT = 960, 268, 60
TOP, ROW, HEADING = 164, 16, 26
LEAST_SECONDS = 1e-4
COLOURS = {"bouquet": "#c2410c", "sqlite3": "#1d4ed8", "PostgreSQL": "#15803d"}
AXIS = ((1e-4, "0.1 ms"), (1e-3, "1 ms"), (1e-2, "10 ms"), (1e-1, "0.1 s"), (1, "1 s"), (10, "10 s"))


class Figures:
    """The figures of a measurement, with what follows from them. A time-out counts as the limit."""

    def __init__(self, figures):
        self.limit = figures["limit"]
        self.sides = figures["sides"]
        self.queries = figures["queries"]
        self.all = figures

    def seconds(self, query, side):
        return self.limit if self.timed_out(query, side) else query["seconds"][side]

    @staticmethod
    def timed_out(query, side):
        return query["seconds"][side] is None

    def best(self, query):
        return min(self.seconds(query, side) for side in self.sides)

    def quotient(self, query, side):
        return self.seconds(query, side) / self.best(query)

    def total(self, side, queries):
        return sum(self.seconds(it, side) for it in queries)

    def mean(self, side, queries):
        return math.exp(sum(math.log(self.seconds(it, side)) for it in queries) / len(queries))

    def databases(self):
        """The names of the databases, each with its queries."""
        found = {}
        for it in self.queries:
            found.setdefault(database_of(it), []).append(it)
        return found


def database_of(query):
    return query["name"].partition(": ")[0]


def title_of(query):
    return query["name"].partition(": ")[2]


def milliseconds(seconds):
    value = seconds * 1e3
    return f"{value:,.0f}" if value >= 100 else f"{value:.1f}" if value >= 10 else f"{value:.2f}"


def quotient_text(value):
    return f"{value:,.0f}" if value >= 100 else f"{value:.1f}"


# ---- tables

def table(heads, lines):
    return "\n".join(["| " + " | ".join(map(str, it)) + " |" for it in (heads, *lines)]).replace(
        "\n", "\n" + "|---" * len(heads) + "|\n", 1
    )


def summary(figures):
    """Of each side what it takes in all."""
    heads = ["side", "sum, s", "geometric mean, ms", "worst quotient", "fastest in", "time-outs"]
    lines = []
    for side in figures.sides:
        worst = max(figures.queries, key=lambda it: figures.quotient(it, side))
        at_least = "at least " * figures.timed_out(worst, side)
        lines.append([
            side,
            f"{figures.total(side, figures.queries):.2f}",
            milliseconds(figures.mean(side, figures.queries)),
            at_least + quotient_text(figures.quotient(worst, side)),
            sum(figures.seconds(it, side) == figures.best(it) for it in figures.queries),
            sum(figures.timed_out(it, side) for it in figures.queries),
        ])
    return table(heads, lines)


def by_database(figures):
    """Of each side the sum and the geometric mean for each database."""
    parts = figures.databases()
    heads = ["side", *(f"{name}: {what}" for name in parts for what in ("sum, s", "mean, ms"))]
    lines = [
        [side, *(cell for it in parts.values() for cell in sums(figures, side, it))]
        for side in figures.sides
    ]
    return table(heads, lines)


def sums(figures, side, queries):
    return f"{figures.total(side, queries):.2f}", milliseconds(figures.mean(side, queries))


def times(figures, queries):
    """The times of each query in milliseconds."""
    heads = ["query", "rows", *(it.replace("sqlite3, ", "").replace("PostgreSQL, ", "") for it in figures.sides)]
    lines = []
    for it in queries:
        cells = ["time-out" if figures.timed_out(it, side) else milliseconds(it["seconds"][side]) for side in figures.sides]
        lines.append([title_of(it), "?" if it["rows"] is None else f"{it['rows']:,}", *cells])
        if "bouquet" in figures.sides:
            lines[-1].append(quotient_text(figures.quotient(it, "bouquet")))
    return table(heads + ["ours / best"] * ("bouquet" in figures.sides), lines)


def works(queries):
    """What bouquet reports of each query."""
    heads = ["query", "tables", "work", "runs", "contour"]
    return table(heads, [
        [title_of(it), it["tables"], f"{int(it['report']['work']):,}", it["report"]["runs"], it["report"]["contour"]]
        for it in queries
        if it["report"]
    ])


def tables(figures):
    """All tables: of the sides, of each database's times, and of each database's works."""
    figures = Figures(figures)
    parts = figures.databases().values()
    found = [summary(figures), by_database(figures), *(times(figures, it) for it in parts)]
    if "bouquet" in figures.sides:
        found += [works(it) for it in parts]
    return found


# ---- the picture

def mark(side, x, y):
    """The point of a side: a disc, a square or a triangle, hollow where there are no statistics, and for LEARN."""
    colour = COLOURS[side.partition(",")[0]]
    fill = colour if "ANALYZE" in side or side == "bouquet" else "#ffffff"
    look = {"fill": fill, "stroke": colour, "stroke_width": 1.4}
    if side.startswith("bouquet"):
        return element("circle", cx=f"{x:.1f}", cy=f"{y:.1f}", r=5, **look)
    if side.startswith("sqlite3"):
        return element("rect", x=f"{x - 3.8:.1f}", y=f"{y - 3.8:.1f}", width=7.6, height=7.6, **look)
    return element("path", d=f"M{x:.1f} {y - 5:.1f} l5 9 h-10 z", **look)


class Scale:
    """Where a time stands, by its logarithm."""

    def __init__(self, limit):
        self.limit = limit
        self.span = math.log(limit / LEAST_SECONDS)

    def x(self, seconds):
        part = math.log(max(seconds, LEAST_SECONDS) / LEAST_SECONDS) / self.span
        return LEFT + part * (WIDTH - RIGHT - LEFT)


def legend(figures):
    """A line for each side, with its sum and its time-outs."""
    shift = len(figures.sides) % 2
    for number, side in enumerate(figures.sides):
        line, column = divmod(number + shift, 2)
        x, y = LEFT + 316 * (column if number else 0), 74 + 18 * line
        lost = sum(figures.timed_out(it, side) for it in figures.queries)
        outs = "no time-out" if lost == 0 else f"{lost} time-out{'s' * (lost > 1)}"
        yield mark(side, x + 5, y - 4)
        yield element("text", f"{side}: sum {figures.total(side, figures.queries):.1f} s, {outs}", x=x + 18, y=y)


def axis(scale, bottom):
    for seconds, text in AXIS:
        if seconds < scale.limit:
            x = f"{scale.x(seconds):.1f}"
            yield element("line", x1=x, y1=TOP - 18, x2=x, y2=bottom, stroke="#e4e4e4")
            yield element("text", text, x=x, y=TOP - 24, text_anchor="middle", fill="#666666")
    x = f"{scale.x(scale.limit):.1f}"
    yield element("line", x1=x, y1=TOP - 18, x2=x, y2=bottom, stroke="#666666", stroke_dasharray="3 3")
    yield element("text", f"{scale.limit:g} s: out", x=x, y=TOP - 24, text_anchor="middle", fill="#666666")


def query_row(figures, scale, query, y):
    """A query's name, a line from its best time to its worst, and the point of each side, bouquet's on top."""
    seconds = [figures.seconds(query, side) for side in figures.sides]
    yield element("text", title_of(query), x=LEFT - 14, y=y + 4, text_anchor="end")
    ends = {"x1": f"{scale.x(min(seconds)):.1f}", "x2": f"{scale.x(max(seconds)):.1f}"}
    yield element("line", **ends, y1=y, y2=y, stroke="#bbbbbb")
    out = 0
    for side in reversed(figures.sides):
        x = scale.x(figures.seconds(query, side))
        if figures.timed_out(query, side):
            x, out = x + 11 * out, out + 1
        yield mark(side, x, y)


def rows(figures, scale):
    """The rows of all queries, of each database from the lowest best time to the greatest, and where they end."""
    y, found = TOP, []
    for name, part in figures.databases().items():
        text = f"{name} ({figures.all['rows'][name]:,} rows)"
        found.append(element("text", text, x=LEFT - 14, y=y + 4, text_anchor="end", font_weight="bold"))
        y += ROW + 2
        for it in sorted(part, key=figures.best):
            found += query_row(figures, scale, it, y)
            y += ROW
        y += HEADING - ROW
    return found, y - HEADING + ROW


def picture(figures):
    figures = Figures(figures)
    scale = Scale(figures.limit)
    drawn, bottom = rows(figures, scale)
    height = bottom + 14
    versions = ", ".join(f"{name} {version}" for name, version in figures.all["versions"].items())
    title = f"{len(figures.queries)} queries of three to six tables: the time of each, by logarithms"
    said = f"{versions}; {figures.all['machine']}"
    return document(WIDTH, height, title, said, [*legend(figures), *axis(scale, bottom), *drawn])
