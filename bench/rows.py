#!/usr/bin/env python3
"""Times one table and three joins beside SQLite, over ten thousand to four million rows, and draws time against rows.

  python3 bench/rows.py [--runs N] [--most N] [--program PATH] [--json FILE] [--svg FILE]
  python3 bench/rows.py --from FILE [--svg FILE]

The proved program is the one that `./build` left in crates/bouquet/out; sqlite3 is Debian's (apt-get install sqlite3).
Both are whole processes in memory over the same files and with the same indexes, by turns. SQLite has no statistics,
begins with a saved database, and is asked long queries less often. A query's time is the difference of a script that
asks it often and one that asks it once, a query. Each time is of the processor, the least of the runs. The status is 1
where both sides print other numbers of rows for a query.

    load     SALES (KEY, PERSON, AMOUNT, NOTE) from its file, with indexes on KEY and PERSON
    look-up  a row by its KEY
    scan     a thousandth of the rows, by AMOUNT, which has no index
    few      the sales of ten persons: PERSONS has a row for each hundred of SALES
    part     a thousandth of the sales, by AMOUNT, each with its person
    three    REGIONS, their persons and their sales: those of one region of a thousand
"""
import argparse
import json
import math
import os
import platform
import random
import sys

from beside_sqlite import DATA, PROCESSOR, PROGRAM, SEED, SQLITE, run, write_csv
from svg import document, element

SIZES = (10_000, 100_000, 1_000_000, 4_000_000)
SALES_OF_A_PERSON, REGIONS, MOST = 100, 1000, 1_000_000
SIDES = {"bouquet": "#c2410c", "sqlite3": "#1d4ed8"}
TABLES = {
    "SALES": ("KEY INTEGER, PERSON INTEGER, AMOUNT INTEGER, NOTE {}", ("KEY", "PERSON")),
    "PERSONS": ("ID INTEGER, REGION INTEGER, RANK INTEGER", ("ID", "REGION")),
    "REGIONS": ("CODE INTEGER, SIZE INTEGER", ("CODE",)),
}
TASKS = {
    "load": None,
    "look-up": ("SELECT * FROM SALES WHERE KEY = {key}", 100_000, 100_000),
    "scan": ("SELECT KEY, AMOUNT FROM SALES WHERE AMOUNT < {part}", 500, 20),
    "few": ("SELECT KEY, RANK FROM PERSONS, SALES WHERE ID = PERSON AND RANK < 10", 5000, 200),
    "part": ("SELECT KEY, RANK FROM PERSONS, SALES WHERE ID = PERSON AND AMOUNT < {part}", 100, 3),
    "three": ("SELECT KEY, SIZE FROM REGIONS, PERSONS, SALES WHERE CODE = REGION AND ID = PERSON AND SIZE = 7", 5000, 200),
}


def rows_of(table, size):
    draw = random.Random(f"{SEED} {table} {size}")
    persons = size // SALES_OF_A_PERSON
    if table == "SALES":
        keys = list(range(size))
        draw.shuffle(keys)
        return ((str(key), str(draw.randrange(persons)), str(draw.randrange(MOST)), f"note {draw.randrange(1000)}") for key in keys)
    if table == "PERSONS":
        return ((str(number), str(draw.randrange(REGIONS)), str(number)) for number in range(persons))
    return ((str(number), str(number)) for number in range(REGIONS))


def file_of(table, size):
    """The name of a table's file, which is made if it isn't there."""
    name = f"rows-{table.lower()}-{size}.csv"
    header = ",".join(it.split()[0] for it in TABLES[table][0].split(", "))
    write_csv(os.path.join(DATA, name), header, rows_of(table, size))
    return name


def loads(side, size):
    """The script that loads and indexes all tables."""
    text = [".mode csv\n"] if side == "sqlite3" else []
    for table, (columns, indexed) in TABLES.items():
        name = file_of(table, size)
        text.append(f"CREATE TABLE {table} ({columns.format('VARCHAR(12)' if side == 'bouquet' else 'TEXT')});\n")
        text.append(f"LOAD '{name}' INTO {table};\n" if side == "bouquet" else f".import --csv --skip 1 {name} {table}\n")
        text += [f"CREATE INDEX {table}_{it} ON {table} ({it});\n" for it in indexed]
    return "".join(text)


def asked(query, size, times):
    draw = random.Random(SEED)
    keys = ({"key": draw.randrange(size), "part": MOST // 1000} for _ in range(times))
    return "".join(f"{query.format(**it)};\n" for it in keys)


def count_of(output):
    """How many rows were printed: the lines but reports and headers."""
    with open(output, "rb") as file:
        return sum(line[:1].isdigit() for line in file)


class Timed:
    """The least seconds of scripts of both sides, by turns."""

    def __init__(self, program, runs):
        self.words = {"bouquet": [program], "sqlite3": SQLITE}
        self.runs = runs

    def least(self, scripts, is_same=True):
        seconds, counts = {side: [] for side in scripts}, {}
        for _ in range(self.runs):
            for side, text in scripts.items():
                took, _, output = run(self.words[side], text, f"rows-{side}", clock=PROCESSOR)
                seconds[side].append(took)
                counts[side] = count_of(output)
        if is_same and len(set(counts.values())) > 1:
            sys.exit(f"the sides print different numbers of rows: {counts}")
        return {side: min(it) for side, it in seconds.items()}

    def task(self, name, size):
        begun = {side: loads(side, size) for side in SIDES}
        if TASKS[name] is None:
            return self.least(begun)
        saved = f"rows-{size}.db"
        if not os.path.exists(os.path.join(DATA, saved)):
            run(SQLITE, f"{begun['sqlite3']}.save {saved}\n", "rows-saved")
        begun["sqlite3"] = f".mode csv\n.restore {saved}\n"
        query, ours, theirs = TASKS[name]
        more = {"bouquet": ours, "sqlite3": theirs}
        once, often = (
            self.least({side: begun[side] + asked(query, size, 1 + it * more[side]) for side in SIDES}, is_same=not it)
            for it in (0, 1)
        )
        return {side: max(1e-6, (often[side] - once[side]) / more[side]) for side in SIDES}


# ---- the picture: a panel for each task, both axes by logarithms

WIDTH, PANEL, HIGH, LEFT, TOP, ACROSS = 960, 310, 190, 62, 104, 3


class Panel:
    """Where a task's times stand."""

    def __init__(self, number, figures, task):
        line, column = divmod(number, ACROSS)
        self.x0, self.y0 = LEFT + PANEL * column, TOP + (HIGH + 52) * line
        self.sizes = [math.log10(it) for it in figures["sizes"]]
        times = [math.log10(it) for side in SIDES for it in figures["seconds"][task][side]]
        self.low, self.high = math.floor(min(times)), math.ceil(max(times))
        self.wide = PANEL - 90

    def place(self, size, seconds):
        x = self.x0 + self.wide * (math.log10(size) - self.sizes[0]) / (self.sizes[-1] - self.sizes[0])
        y = self.y0 + HIGH * (self.high - math.log10(seconds)) / (self.high - self.low)
        return f"{x:.1f}", f"{y:.1f}"


def in_words(seconds):
    return next(f"{seconds / unit:g} {name}" for unit, name in ((1, "s"), (1e-3, "ms"), (1e-6, "µs")) if seconds >= unit * 0.999)


def panel(number, figures, task):
    at = Panel(number, figures, task)
    yield element("text", task, x=at.x0, y=at.y0 - 10, font_weight="bold")
    for power in range(at.low, at.high + 1):
        x, y = at.place(figures["sizes"][0], 10**power)
        yield element("line", x1=x, y1=y, x2=at.x0 + at.wide, y2=y, stroke="#e4e4e4")
        yield element("text", in_words(10**power), x=at.x0 - 8, y=float(y) + 4, text_anchor="end", fill="#666666")
    for size in figures["sizes"]:
        x, y = at.place(size, 10**at.low)
        text = f"{size // 1000:,} k" if size < 10**6 else f"{size // 10**6} M"
        yield element("text", text, x=x, y=float(y) + 18, text_anchor="middle", fill="#666666")
    for side, colour in SIDES.items():
        points = [at.place(*it) for it in zip(figures["sizes"], figures["seconds"][task][side])]
        yield element("polyline", points=" ".join(",".join(it) for it in points), fill="none", stroke=colour, stroke_width=1.6)
        yield from (element("circle", cx=x, cy=y, r=3.5, fill=colour) for x, y in points)


def picture(figures):
    drawn = []
    for number, (side, colour) in enumerate(SIDES.items()):
        drawn.append(element("circle", cx=LEFT + 140 * number, cy=64, r=4, fill=colour))
        drawn.append(element("text", side, x=LEFT + 10 + 140 * number, y=68))
    for number, task in enumerate(TASKS):
        drawn += panel(number, figures, task)
    height = TOP + (HIGH + 52) * math.ceil(len(TASKS) / ACROSS)
    title = "Time against rows: loading, a look-up, a scan and three joins, by logarithms"
    return document(WIDTH, height, title, figures["machine"], drawn)


def measured(given):
    sizes = [it for it in SIZES if it <= given.most]
    timed, seconds = Timed(os.path.abspath(given.program), given.runs), {}
    for name in TASKS:
        seconds[name] = {side: [] for side in SIDES}
        for size in sizes:
            for side, took in timed.task(name, size).items():
                seconds[name][side].append(float(f"{took:.3g}"))
            print(f"{name}, {size:,} rows: " + ", ".join(f"{side} {seconds[name][side][-1]:g} s" for side in SIDES), flush=True)
    return {"machine": f"{os.cpu_count()} processors, {platform.machine()}", "sizes": sizes, "seconds": seconds}


def main():
    words = argparse.ArgumentParser(description=__doc__, formatter_class=argparse.RawDescriptionHelpFormatter)
    words.add_argument("--runs", type=int, default=3)
    words.add_argument("--most", type=int, default=SIZES[-1])
    words.add_argument("--program", default=PROGRAM)
    words.add_argument("--json")
    words.add_argument("--svg")
    words.add_argument("--from", dest="figures")
    given = words.parse_args()
    if given.figures:
        with open(given.figures) as file:
            figures = json.load(file)
    else:
        os.makedirs(DATA, exist_ok=True)
        figures = measured(given)
    if given.json:
        with open(given.json, "w") as file:
            json.dump(figures, file, indent=1)
            file.write("\n")
    if given.svg:
        with open(given.svg, "w") as file:
            file.write(picture(figures))


if __name__ == "__main__":
    main()
