#!/usr/bin/env python3
"""Times the stores of rows and of entries: what a load, an index, and a row or an entry that is read or kept take.

  python3 bench/stores.py [--rows N] [--runs N] [--program PATH] [--other PATH]

The proved program is the one that `rt run` left in crates/bouquet/out; another, where it is given, takes turns with it,
and its figures come first. Times are processor time, the least of the runs, and a figure is a difference to the run that
it stands on. No query has a row in its result.

  load      a table of three columns of numbers, in seconds, with the peak of the memory of the process in megabytes
  append    a second load, of a hundredth of the rows, with the peak
  index     CREATE INDEX on three columns whose words are in no order, with the peak
  row       ns a row: a scan looks at a row, and doesn't give it
  kept      ns a row: a nested loop keeps a row, and has no left row
  seek      ns a row: a row is scanned and given, and an index loop descends to a word in no order, which no entry has
  fetched   ns a row: the same with a word that one entry has, whose row is read, and the relation's filter fails
  entries   ns an entry: a scan by the index reads all entries and their rows
"""
import multiprocessing
import os
import random

from beside_sqlite import DATA, PROCESSOR, SEED, arguments, run, write_csv
from units import Measure, write_bouquet

PART = 100
PEAKS = ("load", "append", "index")
# How often a query is run in a process, so that it takes some seconds.
ASKED = {"row": 40, "kept": 10, "seek": 4, "fetched": 2, "entries": 2}


def file_of(rows, name):
    return f"stores-{rows}-{name}.csv"


def write_files(rows):
    """MANY has even words in no order in each column; those of ASK are even and those of MISS odd, in no order."""
    draw = random.Random(SEED)
    columns = [list(range(0, 2 * rows, 2)) for _ in range(3)]
    for column in columns:
        draw.shuffle(column)
    asked = columns[0][::4]
    draw.shuffle(asked)
    tables = {
        "MANY": zip(*columns),
        "MORE": zip(*(column[: rows // PART] for column in columns)),
        "ASK": ((key, i, i) for i, key in enumerate(asked)),
        "MISS": ((key + 1, i, i) for i, key in enumerate(asked)),
        "NONE": (),
    }
    for name, table in tables.items():
        write_csv(os.path.join(DATA, file_of(rows, name)), "K,G,V", (tuple(map(str, row)) for row in table))


def measures(rows):
    asked = rows // 4
    return [
        Measure("row", "SELECT MANY.K FROM MANY WHERE V < 0", "S0", rows, None),
        Measure("kept", "SELECT MANY.K FROM NONE, MANY WHERE MANY.K = NONE.K", "N(S0,S1)", rows, "row"),
        Measure("seek", "SELECT MISS.K FROM MISS, MANY WHERE MISS.K = MANY.K", "X0(S0,1)", asked, None),
        Measure("fetched", "SELECT ASK.K FROM ASK, MANY WHERE ASK.K = MANY.K AND MANY.V < 0", "X0(S0,1)", asked, None),
        Measure("entries", "SELECT MANY.K FROM MANY WHERE K >= 0 AND V < 0", "I0.0", rows, None),
    ]


def loaded(rows, *names):
    made = []
    for name in names:
        made.append(f"CREATE TABLE {name} (K INTEGER, G INTEGER, V INTEGER);\n")
        made.append(f"LOAD '{file_of(rows, name)}' INTO {name};\n")
    return "".join(made)


def steps(given):
    """The scripts whose times are compared, by name."""
    ground = loaded(given.rows, "MANY", "ASK", "MISS", "NONE")
    indexed = ground + "CREATE INDEX MANY_K ON MANY (K);\n"
    made = {
        "load": loaded(given.rows, "MANY"),
        "append": loaded(given.rows, "MANY") + f"LOAD '{file_of(given.rows, 'MORE')}' INTO MANY;\n",
        "index": loaded(given.rows, "MANY") + "".join(f"CREATE INDEX MANY_{it} ON MANY ({it});\n" for it in "KGV"),
    }
    for measure in measures(given.rows):
        write_bouquet(given.program, indexed, measure)
        opened = f"OPEN Q FROM 'units-{measure.name}.bq' AS {measure.query};\n"
        made[f"{measure.name}-0"] = indexed + opened
        made[measure.name] = indexed + opened + "RUN Q;\n" * ASKED[measure.name]
    return made


def figures_of(rows, least):
    """What each figure is by the least times of one program."""
    figures = {
        "load": least["load"],
        "append": least["append"] - least["load"],
        "index": least["index"] - least["load"],
    }
    each = {}
    for measure in measures(rows):
        each[measure.name] = (least[measure.name] - least[f"{measure.name}-0"]) / ASKED[measure.name]
        less = each[measure.on] if measure.on else 0
        figures[measure.name] = (each[measure.name] - less) * 1e9 / measure.units
    return figures


def main():
    given = arguments(__doc__, rows=4_000_000, other="")
    # In a process of its own, since the peak of a child has that of its parent in it.
    writer = multiprocessing.Process(target=write_files, args=(given.rows,))
    writer.start()
    writer.join()
    programs = [os.path.abspath(it) for it in (given.other, given.program) if it]
    least = [{} for _ in programs]
    peaks = [{} for _ in programs]
    for name, script in steps(given).items():
        for _ in range(given.runs):
            for number, program in enumerate(programs):
                seconds, peaks[number][name], _ = run([program], script, "stores", clock=PROCESSOR)
                least[number][name] = min(least[number].get(name, seconds), seconds)
    figures = [figures_of(given.rows, it) for it in least]
    for name in figures[0]:
        told = [f"{it[name]:.4g}" for it in figures]
        if name in PEAKS:
            told += [f"{it[name]:.0f} MB" for it in peaks]
        print(f"{name}: " + ", ".join(told), flush=True)


if __name__ == "__main__":
    main()
