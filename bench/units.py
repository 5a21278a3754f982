#!/usr/bin/env python3
"""Times the units of work of an execution: what a row that is looked at, a probe, a candidate, a given row take, in ns.

  python3 bench/units.py [--rows N] [--runs N] [--asked N] [--clock wall|cpu] [--program PATH]

The proved program is the one that `rt run` left in crates/bouquet/out. Each query is run by one plan alone, which stands in
a bouquet file with a budget that no work reaches. A run's time is a difference of medians: of a script that loads, opens the
file and runs it `--asked` times, and of one that does the same without running it, divided by how often it is run. No query
has a row in its result, so nothing is printed or put in order. A figure is a run's time, less that of the run that it stands
on, divided by how many of its units the run has.

  row        a scan looks at a row, and doesn't give it
  given      a scan gives a row to a nested loop that has kept none
  probe      the same row to a hash join, which looks it up among 1,000 keys and finds none
  candidate  a nested loop looks at a kept row whose key differs
  found      a hash join looks at a kept row whose key is equal, and another equality fails
  hashed     a hash join keeps a row, and a probe among all of them finds none
  joined     a hash join finds a row and gives it to a nested loop that has kept none
  entry      an index loop reads an entry and its row, and the relation's filter fails
  descent    an index loop descends for a row without entries
  merged     a merge join keeps a row, sorts it and passes it
  indexed    a scan by an index reads an entry and its row, and doesn't give it
"""
import collections
import json
import os
import statistics
import sys

from beside_sqlite import DATA, PROCESSOR, WALL, arguments, by_turns, run, write_csv

MOST_COST = 2**113
FEW = 1_000

Measure = collections.namedtuple("Measure", "name, query, plan, units, on")


def tables(rows):
    """The names of the tables, with their columns and rows: BIG has keys from 0 on, a word that says into which of FEW
    groups a row falls, and another that is never negative."""
    return {
        "BIG": ("K,G,V", [(i, i % FEW, i) for i in range(rows)]),
        "SMALL": ("K,G,V", [(-1 - i, i, i) for i in range(FEW)]),
        "MATE": ("K,G,V", [(i, i % FEW, -1 - i) for i in range(rows)]),
        "NONE": ("K,G,V", []),
    }


def measures(rows):
    pairs = FEW * FEW
    return [
        Measure("row", "SELECT BIG.K FROM BIG WHERE V < 0", "S0", rows, None),
        Measure("given", "SELECT BIG.K FROM BIG, NONE WHERE BIG.K = NONE.K", "N(S0,S1)", rows, "row"),
        Measure("probe", "SELECT BIG.K FROM BIG, SMALL WHERE BIG.K = SMALL.K", "H0(S0,S1)", rows, "given"),
        Measure("candidate", "SELECT A.K FROM SMALL A, SMALL B WHERE A.K = B.V", "N(S0,S1)", pairs, None),
        Measure("found", "SELECT A.K FROM SMALL A, MATE B WHERE A.G = B.G AND A.V = B.V", "H0(S0,S1)", rows, None),
        Measure("hashed", "SELECT BIG.K FROM BIG, MATE, NONE WHERE BIG.K = MATE.V AND MATE.G = NONE.G",
                "N(H0(S0,S1),S2)", rows, "given"),
        Measure("joined", "SELECT BIG.K FROM BIG, MATE, NONE WHERE BIG.K = MATE.K AND MATE.G = NONE.G",
                "N(H0(S0,S1),S2)", rows, "hashed"),
        Measure("entry", "SELECT A.K FROM SMALL A, MATE B WHERE A.G = B.G AND B.V >= 0", "X0(S0,1)", rows, None),
        Measure("descent", "SELECT BIG.K FROM BIG, MATE WHERE BIG.V = MATE.V", "X0(S0,1)", rows, "given"),
        Measure("merged", "SELECT BIG.K FROM BIG, SMALL WHERE BIG.K = SMALL.K", "M0(S0,S1)", rows, "row"),
        Measure("indexed", "SELECT MATE.K FROM MATE WHERE V < 0 AND G <> G", "I0.2", rows, None),
    ]


def statements(data):
    made = []
    for name in data:
        made.append(f"CREATE TABLE {name} (K INTEGER, G INTEGER, V INTEGER);\nLOAD 'units-{name}.csv' INTO {name};\n")
    made += [f"CREATE INDEX {name}_{column} ON {name} ({column});\n" for name, column in (("MATE", "G"), ("MATE", "V"))]
    return "".join(made)


def write_files(data):
    for name, (header, rows) in data.items():
        write_csv(os.path.join(DATA, f"units-{name}.csv"), header, (tuple(map(str, row)) for row in rows))


def write_bouquet(program, made, measure):
    """Leaves a bouquet file of the query whose only plan is the measure's."""
    path = os.path.join(DATA, f"units-{measure.name}.bq")
    if os.path.exists(path):
        os.remove(path)
    run([program], f"{made}COMPILE Q AS {measure.query};\nSAVE Q TO '{os.path.basename(path)}';\n", "units")
    with open(path) as file:
        value = json.load(file)
    value["contours"] = [{"cost": str(MOST_COST), "plans": [measure.plan]}]
    with open(path, "w") as file:
        json.dump(value, file)


def script(made, measure, asked):
    opened = f"OPEN Q FROM 'units-{measure.name}.bq' AS {measure.query};\n"
    return made + opened + "RUN Q;\n" * asked


def main():
    words = arguments(__doc__, asked=10, clock=WALL)
    if words.clock not in (WALL, PROCESSOR):
        sys.exit("units: --clock is wall or cpu")
    data = tables(words.rows)
    write_files(data)
    made = statements(data)
    seconds = {}
    for measure in measures(words.rows):
        write_bouquet(words.program, made, measure)
        sides = {f"units-{n}": ([words.program], script(made, measure, n)) for n in (0, words.asked)}
        medians = [statistics.median(it[0] for it in times) for times in by_turns(sides, words.runs, words.clock).values()]
        seconds[measure.name] = (medians[1] - medians[0]) / words.asked
        with open(os.path.join(DATA, f"units-{words.asked}.out")) as file:
            report = [line for line in file if line.startswith("-- rows=")][-1].strip()
        less = seconds[measure.on] if measure.on else 0
        print(f"{measure.name}: {(seconds[measure.name] - less) * 1e9 / measure.units:.1f} ns, {report}")


if __name__ == "__main__":
    main()
