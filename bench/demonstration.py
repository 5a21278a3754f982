#!/usr/bin/env python3
"""Times `--demo N` beside the same script over the same files on the disk.

  python3 bench/demonstration.py [--number N] [--runs N] [--program PATH]

The proved program is the one that `./build` left in crates/bouquet/out. Both are whole processes, by turns in the same
run; medians are compared. Wanted: the demonstration takes no longer, and both print the same; the status is 1 where
they don't.
"""
import argparse
import os
import statistics
import subprocess
import sys
import tempfile
import time

from beside_sqlite import PROGRAM

SCRIPT = """\
CREATE TABLE C (K INTEGER NOT NULL, G INTEGER);
CREATE TABLE O (K INTEGER NOT NULL, C INTEGER);
CREATE TABLE L (O INTEGER, Q INTEGER);
LOAD 'c.csv' INTO C;
LOAD 'o.csv' INTO O;
LOAD 'l.csv' INTO L;
CREATE INDEX CK ON C (K);
CREATE INDEX OK ON O (K);
CREATE INDEX OC ON O (C);
CREATE INDEX LO ON L (O);
SELECT C.K, O.K, L.Q FROM C, O, L WHERE C.K = O.C AND O.K = L.O AND C.K = 13 AND L.Q = 13;
"""


def files_of(number):
    """The header and the entries of each file."""
    customers, orders = 50 * number, 200 * number
    return {
        "c.csv": ("K,G", ((it, it % 10) for it in range(customers))),
        "o.csv": ("K,C", ((it, it % customers) for it in range(orders))),
        "l.csv": ("O,Q", ((it % orders, it % 50) for it in range(2 * orders))),
    }


def write_files(folder, number):
    for name, (header, entries) in files_of(number).items():
        with open(os.path.join(folder, name), "w") as file:
            file.write(header + "\n")
            file.writelines(f"{first},{second}\n" for first, second in entries)


def timed(words, folder, script):
    """Runs the program and returns its seconds and its output."""
    start = time.perf_counter()
    ran = subprocess.run(words, cwd=folder, input=script, stdout=subprocess.PIPE, text=True, check=True)
    return time.perf_counter() - start, ran.stdout


def main():
    parser = argparse.ArgumentParser(description=__doc__, formatter_class=argparse.RawDescriptionHelpFormatter)
    parser.add_argument("--number", type=int, default=2000)
    parser.add_argument("--runs", type=int, default=7)
    parser.add_argument("--program", default=PROGRAM)
    given = parser.parse_args()
    program = os.path.abspath(given.program)
    with tempfile.TemporaryDirectory() as folder:
        write_files(folder, given.number)
        sides = {
            "demonstration": ([program, "--demo", str(given.number)], ""),
            "files": ([program], SCRIPT),
        }
        seconds = {name: [] for name in sides}
        outputs = {}
        for _ in range(given.runs):
            for name, (words, script) in sides.items():
                took, outputs[name] = timed(words, folder, script)
                seconds[name].append(took)
    if outputs["demonstration"] != outputs["files"]:
        sys.exit("they print different texts")
    medians = {name: statistics.median(it) for name, it in seconds.items()}
    print(f"demonstration {given.number}: {medians['demonstration']:.3f} s, "
          f"from files {medians['files']:.3f} s, median of {given.runs}")


if __name__ == "__main__":
    main()
