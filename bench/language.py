#!/usr/bin/env python3
"""Times the language through the program: reading a script into tokens, and into statements.

  python3 bench/language.py [--runs N] [--program PATH]

The proved program is the one that `rt run` left in crates/bouquet/out. Each script ends in what is refused, so nothing
of it is carried out. Beside the program `LC_ALL=C wc -w` reads the same bytes in the same run, by turns; both are whole
processes, and medians are compared.

  tokens      16 MiB of statements and a lone `"`: all is read into tokens, then refused; wanted: at most 4 times wc
  statements  16 MiB of statements and a piece that is none: all is parsed, then refused; wanted: at most 12 times wc
  conditions  a query whose condition has 200,000 operands: at most 5 times as long as one of 50,000

The status is 1 where a script is refused otherwise than it has to be.
"""
import argparse
import itertools
import os
import statistics
import subprocess
import sys
import time

from beside_sqlite import DATA, PROGRAM

SCRIPT_BYTES = 16 * 1024 * 1024
FEW, MANY = 50_000, 200_000
TIMES_FEW = 5
REFUSED = 1

# one of each form, as a script has them
STATEMENTS = """\
CREATE TABLE CUSTOMER (C_CUSTKEY INTEGER NOT NULL, C_NAME VARCHAR(25) NOT NULL, C_NATION INT, C_COMMENT VARCHAR(117));
CREATE TABLE ORDERS (O_ORDERKEY INTEGER NOT NULL, O_CUSTKEY INTEGER NOT NULL, O_STATUS VARCHAR(1), O_PRICE INTEGER);
CREATE INDEX CUSTOMER_KEY ON CUSTOMER (C_CUSTKEY);
LOAD 'data/customer.csv' INTO CUSTOMER;
-- all rows of one table
SELECT * FROM CUSTOMER;
select c.c_name, o.o_price from customer c, orders as o
  where c.c_custkey = o.o_custkey and o.o_price >= 100000 and not c.c_nation is null;
SELECT O_ORDERKEY FROM ORDERS WHERE O_STATUS IN ('O', 'F', 'it''s') OR O_PRICE BETWEEN -5 AND +5000
  AND (O_CUSTKEY <> 7 OR O_STATUS IS NOT NULL) OR NOT (O_PRICE < 10 AND O_CUSTKEY NOT IN (1, 2, 3));
COMPILE RECENT LEVELS 20 THRESHOLD 30 AS SELECT C.C_NAME FROM CUSTOMER C, ORDERS O WHERE C.C_CUSTKEY = O.O_CUSTKEY;
RUN RECENT;
EXPLAIN RECENT;
SAVE RECENT TO 'recent.json';
OPEN AGAIN FROM 'recent.json' AS SELECT C.C_NAME FROM CUSTOMER C, ORDERS O WHERE C.C_CUSTKEY = O.O_CUSTKEY;
AUDIT RECENT AT 19, 3;
"""
NO_TOKEN = '"'
NO_STATEMENT = "SELECT FROM"

# each script of 16 MiB: its end, and how many times longer than wc it may take
SCRIPTS = {"tokens": (NO_TOKEN, 4), "statements": (NO_STATEMENT, 12)}


def statements():
    """The text of each statement, with the comment before it, one after another."""
    return [it + ";" for it in STATEMENTS.split(";")[:-1]]


def script_of(end):
    """The parts of a script of SCRIPT_BYTES: statements in turn, white space where no more fits, and the end."""
    room = SCRIPT_BYTES - len(end)
    for statement in itertools.cycle(statements()):
        if len(statement) > room:
            break
        yield statement
        room -= len(statement)
    yield " " * room
    yield end


def separated(separator, parts):
    for number, part in enumerate(parts):
        yield separator + part if number else part


def disjunction_of(operands):
    """A chain of comparisons of two operands each."""
    return separated(" OR ", (f"A = {it}" for it in range(operands // 2)))


def conjunction_of(operands):
    """A chain of groups, each of two comparisons."""
    return separated(" AND ", (f"(A <> {it} OR B < {it})" for it in range(operands // 4)))


def list_of(operands):
    """One IN, whose first operand is a column."""
    return itertools.chain(["A IN ("], separated(", ", map(str, range(operands - 1))), [")"])


def query_of(condition):
    return itertools.chain(["SELECT * FROM T WHERE "], condition, [";\n", NO_STATEMENT])


# each condition of a given number of operands
CONDITIONS = {"chain of OR": disjunction_of, "chain of AND": conjunction_of, "IN": list_of}


def write(name, parts):
    """Writes a script, and returns its path and the line that it has to be refused with.

    Part by part: a child's peak memory is never less than this process's was when it began.
    """
    path = os.path.join(DATA, f"{name.replace(' ', '-')}.sql")
    place = length = 0
    with open(path, "w") as file:
        for part in parts:
            place = length
            length += file.write(part)
    fault = "E01 byte" if part == NO_TOKEN else "E02 syntax"
    return path, f"error {fault} {place}\n".encode()


def run(words, script):
    """Runs a process and returns its status, its output, its seconds and its peak memory in megabytes."""
    with open(script, "rb") as given:
        start = time.perf_counter()
        child = subprocess.Popen(words, stdin=given, stdout=subprocess.PIPE, env={**os.environ, "LC_ALL": "C"})
        output = child.stdout.read()
        _, status, usage = os.wait4(child.pid, 0)
        seconds = time.perf_counter() - start
    child.stdout.close()
    child.returncode = os.waitstatus_to_exitcode(status)
    return child.returncode, output, seconds, usage.ru_maxrss * 1024 / 1e6


def read(program, script):
    """Runs the program over a script, which it has to refuse as it should, and returns its seconds and megabytes."""
    path, refusal = script
    status, output, seconds, megabytes = run([program], path)
    if (status, output) != (REFUSED, refusal):
        sys.exit(f"{path}: status {status} and {output[:200]}, where {REFUSED} and {refusal} were expected")
    return seconds, megabytes


def count_words(script):
    """Runs wc over a script and returns its seconds and megabytes."""
    status, _, seconds, megabytes = run(["wc", "-w"], script[0])
    if status != 0:
        sys.exit(f"wc ended with status {status}")
    return seconds, megabytes


def compare(name, sides, runs, times):
    """Measures two sides by turns, and prints their medians and how many times longer the second one takes."""
    measured = {side: [] for side in sides}
    for _ in range(runs):
        for side, measure in sides.items():
            measured[side].append(measure())
    medians = {side: statistics.median(it[0] for it in measured[side]) for side in sides}
    for side in sides:
        spread = " ".join(f"{it[0]:.3f}" for it in measured[side])
        memory = max(it[1] for it in measured[side])
        print(f"{name}, {side}: median {medians[side]:.3f} s of {spread}, peak {memory:.0f} MB")
    base, other = medians.values()
    print(f"{name}: {other / base:.2f} times, wanted at most {times}: {'met' if other <= times * base else 'not met'}")


def main():
    words = argparse.ArgumentParser(description=__doc__, formatter_class=argparse.RawDescriptionHelpFormatter)
    words.add_argument("--runs", type=int, default=5)
    words.add_argument("--program", default=PROGRAM)
    given = words.parse_args()
    program = os.path.abspath(given.program)

    os.makedirs(DATA, exist_ok=True)
    for name, (end, times) in SCRIPTS.items():
        script = write(name, script_of(end))
        sides = {"wc": lambda: count_words(script), "bouquet": lambda: read(program, script)}
        compare(name, sides, given.runs, times)
    for name, condition in CONDITIONS.items():
        few, many = (write(f"{name} {operands}", query_of(condition(operands))) for operands in (FEW, MANY))
        sides = {f"{FEW:,} operands": lambda: read(program, few), f"{MANY:,}": lambda: read(program, many)}
        compare(name, sides, given.runs, TIMES_FEW)


if __name__ == "__main__":
    main()
