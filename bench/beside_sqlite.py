"""What the benchmarks beside SQLite share: whole processes over the same file, by turns, and whether their rows agree."""
import argparse
import itertools
import os
import statistics
import subprocess
import sys
import time

HERE = os.path.dirname(os.path.abspath(__file__))
DATA = os.path.join(HERE, "data")
PROGRAM = os.path.join(HERE, "..", "crates", "bouquet", "out", "bouquet")
SQLITE = ["sqlite3", ":memory:"]
SEED = 20240527
WALL, PROCESSOR = "wall", "cpu"


def arguments(text, rows=1_000_000, **more):
    """The words of a benchmark: how many rows, how many runs, the absolute path of the program, and `more` by their
    names and defaults."""
    words = argparse.ArgumentParser(description=text, formatter_class=argparse.RawDescriptionHelpFormatter)
    words.add_argument("--rows", type=int, default=rows)
    words.add_argument("--runs", type=int, default=5)
    words.add_argument("--program", default=PROGRAM)
    for name, default in more.items():
        words.add_argument(f"--{name}", type=type(default), default=default)
    given = words.parse_args()
    given.program = os.path.abspath(given.program)
    os.makedirs(DATA, exist_ok=True)
    return given


def write_csv(path, header, rows):
    """Writes a file of rows, unless it is there."""
    if os.path.exists(path):
        return
    with open(path + ".part", "w", newline="") as file:
        file.write(header + "\n")
        for row in rows:
            file.write(",".join(row) + "\n")
    os.rename(path + ".part", path)


def run(words, script, name, wanted=0, clock=WALL):
    """Runs a process in DATA over a script, with its output in a file, until it ends with this status.

    Returns its seconds by this clock, its peak memory in megabytes, and the path of its output.
    """
    paths = [os.path.join(DATA, name + suffix) for suffix in (".sql", ".out")]
    with open(paths[0], "w") as file:
        file.write(script)
    with open(paths[0], "rb") as given, open(paths[1], "wb") as got:
        start = time.perf_counter()
        child = subprocess.Popen(words, cwd=DATA, stdin=given, stdout=got)
        _, status, usage = os.wait4(child.pid, 0)
        seconds = time.perf_counter() - start if clock == WALL else usage.ru_utime + usage.ru_stime
    child.returncode = os.waitstatus_to_exitcode(status)
    if child.returncode != wanted:
        sys.exit(f"{words[0]} ended with status {child.returncode}")
    return seconds, usage.ru_maxrss * 1024 / 1e6, paths[1]


def by_turns(sides, runs, clock=WALL):
    """Runs each side's words over its script, all by turns, and prints the seconds of each run. Returns what `run`
    returned, a list for each side."""
    measured = {side: [] for side in sides}
    for _ in range(runs):
        for side, (words, text) in sides.items():
            measured[side].append(run(words, text, side, clock=clock))
    for side, times in measured.items():
        print(f"  {side}: " + " ".join(f"{seconds:.3f}" for seconds, _, _ in times))
    return measured


def beside(program, script, sqlite_script, runs):
    """Runs both by turns. Returns the medians of their seconds, the program's peak memory, and the paths of the outputs."""
    measured = by_turns({"bouquet": ([program], script), "sqlite3": (SQLITE, sqlite_script)}, runs)
    seconds = [statistics.median(it[0] for it in times) for times in measured.values()]
    memory = max(it[1] for it in measured["bouquet"])
    return seconds, memory, [times[-1][2] for times in measured.values()]


def rows_of(path, header):
    """The rows of an output: without report lines, header, line ends, and the quotes that SQLite puts around some texts."""
    with open(path, "rb") as file:
        for line in file:
            line = line.rstrip(b"\r\n").replace(b'"', b"")
            if not line.startswith(b"--") and line != header.encode():
                yield line


def first_difference(outputs, header, rows):
    """Where two outputs differ, or where they lack rows; None where all rows are there and the same. Where `rows` is
    None any number of them is right."""
    count = 0
    sides = (rows_of(path, header) for path in outputs)
    for count, (one, other) in enumerate(itertools.zip_longest(*sides), 1):
        if one != other:
            return f"row {count} differs: {one} and {other}"
    return None if rows in (None, count) else f"{count} rows are printed, and {rows} were loaded"


def report(name, seconds, memory, times, most):
    """Prints how many times as fast as SQLite the program was, and whether that and its memory are as wanted."""
    ratio = seconds[1] / seconds[0]
    met = ratio >= times and memory <= most
    print(
        f"{name}: bouquet {seconds[0]:.3f} s, sqlite3 {seconds[1]:.3f} s: {ratio:.2f} times as fast, wanted {times}; "
        f"peak {memory:.0f} MB of {most:.0f}: {'met' if met else 'not met'}"
    )
