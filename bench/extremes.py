#!/usr/bin/env python3
"""Runs the program over extreme input: what it answers, how it ends, and what that takes.

  python3 bench/extremes.py [NAME ..] [--program PATH] [--part N] [--rules] [--list]

The proved program is the one that `rt run` left in crates/bouquet/out. Without a name all extremes are run, one after
another. Inputs are made in a temporary folder, each removed before the next is made, with what the program wrote.
Each trial has the answer and the status that are due, and a sentence of a document in docs/ that says so;
`--rules` prints the sentences. Seconds are those of the processor. Where a trial has a size it is run with half of it
too: `times half` is how many times longer the whole takes. The peak memory is never less than this script's own, some
20 MB; `input MB` are those of the script and the files, `printed MB` those of the answer. `--part N` makes what has a
size N times smaller; figures are right from a few thousand bytes on.

A run may take 8 GB of address space, 6 GB of memory and 600 seconds. It is a finding where an answer, a status or what
is left in the folder differs; where it is out of memory; where standard error has anything but the one line that is due
from status 2 on; where a run of more than 0.1 s takes more than 2.6 times as long as half of it; and where the memory
is more than 64 MB and 8 times the input. The status is 1 where there is one. Some trials need root and are left out
without it: that of a full disk, which is a small tmpfs, and that of runs with the same number of process, each of which
has a namespace of processes to itself.
"""
import argparse
import contextlib
import dataclasses
import glob
import itertools
import os
import re
import resource
import shutil
import signal
import socket
import subprocess
import sys
import tempfile
import time
from typing import Any, Callable

HERE = os.path.dirname(os.path.abspath(__file__))
PROGRAM = os.path.join(HERE, "..", "crates", "bouquet", "out", "bouquet")
DOCUMENTS = sorted(glob.glob(os.path.join(HERE, "..", "docs", "*.md")))

SCRIPT_BYTES = 16 * 1024 * 1024
FILE_BYTES = 256 * 1024 * 1024
ROWS = 4_194_304
TEXTS = 16_777_216
OPERANDS = 200_000
NAME_BYTES = 128
DEPTH = 32
COLUMNS, CHARACTERS = 256, 65_535
KILLED, KILLED_AT = 26, 10_000
FILES = 1000
CONTOURS, PLANS = 128, 4096
MAX_WORK = 1_000_000
RUNS, RUN_OPERANDS = 4000, 40_000
UNIT_OPERANDS, UNIT_ROWS = 300_001, 1000
JOBS, JOBS_PART = 64, 16
SIDE = 3000
WORD = 2**64 - 1
# the hash of a key in a join; and a hash of texts by fixed keys, of which the first is the one that the kit's maps have if
# they are given none
CHAIN_FACTOR = 11400714819323198485
HASH_KEYS, HASH_FACTOR = (0x243F6A8885A308D3, 0x13198A2E03707344), 0x9E3779B97F4A7C15
ALPHABET = "ABCDEFGHIJKLMNOPQRSTUVWXYZabcdefghijklmnopqrstuvwxyz0123456789+-"
DONE, REFUSED, BAD_WORDS, READ_FAULT, WRITE_FAULT, NO_MEMORY = range(6)

ADDRESS_SPACE, MOST_MEMORY, MOST_SECONDS = 8 * 2**30, 6 * 2**30, 600
PIECE = 1 << 20
NOBODY = 65534
# runs a program that isn't the first process of a new namespace, since the first one can't be killed so
NAMESPACE = ("unshare", "--pid", "--fork", "sh", "-c", '"$0" "$@"; exit $?')
LINEAR, FROM_SECONDS = 2.6, 0.1
FAR_ABOVE, FROM_MEMORY = 8, 64_000_000

RULES = {
    "syntax": "the piece whose first token begins at byte P is the first that is no statement",
    "name": "a word has more than 128 bytes",
    "number": "a number is above its limit, however many digits it has",
    "text": "a text has no closing quote, whatever its bytes",
    "empty": "An empty piece means nothing.",
    "comment": "A comment begins with `--` and ends before the next line feed or at the end of the script.",
    "rows": "It is printed where the condition of WHERE is true on it, and not where it is false or, by NULL, unknown",
    "kinds": "predicate P of WHERE compares a number with a text",
    "conjunct": "conjunct C of WHERE is neither on columns of one table nor an equality of columns of two",
    "axes": "how many axes the grid would have, more than 6",
    "relations": "how many tables are in FROM, more than 6",
    "projection": "how many columns are named, more than 256",
    "columns": "how many columns are written",
    "depth": "Parentheses round conditions nest at most 32 deep.",
    "header": "field F of the header is the first that isn't its column's name, is missing or too many",
    "entries": "1 for a file without entries: one of no bytes, of blank lines, or of a byte order mark alone",
    "blank": "Blank lines are no entries, and an entry may have any number of fields.",
    "fields": "entry E has FOUND fields, and the table has WANTED columns",
    "quote": "A quote that never closes runs to the end of the file.",
    "long": "it is a text of more characters than its column allows",
    "zeros": "It may have any number of leading zeros, and no white space.",
    "range": "it is an integer that no INTEGER is",
    "totals": "The last four are numbers as they would be after the LOAD, and are looked at when all entries are good.",
    "loaded": "and the number of rows loaded",
    "file": "It has at most 268435456 bytes.",
    "order": "Rows are in ascending order, the leftmost column first: NULL, then numbers by value",
    "work": "a query whose work is past N is refused with `error E16 work N`",
    "product": "is multiplied from left to right, as far as it first passes the limit",
    "table": "there is no table NAME",
    "compile": "COMPILE and OPEN print how many points the grid has, how many contours the bouquet has",
    "json": "The file is JSON: path `json`.",
    "object": "It is an object, and `bouquet` is an unsigned number: path `bouquet`.",
    "open": "COMPILE and OPEN print how many points the grid has, how many contours the bouquet has",
    "plans": "The path leads to the first value that isn't there or doesn't fit.",
    "last": "the last plan is executed once more without a budget, and the contour is 0.",
    "upper": "Names are compared in upper case, and kept and printed so.",
    "regular": "A directory, a pipe, a device or whatever else is no regular file is a failure of the folder.",
    "read": "standard input, or a file at a read, failed",
    "absent": "A file that isn't there is `E09`. A LOAD or an OPEN of the empty name is `E09` too.",
    "write": "standard output, or a file at a SAVE, failed",
    "beside": "that a write which fails leaves the old file",
    "killed": "A run that is killed leaves the old file whole and at most one such file",
    "printed": "A printed row costs 1 unit, however long it is.",
    "replaced": "SAVE replaces only a file that is empty or begins with `{\"bouquet\":`.",
    "done": "every statement was carried out",
    "turn": "Behind them the jobs take turns round by round, in that order.",
    "skip": "Plan PLAN of contour K is skipped if it covers no point of the contour's frontier at or above Q.",
    "equal": "Equal rows are printed as often as they were found.",
    "script": "16777217, for a script of more than 16777216 bytes",
    "most": "It has at most 16777216 bytes.",
    "words": "If the arguments are invalid, nothing is read, the status is 2, and this is printed:",
}


@dataclasses.dataclass
class Trial:
    """One run: its name, its script, the answer that is due (both in parts), and the rule that says so. As many runs as
    `killed` says are killed before it. The words of `under` run the program, if there are any."""

    name: str
    script: Any
    answer: Any
    rule: str
    status: int = DONE
    files: dict = dataclasses.field(default_factory=dict)
    words: tuple = ()
    sized: bool = False
    make: Callable = lambda folder: None
    left: Callable = lambda folder: None
    output: str = "file"
    source: str = "file"
    limit: Callable = lambda: None
    user: Any = None
    killed: int = 0
    under: tuple = ()


def parts_of(content):
    """A text, bytes, or any number of them, as bytes."""
    for part in [content] if isinstance(content, (str, bytes)) else content:
        yield part.encode() if isinstance(part, str) else part


def repeated(text, count):
    """A text so many times, in pieces."""
    many = max(1, PIECE // len(text))
    for _ in range(count // many):
        yield text * many
    yield text * (count % many)


def separated(separator, parts):
    for number, part in enumerate(parts):
        yield separator + part if number else part


def joined(*contents):
    """Several contents one after another, in pieces of some size."""
    held, size = [], 0
    for part in itertools.chain.from_iterable(parts_of(it) for it in contents):
        held.append(part)
        size += len(part)
        if size >= PIECE:
            yield b"".join(held)
            held, size = [], 0
    yield b"".join(held)


def table(kind="INTEGER", file="t.csv", name="T"):
    """A table of one column, loaded."""
    return f"CREATE TABLE {name} (A {kind});\nLOAD '{file}' INTO {name};\n"


def work_of(rows, given, columns=1):
    """What a scan works: 1, 8 for each page of 1,024 words, 1 for each row, and 1 for each that is given."""
    return 1 + 8 * -(-rows // (1024 // columns)) + rows + given


def report(rows, given, columns=1):
    return f"-- rows={given} work={work_of(rows, given, columns)} runs=1 contour=1 plan=S0\n"


# Scripts.


def script_bytes(part):
    count = SCRIPT_BYTES // part
    yield Trial("( alone", repeated("(", count), "error E02 syntax 0\n", "syntax", REFUSED, sized=True)
    start = "SELECT * FROM T WHERE "
    deep = joined(start, repeated("(", count - len(start)))
    yield Trial("( in a condition", deep, "error E02 syntax 0\n", "depth", REFUSED, sized=True)
    deep = joined(start, repeated("NOT (", (count - len(start)) // 5))
    yield Trial("NOT ( in a condition", deep, "error E02 syntax 0\n", "depth", REFUSED, sized=True)
    yield Trial("one name", repeated("a", count), "error E01 name 0\n", "name", REFUSED, sized=True)
    yield Trial("nines", repeated("9", count), "error E01 number 0\n", "number", REFUSED, sized=True)
    yield Trial("noughts", repeated("0", count), "error E02 syntax 0\n", "syntax", REFUSED, sized=True)
    yield Trial("' in pairs", repeated("'", count // 2 * 2), "error E02 syntax 0\n", "syntax", REFUSED, sized=True)
    yield Trial("' and one more", repeated("'", count // 2 * 2 - 1), "error E01 text 0\n", "text", REFUSED, sized=True)
    yield Trial("a comment", repeated("-", count), "", "comment", sized=True)
    yield Trial("; alone", repeated(";", count), "", "empty", sized=True)
    named = joined("LOAD '", repeated("a", count - len("LOAD '' INTO T;")), "' INTO T;")
    yield Trial("LOAD of one name", named, "error E03 table T\n", "table", REFUSED, sized=True)
    asked = repeated("COMPILE Q AS SELECT * FROM T;\n", count // 30)
    yield Trial("statements", asked, "error E03 table T\n", "table", REFUSED, sized=True)
    start = table() + "SELECT * FROM T WHERE "
    groups = joined(start, repeated("(A=1OR A=1)AND ", (count - len(start) - 11) // 15), "(A=1OR A=1)")
    yield Trial("one condition", groups, f"-- load rows=2\nA\n1\n{report(2, 1)}", "rows", files={"t.csv": "A\n1\n2\n"},
                sized=True)
    kept = joined(table(), (f"COMPILE Q{i:07} AS SELECT * FROM T;\n" for i in range(count // 38)))
    lines = joined("-- load rows=0\n", repeated("-- compile points=1 contours=1 r=1\n", count // 38))
    yield Trial("bouquets", kept, lines, "compile", files={"t.csv": "A\n"}, sized=True)


def empty_script(part):
    yield Trial("no byte", "", "", "done")
    yield Trial("no byte, --max-work 0", "", "", "done", words=("--max-work", "0"))
    yield Trial("standard input closed by its other end", "", "", "done", source="closed")
    yield Trial("standard input is a directory", "", "", "read", READ_FAULT, source="directory")
    yield Trial("no standard input", "", "", "read", READ_FAULT, source="none")
    usage = "usage: bouquet [--max-work N] [--demo N]\n"
    yield Trial("an argument of 100,000 bytes", "", usage, "words", BAD_WORDS, words=("-" * 100_000,))
    yield Trial("100,000 arguments", "", usage, "words", BAD_WORDS, words=("--demo",) * 100_000)


def past_script(part):
    refusal = "error E12 limit script 16777217\n"
    yield Trial("16 MiB of spaces", repeated(" ", SCRIPT_BYTES), "", "most")
    yield Trial("one byte more", repeated(" ", SCRIPT_BYTES + 1), refusal, "script", REFUSED)
    yield Trial("without an end", "", refusal, "script", REFUSED, source="endless")


# Conditions.

def operands(part):
    """Conditions over four rows: 5, the last number of a list, -1 and NULL."""
    count = OPERANDS // part
    rows = {"t.csv": f"A\n5\n{count - 1}\n-1\n\"\"\n"}
    start = table() + "SELECT * FROM T WHERE "
    some = f"-- load rows=4\nA\n5\n{count - 1}\n{report(4, 2)}"
    none = f"-- load rows=4\nA\n-1\n{report(4, 1)}"
    numbers = lambda: separated(", ", map(str, range(count)))
    ors = lambda: separated(" OR ", (f"A = {i}" for i in range(count)))
    ands = lambda: separated(" AND ", (f"A <> {i}" for i in range(count)))
    same = dict(files=rows, sized=True)
    yield Trial("IN", joined(start, "A IN (", numbers(), ")"), some, "rows", **same)
    yield Trial("NOT IN", joined(start, "A NOT IN (", numbers(), ")"), none, "rows", **same)
    yield Trial("OR", joined(start, ors()), some, "rows", **same)
    yield Trial("AND", joined(start, ands()), none, "rows", **same)
    yield Trial("AND of groups", joined(start, separated(" AND ", (f"(A < {i} OR A > {i})" for i in range(count)))),
                none, "rows", **same)
    deep = separated(" AND ", (f"{'(' * DEPTH}A <> {i}{')' * DEPTH}" for i in range(count // 2)))
    few = f"-- load rows=4\nA\n-1\n{count - 1}\n{report(4, 2)}"
    yield Trial("AND of half as many, each 32 deep", joined(start, deep), few, "rows", **same)
    refused = dict(status=REFUSED, **same)
    loaded = "-- load rows=4\n"
    yield Trial("OR, and a text", joined(start, ors(), " OR A = 'a'"), f"{loaded}error E07 type {count + 1}\n", "kinds",
                **refused)
    yield Trial("AND, and 1 = 1", joined(start, ands(), " AND 1 = 1"), f"{loaded}error E08 predicate {count + 1}\n",
                "conjunct", **refused)
    edges = separated(" AND ", itertools.repeat("P.A = Q.A", count))
    yield Trial("equalities of two tables", joined(table(), "SELECT P.A FROM T P, T Q WHERE ", edges),
                f"{loaded}error E12 limit axes {count}\n", "axes", **refused)
    yield Trial("columns named", joined(table(), "SELECT ", separated(",", itertools.repeat("A", count)), " FROM T"),
                f"{loaded}error E12 limit projection {count}\n", "projection", **refused)
    yield Trial("tables of FROM", joined(table(), "SELECT * FROM ", separated(",", itertools.repeat("T", count))),
                f"{loaded}error E12 limit relations {count}\n", "relations", **refused)
    columns = separated(",", (f"C{i} INT" for i in range(count)))
    yield Trial("columns of a table", joined(table(), "CREATE TABLE U (", columns, ")"),
                f"{loaded}error E12 limit columns {count}\n", "columns", **refused)
    query = lambda: joined("SELECT * FROM T WHERE A IN (", numbers(), ")")
    opened = joined(";\nSAVE Q TO 'q.bq';\nOPEN Z FROM 'q.bq' AS ", query(), ";\nRUN Z;\n")
    kept = joined(table(), "COMPILE Q AS ", query(), opened)
    size = "points=1 contours=1 r=1\n"
    answer = f"{loaded}-- compile {size}-- open {size}A\n5\n{count - 1}\n{report(4, 2)}"
    yield Trial("IN, saved and opened", kept, answer, "open", **same)


def depth(part):
    forms = {
        "NOT": lambda n: "NOT (" * n + "A = 1" + ")" * n,
        "parentheses": lambda n: "(" * n + "A = 1" + ")" * n,
        "AND and OR": lambda n: "".join(f"(A = 1 {'OR' if i % 2 else 'AND'} " for i in range(n)) + "A = 1" + ")" * n,
        "NOT, AND and OR": lambda n: "".join(f"NOT (A <> 1 {'OR' if i % 2 else 'AND'} " for i in range(n)) + "A <> 1" +
        ")" * n,
        "parentheses and those of IN": lambda n: "(" * n + "A IN (1)" + ")" * n,
        "one group after another": lambda n: "(" * n + "A = 1" + ")" * n + " AND " + "(" * n + "A = 1" + ")" * n,
    }
    files = {"t.csv": "A\n1\n2\n\"\"\n"}
    for name, form in forms.items():
        for deep in (DEPTH, DEPTH + 1):
            script = f"{table()}SELECT * FROM T WHERE {form(deep)};\n"
            answer = f"-- load rows=3\nA\n1\n{report(3, 1)}"
            if name == "NOT, AND and OR":
                answer = nots(deep)
            if deep > DEPTH:
                answer = f"error E02 syntax {script.index('SELECT')}\n"
            yield Trial(f"{name}, {deep} deep", script, answer, "depth", int(deep > DEPTH), files)
    script = f"{table()}SELECT * FROM T WHERE NOT NOT A = 1;\n"
    yield Trial("NOT NOT", script, f"error E02 syntax {script.index('SELECT')}\n", "syntax", REFUSED, files)


def nots(deep):
    """The answer to so many nested NOTs of ANDs and ORs, over the rows 1, 2 and NULL, worked out from within."""
    def value(row):
        differs = None if row is None else row != 1
        held = differs
        for i in reversed(range(deep)):
            some = {differs, held}
            if i % 2:
                held = True if True in some else None if None in some else False
            else:
                held = False if False in some else None if None in some else True
            held = None if held is None else not held
        return held
    rows = [row for row in (None, 1, 2) if value(row)]
    shown = "".join('""\n' if row is None else f"{row}\n" for row in rows)
    return f"-- load rows=3\nA\n{shown}{report(3, len(rows))}"


# Files.


def file_bytes(part):
    count = FILE_BYTES // part
    text, number = table("VARCHAR(65535)"), table()

    def of(name, script, content, answer, rule, status=REFUSED):
        return Trial(name, script, answer, rule, status, {"t.csv": content}, sized=True)

    header = "error E10 header 1\n"
    yield of("quotes", text, repeated('"', count), header, "header")
    yield of("quotes, one never closed", text, repeated('"', count - 1), header, "quote")
    yield of("one field", text, repeated("a", count), header, "header")
    yield of("commas", text, repeated(",", count), header, "header")
    yield of("line feeds", text, repeated("\n", count), header, "entries")
    yield of("carriage returns", text, repeated("\r", count), header, "entries")
    rest = count - 2
    after = lambda sign: joined("A\n", repeated(sign, rest))
    yield of("a header, quotes", text, after('"'), "error E11 long 1 1\n", "long")
    yield of("a header, one field", text, after("a"), "error E11 long 1 1\n", "long")
    yield of("a header, commas", text, after(","), f"error E10 fields 1 {rest + 1} 1\n", "fields")
    yield of("a header, line feeds", text, after("\n"), "-- load rows=0\n", "blank", DONE)
    zeros = joined("A\n", repeated("0", rest - 1), "7")
    seven = f"-- load rows=1\nA\n7\n{report(1, 1)}"
    yield of("a header, noughts and a 7", number + "SELECT * FROM T;", zeros, seven, "zeros", DONE)
    yield of("a header, nines", number, after("9"), "error E11 range 1 1\n", "range")
    if rest // 2 > ROWS:
        small = joined("A\n", repeated("1\n", rest // 2))
        yield of("a header, rows of a digit", number, small, f"error E12 limit rows {rest // 2}\n", "totals")


def different_texts_file(part):
    """A file of nothing but different texts of four bytes."""
    signs = [chr(code) for code in range(33, 127) if chr(code) not in '",']
    count = (FILE_BYTES // part - 2) // 5

    def lines():
        pairs = [a + b for a in signs for b in signs]
        for start in itertools.islice(pairs, -(-count // len(pairs))):
            yield "".join(f"{start}{end}\n" for end in pairs)

    def cut():
        left = count * 5
        for piece in lines():
            yield piece[:left]
            left -= min(left, len(piece))

    answer = f"error E12 limit rows {count}\n" if count > ROWS else f"-- load rows={count}\n"
    yield Trial("a header, different texts of four bytes", table("VARCHAR(4)"), answer, "totals",
                int(count > ROWS), {"t.csv": joined("A\n", cut())}, sized=True)


def past_file(part):
    def sparse(size):
        return lambda folder: make_sparse(os.path.join(folder, "t.csv"), size)

    for size in (FILE_BYTES + 1, 2**40):
        yield Trial(f"a file of {size} bytes", table(), f"error E12 limit file {size}\n", "file", REFUSED,
                    make=sparse(size))


def make_sparse(path, size):
    with open(path, "wb") as file:
        file.truncate(size)


def rows(part):
    count = ROWS // part

    def numbers(some):
        for start in range(0, some, 65536):
            yield "".join(f"{i}\n" for i in range(start, min(some, start + 65536)))

    one = count - 1
    asked = f"{table()}SELECT * FROM T WHERE A = {one};\n"
    found = f"-- load rows={count}\nA\n{one}\n{report(count, 1)}"
    yield Trial("the most rows, one asked for", asked, found, "rows", files={"t.csv": joined("A\n", numbers(count))},
                sized=True)
    downward = (f"{i}\n" for i in range(count - 1, -1, -1))
    printed = joined(f"-- load rows={count}\nA\n", numbers(count), report(count, count))
    yield Trial("the most rows, printed", f"{table()}SELECT * FROM T;\n", printed, "order",
                files={"t.csv": joined("A\n", downward)}, sized=True)
    same = joined(f"-- load rows={count}\nA\n", repeated("7\n", count), report(count, count))
    yield Trial("the most rows, all the same, printed", f"{table()}SELECT * FROM T;\n", same, "order",
                files={"t.csv": joined("A\n", repeated("7\n", count))}, sized=True)
    blank = joined(f"-- load rows={count}\nA\n", repeated('""\n', count), report(count, count))
    indexed = f"{table()}CREATE INDEX I ON T (A);\nSELECT * FROM T;\n"
    yield Trial("the most rows, all NULL, indexed, printed", indexed, blank, "order",
                files={"t.csv": joined("A\n", repeated('""\n', count))}, sized=True)
    if part > 1:
        return
    past = f"error E12 limit rows {ROWS + 1}\n"
    yield Trial("one row more", table(), past, "totals", REFUSED, {"t.csv": joined("A\n", numbers(ROWS + 1))})
    yield Trial("one row more, in a second file", f"{table()}LOAD 'u.csv' INTO T;\n", f"-- load rows={ROWS}\n{past}",
                "totals", REFUSED, {"t.csv": joined("A\n", numbers(ROWS)), "u.csv": "A\n1\n"})


def appends(part):
    """Many LOADs of a row each into a table with indexes, whose words fall, and of files of a header alone."""
    for columns, count in ((1, 80_000 // part), (32, 20_000 // part)):
        named = [f"C{i}" for i in range(columns)]
        script = f"CREATE TABLE T ({', '.join(f'{name} INTEGER' for name in named)});\n"
        script += "".join(f"CREATE INDEX I{name} ON T ({name});\n" for name in named)
        for rows, what in ((1, "a row"), (0, "no row")):
            files = {f"{i}.csv": ",".join(named) + "\n" + rows * f"{','.join([str(FILES - i)] * columns)}\n"
                     for i in range(FILES)}
            loads = "".join(f"LOAD '{i * FILES // count}.csv' INTO T;\n" for i in range(count))
            some = "an index" if columns == 1 else f"{columns} indexes"
            yield Trial(f"LOADs of {what}, {some}", script + loads, repeated(f"-- load rows={rows}\n", count),
                        "loaded", files=files, sized=True)


def texts(part):
    """As many different texts as there may be, then one that is there, then one that isn't."""
    each = TEXTS // part // 4

    def lines(start, count, columns):
        for i in range(start, start + count * columns, columns):
            yield ",".join(f"{j:06x}" for j in range(i, i + columns)) + "\n"

    last = f"error E12 limit texts {TEXTS + 1}\n" if part == 1 else "-- load rows=1\n"
    loaded = f"-- load rows={each}\n"
    more = {"u.csv": "A,B,C,D\n000000,000001,000000,000000\n", "v.csv": "A,B,C,D\n000000,000001,other,000000\n"}
    made = "CREATE TABLE T (A VARCHAR(6), B VARCHAR(6), C VARCHAR(6), D VARCHAR(6));\n"
    script = made + "".join(f"LOAD '{name}.csv' INTO {table};\n" for name, table in zip("tuv", "TUU"))
    script = script.replace(";\n", ";\n" + made.replace("TABLE T", "TABLE U"), 1)
    yield Trial("one file", script, f"{loaded}-- load rows=1\n{last}", "totals", int(part == 1),
                {"t.csv": joined("A,B,C,D\n", lines(0, each, 4)), **more}, sized=True)
    files = {f"t{i}.csv": joined("A\n", lines(i * each, each, 1)) for i in range(4)}
    script = "".join(table("VARCHAR(6)", f"t{i}.csv", f"T{i}") for i in range(4))
    script += "CREATE TABLE U (A VARCHAR(6));\nLOAD 'u.csv' INTO U;\nLOAD 'v.csv' INTO U;\n"
    yield Trial("four files", script, f"{loaded * 4}-- load rows=1\n{last}", "totals", int(part == 1),
                {**files, "u.csv": "A\n000000\n", "v.csv": "A\nother\n"}, sized=True)


def text_bytes(part):
    """Texts of as many bytes as there may be, of 65,535 characters each, in two files, then one more byte."""
    count = 4096 // part
    line = lambda i: f"{i:05}" + "a" * 65529 + "\u00e9\n"
    half = lambda start: joined("A\n", map(line, range(start, start + count // 2)))
    script = table("VARCHAR(65535)") + "LOAD 'u.csv' INTO T;\nLOAD 'v.csv' INTO T;\n"
    loaded = f"-- load rows={count // 2}\n" * 2
    last = f"error E12 limit textbytes {FILE_BYTES + 1}\n" if part == 1 else "-- load rows=1\n"
    yield Trial("the most bytes of texts, and one", script, loaded + last, "totals", int(part == 1),
                {"t.csv": half(0), "u.csv": half(count // 2), "v.csv": "A\n1\n"}, sized=True)


# Queries.


def combinations(part):
    """Six aliases of 10, 10, 10, 100, 100 and 100 rows: 10^9 combinations."""
    files = {"t.csv": "A\n" + "".join(f"{i % 2}\n" for i in range(10)), "u.csv": "A\n" + "".join(f"{i % 2}\n" for i in
             range(100))}
    made = table() + table(file="u.csv", name="U")
    tables = "T A, T B, T C, U D, U E, U F"
    chain = " AND ".join(f"{a}.A = {b}.A" for a, b in zip("ABCDE", "BCDEF"))
    circle = chain + " AND F.A = A.A"
    most = MAX_WORK // part
    answer = f"-- load rows=10\n-- load rows=100\nerror E16 work {most}\n"
    for name, condition in {"no equality": "", "a chain of equalities": f" WHERE {chain}",
                            "a circle of equalities": f" WHERE {circle}"}.items():
        script = f"{made}SELECT * FROM {tables}{condition};\n"
        yield Trial(name, script, answer, "work", REFUSED, dict(files), ("--max-work", str(most)), sized=True)
    indexes = "CREATE INDEX I ON T (A);\nCREATE INDEX J ON U (A);\n"
    script = f"{made}{indexes}SELECT * FROM {tables} WHERE {circle};\n"
    yield Trial("a circle of equalities, indexes", script, answer, "work", REFUSED, dict(files),
                ("--max-work", str(most)), sized=True)
    big = joined("A\n", repeated("1\n", ROWS // part))
    product = (ROWS // part) ** 5
    if product > 2**100:
        yield Trial("six aliases of the most rows", f"{table()}SELECT * FROM T A, T B, T C, T D, T E, T F;\n",
                    f"-- load rows={ROWS // part}\nerror E12 limit product {product}\n", "product", REFUSED,
                    {"t.csv": big})


def folded(state, number, factor):
    product = (state ^ number) * factor
    return (product ^ product >> 64) & WORD


def colliding_texts(count, bits, key):
    """Different texts of ten characters whose hashes by a fixed key agree in so many bits."""
    mask, found = (1 << bits) - 1, 0
    spread = {ord(sign) * 0x10101: sign for sign in ALPHABET}
    for numbers in itertools.product(spread, repeat=9):
        state = folded(key, 10, HASH_FACTOR ^ 16)
        for number in reversed(numbers):
            state = folded(state, number, HASH_FACTOR ^ 2)
        start = "".join(spread[number] for number in reversed(numbers))
        for number, sign in spread.items():
            product = (state ^ number) * (HASH_FACTOR ^ 2)
            if not (product ^ product >> 32 ^ product >> 64 ^ product >> 96) & mask:
                yield f"{start}{sign}\n"
                found += 1
                if found == count:
                    return


def collisions(part):
    """Keys that fall into one chain of a hash join, many or two that stand there many times, beside as many that don't.
    And texts that would fall into one group in 256 of a dictionary that hashes by a fixed key, as this one doesn't."""
    count = 100_000 // part
    # the scans of both work more than 4 units a row, a hash join 3 more, and every other plan more than that
    most = 7 * count
    inverse = pow(CHAIN_FACTOR, -1, WORD + 1)
    script = f"{table()}{table(file='u.csv', name='U')}SELECT T.A FROM T, U WHERE T.A = U.A;\n"
    answer = f"-- load rows={count}\n" * 2 + f"error E16 work {most}\n"

    def key(i, factor):
        word = i * factor & WORD
        return f"{word - WORD - 1 if word > WORD // 2 else word}\n"

    def keys(side, factor):
        return (key(i, factor) for i in range(side * count, (side + 1) * count))

    for name, of in {"keys of all chains": lambda side: keys(side, 7919),
                     "keys of one chain": lambda side: keys(side, inverse),
                     "two keys of one chain": lambda side: repeated(key(side, inverse), count)}.items():
        files = {"t.csv": joined("A\n", of(0)), "u.csv": joined("A\n", of(1))}
        yield Trial(name, script, answer, "work", REFUSED, files, ("--max-work", str(most)), sized=True)
    some = 160_000 // part
    for name, bits, hash_key in (("texts of all groups", 0, HASH_KEYS[0]),
                                 ("texts of a group by one key", 8, HASH_KEYS[0]),
                                 ("texts of a group by another key", 8, HASH_KEYS[1])):
        files = {"t.csv": joined("A\n", colliding_texts(some, bits, hash_key))}
        yield Trial(name, table("VARCHAR(10)"), f"-- load rows={some}\n", "totals", files=files, sized=True)


def conditions(part):
    """Conditions over many rows, of which no work is allowed: rows that they keep are counted before a plan is run. Of
    half the size there are half of the rows, and half of the operands too if these are many."""
    for operands, rows, size in ((10_000 // part, 100_000 // part, ""), (300, 2_000_000 // part, " of 300")):
        answer = f"-- load rows={rows}\nerror E16 work 0\n"
        for name, condition in {"IN": joined("A IN (", separated(",", map(str, range(1, operands + 1))), ")"),
                                "OR": joined(separated(" OR ", (f"A = {i + 1}" for i in range(operands))))}.items():
            files = {"t.csv": joined("A\n", (f"{-i}\n" for i in range(rows)))}
            script = joined(table(), "SELECT * FROM T WHERE ", condition)
            yield Trial(f"{name}{size}, --max-work 0", script, answer, "work", REFUSED, files, ("--max-work", "0"),
                        sized=True)


def long_runs(part):
    """RUNs of a query of many operands over an empty table: each works 1 unit. Of half the size there are half of the
    RUNs."""
    count = RUNS // part
    for name in ("AND", "IN"):
        numbers = range(1, RUN_OPERANDS + 1)
        condition = separated(" AND ", (f"A <> {i}" for i in numbers)) if name == "AND" else joined(
            "A IN (", separated(",", map(str, numbers)), ")")
        script = joined(table(), "COMPILE Q AS SELECT * FROM T WHERE ", condition, ";\n", repeated("RUN Q;\n", count))
        answer = joined("-- load rows=0\n-- compile points=1 contours=1 r=1\n", repeated(f"A\n{report(0, 0)}", count))
        yield Trial(f"RUNs of {name}", script, answer, "rows", files={"t.csv": "A\n"}, sized=True)


def long_units(part):
    """One conjunct of very many even operands over some rows, of which all but one are odd."""
    count = UNIT_OPERANDS // part
    rows = "A\n" + "".join(f"{2 * i + 1}\n" for i in range(1, UNIT_ROWS)) + f"{2 * count - 2}\n"
    answer = f"-- load rows={UNIT_ROWS}\nA\n{2 * count - 2}\n{report(UNIT_ROWS, 1)}"
    evens = range(0, 2 * count, 2)
    for name, condition in {"IN": joined("A IN (", separated(",", map(str, evens)), ")"),
                            "OR": separated(" OR ", (f"A = {i}" for i in evens))}.items():
        script = joined(table(), "SELECT * FROM T WHERE ", condition, ";\n")
        yield Trial(f"{name} over some rows", script, answer, "rows", files={"t.csv": rows}, sized=True)


def wide_rows(part):
    """A gigabyte for little work: the 64 pairs of eight rows, with the longest text in each of the most columns. The
    rows come from one entry, which is loaded eight times."""
    text = "a" * (CHARACTERS // part)
    loaded = table(f"VARCHAR({CHARACTERS})") + "LOAD 't.csv' INTO T;\n" * 7
    script = f"{loaded}SELECT {','.join(['X.A'] * COLUMNS)} FROM T X, T Y;\n"
    # two scans, and a nested loop that keeps 8 rows, looks at 64 pairs and gives 64 rows
    work = 2 * work_of(8, 8) + 8 + 64 + 64
    rows = repeated(",".join([text] * COLUMNS) + "\n", 64)
    answer = joined("-- load rows=1\n" * 8, ",".join("A" * COLUMNS) + "\n", rows,
                    f"-- rows=64 work={work} runs=1 contour=1 plan=N(S0,S1)\n")
    yield Trial("256 columns of the longest text, --max-work 300", script, answer, "printed",
                files={"t.csv": f"A\n{text}\n"}, words=("--max-work", "300"), sized=True)


def many_rows(part):
    """The pairs of two tables' rows, of which one column is asked for. Of half the size the second table has half of the
    rows."""
    others = SIDE // part
    made = table() + table(file="u.csv", name="U")
    files = {"t.csv": "A\n" + "".join(f"{i}\n" for i in range(SIDE)), "u.csv": "A\n" + "1\n" * others}
    # two scans, and a nested loop that keeps the second table's rows, looks at all pairs and gives them
    work = work_of(SIDE, SIDE) + work_of(others, others) + others + 2 * SIDE * others
    rows = (f"{i}\n" * others for i in range(SIDE))
    answer = joined(f"-- load rows={SIDE}\n-- load rows={others}\nA\n", rows,
                    f"-- rows={SIDE * others} work={work} runs=1 contour=1 plan=N(S0,S1)\n")
    yield Trial("nine million, one column asked for", f"{made}SELECT X.A FROM T X, U Y;\n", answer, "equal",
                files=files, sized=True)


TEXTS_OF_PLANS = 2 * 720
SIX = "SELECT * FROM " + ", ".join(f"T{i}" for i in range(6))


def plan_texts():
    """Texts of plans by nested loops, in all orders of the tables and by turns in two shapes."""
    for a, b, c, d, e, f in itertools.permutations(range(6)):
        yield f"N(N(N(N(N(S{a},S{b}),S{c}),S{d}),S{e}),S{f})"
        yield f"N(N(S{a},N(S{b},S{c})),N(S{d},N(S{e},S{f})))"


def bouquet_file(contours, plans, cost="1000", last=0):
    """A bouquet of SIX with so many contours of so many plans, and of `last` more in the last one."""
    texts = itertools.cycle(plan_texts())
    yield '{"bouquet":1,"contours":['
    for i in range(contours):
        many = plans + (last if i == contours - 1 else 0)
        listed = ",".join(f'"{it}"' for it in itertools.islice(texts, many))
        yield ("," if i else "") + f'{{"cost":"{cost}","plans":[{listed}]}}'
    counts = ",".join(['{"indexes":0,"kept":1,"rows":1}'] * 6)
    yield f'],"levels":25,"query":"{SIX}","relations":[{counts}],"threshold":20}}'


def plans(part):
    contours = CONTOURS // part
    made = "".join(table(file="t.csv", name=f"T{i}") for i in range(6))
    loaded = "-- load rows=1\n" * 6
    opened = f"{made}OPEN Z FROM 'q.bq' AS {SIX};\n"
    line = f"{loaded}-- open points=1 contours={contours} r={PLANS}\n"

    def files(content):
        return {"t.csv": "A\n1\n", "q.bq": content}

    yield Trial("opened", opened, line, "open", files=files(bouquet_file(contours, PLANS)), sized=True)

    def saved_is_opened(folder):
        with open(os.path.join(folder, "q.bq"), "rb") as one, open(os.path.join(folder, "z.bq"), "rb") as other:
            return None if one.read() == other.read() else "what is saved isn't what was opened"

    yield Trial("opened and saved", f"{opened}SAVE Z TO 'z.bq';\n", line, "open", left=saved_is_opened,
                files=files(bouquet_file(contours, PLANS)), sized=True)
    tried = contours * PLANS
    # each plan is aborted at a budget of 1 unit; the last one works six scans and five joins: 6 * 11 + 5 * 3
    row = f"A,A,A,A,A,A\n1,1,1,1,1,1\n-- rows=1 work={tried + 81} runs={tried + 1} contour=0 plan="
    last = next(itertools.islice(plan_texts(), (tried - 1) % TEXTS_OF_PLANS, None))
    yield Trial("opened and run, each plan aborted", f"{opened}RUN Z;\n", f"{line}{row}{last}\n", "last",
                files=files(bouquet_file(contours, PLANS, "1")), sized=True)
    if part > 1:
        return
    yield Trial("a contour more", opened, f"{loaded}error E14 file contours\n", "plans", REFUSED,
                files(bouquet_file(CONTOURS + 1, PLANS)))
    path = f"contours.{CONTOURS}.plans"
    yield Trial("a plan more in the last contour", opened, f"{loaded}error E14 file {path}\n", "plans", REFUSED,
                files(bouquet_file(CONTOURS, PLANS, last=1)))
    deep = {"q.bq": repeated("[", FILE_BYTES), "t.csv": "A\n1\n"}
    yield Trial("256 MiB of [", opened, f"{loaded}error E14 file json\n", "json", REFUSED, deep)
    for value, size in (("0", FILE_BYTES), ("[0]", FILE_BYTES // 16), ('{"":0}', FILE_BYTES // 16)):
        count = (size - 4) // (len(value) + 1)
        wide = {"q.bq": joined("[", repeated(f"{value},", count), f"{value}]"), "t.csv": "A\n1\n"}
        yield Trial(f"{size >> 20} MiB of a list of {value}", opened, f"{loaded}error E14 file bouquet\n", "object",
                    REFUSED, wide)


def free_bouquet(contours):
    """A bouquet of SIX whose executions are free, since no contour costs anything: its tables and OPEN, what these print,
    the files, and the plan that is executed in the end. That works six scans and five joins: 6 * 11 + 5 * 3."""
    made = "".join(table(file="t.csv", name=f"T{i}") for i in range(6))
    opened = f"{made}OPEN Z FROM 'q.bq' AS {SIX};\n"
    line = "-- load rows=1\n" * 6 + f"-- open points=1 contours={contours} r={PLANS}\n"
    last = next(itertools.islice(plan_texts(), (contours * PLANS - 1) % TEXTS_OF_PLANS, None))
    return opened, line, {"t.csv": "A\n1\n", "q.bq": bouquet_file(contours, PLANS, "0")}, last


def tried_plans(contours):
    """The contours and the plans of its executions under budgets."""
    for place, text in enumerate(itertools.islice(itertools.cycle(plan_texts()), contours * PLANS)):
        yield place // PLANS + 1, text


def free_executions(part):
    """RUN, and TURNS of the most jobs, of which each takes a turn for each execution."""
    def end(contours, last):
        return f"A,A,A,A,A,A\n1,1,1,1,1,1\n-- rows=1 work=81 runs={contours * PLANS + 1} contour=0 plan={last}\n"

    def turns(contour, text, spent):
        return "".join(f"-- turn job={job} contour={contour} plan={text} spent={spent}\n" for job in range(1, JOBS + 1))

    contours = max(1, CONTOURS // part)
    opened, line, files, last = free_bouquet(contours)
    yield Trial("RUN", f"{opened}RUN Z;\n", line + end(contours, last), "last", files=files, sized=True)
    contours = max(1, CONTOURS // JOBS_PART // part)
    opened, line, files, last = free_bouquet(contours)
    tried = (turns(contour, text, 0) for contour, text in tried_plans(contours))
    answer = joined(line, tried, turns(0, last, 81), repeated(end(contours, last), JOBS))
    script = f"{opened}TURNS {', '.join(['Z'] * JOBS)};\n"
    yield Trial(f"TURNS of {JOBS} jobs", script, answer, "turn", files=files, sized=True)


def skips(part):
    """LEARN: its first execution rules out no point, and the contours have no frontier, so each other one is skipped."""
    contours = max(1, CONTOURS // part)
    opened, line, files, last = free_bouquet(contours)
    skipped = (f"-- skip contour={contour} plan={text} point=-\n" for contour, text in tried_plans(contours))
    end = f"-- rows=1 work=81 runs=2 contour=0 plan={last}\n"
    answer = joined(line, "A,A,A,A,A,A\n1,1,1,1,1,1\n", itertools.islice(skipped, 1, None), end)
    yield Trial("LEARN", f"{opened}LEARN Z;\n", answer, "skip", files=files, sized=True)


# Names.

NAMED = """\
CREATE TABLE {table} ({column} INTEGER);
CREATE INDEX {index} ON {table} ({column});
LOAD 't.csv' INTO {table};
SELECT {alias}.{column} FROM {table} AS {alias} WHERE {alias}.{column} IS NOT NULL;
COMPILE {bouquet} AS SELECT {alias}.{column} FROM {table} {alias};
EXPLAIN {bouquet};
SAVE {bouquet} TO 'q.bq';
OPEN {other} FROM 'q.bq' AS SELECT {alias}.{column} FROM {table} {alias};
RUN {other};
AUDIT {other};
"""


def names(part):
    places = ["table", "column", "index", "alias", "bouquet", "other"]
    longest = {place: (place[0] + "_" * NAME_BYTES)[: NAME_BYTES - 1] + "z" for place in places}
    column = longest["column"].upper()
    rows = f"{column}\n1\n2\n{report(2, 2)}"
    size = "points=1 contours=1 r=1\n"
    work = work_of(2, 2)
    answer = (
        f"-- load rows=2\n{rows}-- compile {size}-- contour=1 cost={work} budget={work * 120 // 100} plans=S0\n"
        f"-- open {size}{rows}-- audit point=- plans=1 below=yes a={work} b={work} cheapest={work} r=1 work={work}\n"
    )
    files = {"t.csv": f"{longest['column']}\n2\n1\n"}
    yield Trial("128 bytes everywhere", NAMED.format(**longest), answer, "upper", files=dict(files))
    for place in places:
        script = NAMED.format(**{**longest, place: longest[place] + "z"})
        found = script.index(longest[place] + "z")
        yield Trial(f"129 bytes of {place}", script, f"error E01 name {found}\n", "name", REFUSED, dict(files))
    for length, status in ((255, DONE), (256, READ_FAULT), (100_000, READ_FAULT)):
        given = {"a" * length: "A\n"} if status == DONE else {}
        answer = "-- load rows=0\n" if status == DONE else ""
        yield Trial(f"a file's name of {length} bytes", table(file="a" * length), answer, "read", status, given)


# The outside.


def folder_faults(part):
    """What a name of the folder may lead to, at each statement that asks for a file."""

    def a_socket(path):
        with contextlib.closing(socket.socket(socket.AF_UNIX)) as made:
            made.bind(path)

    def a_file(path, rights=0o644):
        with open(path, "w") as file:
            file.write("A\n1\n")
        os.chmod(path, rights)

    def a_circle(path):
        os.symlink("b", path)
        os.symlink(os.path.basename(path), os.path.join(os.path.dirname(path), "b"))

    kinds = {
        "a directory": os.mkdir,
        "a FIFO": os.mkfifo,
        "a socket": a_socket,
        "unreadable": lambda path: a_file(path, 0),
        "a link in a circle": a_circle,
        "a link to itself": lambda path: os.symlink(os.path.basename(path), path),
        "a link to a directory": lambda path: os.symlink("/", path),
        "a link to an endless device": lambda path: os.symlink("/dev/zero", path),
        "a link to a FIFO": lambda path: (os.mkfifo(path + "f"), os.symlink(path + "f", path)),
    }
    before = "CREATE TABLE T (A INTEGER);\nLOAD 'good.csv' INTO T;\nCOMPILE Q AS SELECT * FROM T;\n"
    printed = "-- load rows=1\n-- compile points=1 contours=1 r=1\n"
    asked = {
        "LOAD": ("LOAD 'a' INTO T;\n", READ_FAULT, "read"),
        "OPEN": ("OPEN Z FROM 'a' AS SELECT * FROM T;\n", READ_FAULT, "read"),
        "SAVE": ("SAVE Q TO 'a';\n", WRITE_FAULT, "write"),
    }
    for kind, make in kinds.items():
        for name, (statement, status, rule) in asked.items():
            regular = any(it in kind for it in ("FIFO", "directory", "device", "socket"))
            yield Trial(f"{kind}, {name}", f"{before}{statement}RUN Q;\n", printed, "regular" if regular else rule,
                        status, {"good.csv": "A\n1\n"}, user=NOBODY,
                        make=lambda folder, make=make: make(os.path.join(folder, "a")))
    for name, (statement, status, rule) in asked.items():
        statement = statement.replace("'a'", "'a/b'")
        yield Trial(f"a path through a file, {name}", f"{before}{statement}RUN Q;\n", printed, rule, status,
                    {"good.csv": "A\n1\n", "a": "A\n1\n"})
    link = lambda folder: os.symlink("nowhere", os.path.join(folder, "a"))
    absent = printed + "error E09 absent a\n"
    for name, status, answer, rule in (("LOAD", REFUSED, absent, "absent"), ("OPEN", REFUSED, absent, "absent"),
                                       ("SAVE", WRITE_FAULT, printed, "write")):
        yield Trial(f"a link to nowhere, {name}", f"{before}{asked[name][0]}", answer, rule, status,
                    {"good.csv": "A\n1\n"}, make=link)

    def not_written(folder):
        os.chmod(folder, 0o555)

    night = "#!/bin/sh\necho night\n"

    def a_program(folder):
        with open(os.path.join(folder, "a"), "w") as file:
            file.write(night)
        os.chmod(os.path.join(folder, "a"), 0o755)

    def same_program(folder):
        found = sorted(os.listdir(folder))
        with open(os.path.join(folder, "a")) as file:
            held = file.read(), os.fstat(file.fileno()).st_mode & 0o777
        same = (found, held) == (["a", "good.csv"], (night, 0o755))
        return None if same else f"the folder has {found}, and the file {held}"

    yield Trial("a program, SAVE", f"{before}{asked['SAVE'][0]}", printed, "replaced", WRITE_FAULT,
                {"good.csv": "A\n1\n"}, make=a_program, left=same_program)
    yield Trial("a directory that may not be written, SAVE", f"{before}SAVE Q TO 'a';\n", printed, "write", WRITE_FAULT,
                {"good.csv": "A\n1\n"}, user=NOBODY, make=not_written)


def outputs(part):
    lines = 1_000_000 // part
    files = {"t.csv": joined("A\n", repeated("7\n", lines))}
    script = f"{table()}SELECT * FROM T;\n"
    for name, output in (("a pipe closed at the other end", "closed"), ("a full device", "full")):
        yield Trial(f"{name}, one line", table(), None, "write", WRITE_FAULT, {"t.csv": "A\n"}, output=output)
        yield Trial(f"{name}, nothing to print", "CREATE TABLE T (A INTEGER);", None, "done", DONE, output=output)
        yield Trial(f"{name}, an error line", "SELECT", None, "write", WRITE_FAULT, output=output)
        yield Trial(f"{name}, the usage line", "", None, "write", WRITE_FAULT, output=output, words=("--help",))
        yield Trial(f"{name}, a demonstration", "", None, "write", WRITE_FAULT, output=output, words=("--demo", "1"))
    if lines > 500_000:
        yield Trial("a pipe closed after 100,000 bytes", script, None, "write", WRITE_FAULT, files, output="closing")
    saves = "CREATE TABLE T (A INTEGER);\nCOMPILE Q AS SELECT * FROM T;\nSAVE Q TO 'q.bq';\n"
    yield Trial("a full device, and a SAVE after it", saves, None, "write", WRITE_FAULT, output="full",
                left=lambda folder: f"the folder has {os.listdir(folder)}" if os.listdir(folder) else None)
    yield Trial("no standard output", table(), None, "write", WRITE_FAULT, {"t.csv": "A\n"}, output="none")


OLD_FILE = '{"bouquet":"the old file"}'
LONG_QUERY = f"SELECT * FROM T WHERE A IN ({', '.join(map(str, range(7000)))})"
COMPILED = "-- load rows=1\n-- compile points=1 contours=1 r=1\n"


def disk(part):
    """A SAVE of some 40 KB into a disk that is full, or to a file that may not be so long."""
    script = f"{table()}COMPILE Q AS {LONG_QUERY};\nSAVE Q TO 'small/q.bq';\nRUN Q;\n"
    printed, old = COMPILED, OLD_FILE

    def small(folder):
        path = os.path.join(folder, "small")
        os.mkdir(path)
        mount = ["mount", "-t", "tmpfs", "-o", "size=16k", "tmpfs", path]
        if os.geteuid() != 0 or subprocess.run(mount, stderr=subprocess.DEVNULL).returncode:
            raise PermissionError
        with open(os.path.join(path, "q.bq"), "w") as file:
            file.write(old)

    def plain(folder):
        os.mkdir(os.path.join(folder, "small"))
        with open(os.path.join(folder, "small", "q.bq"), "w") as file:
            file.write(old)

    def same(folder):
        found = os.listdir(os.path.join(folder, "small"))
        with open(os.path.join(folder, "small", "q.bq")) as file:
            held = file.read()
        return None if (found, held) == (["q.bq"], old) else f"the folder has {found}, and the file {held[:40]!r}"

    def short():
        signal.signal(signal.SIGXFSZ, signal.SIG_IGN)
        resource.setrlimit(resource.RLIMIT_FSIZE, (10_000, 10_000))

    files = {"t.csv": "A\n1\n"}
    yield Trial("a full tmpfs, SAVE", script, printed, "beside", WRITE_FAULT, dict(files), make=small, left=same)
    yield Trial("RLIMIT_FSIZE, SAVE", script, printed, "beside", WRITE_FAULT, dict(files), make=plain, left=same,
                limit=short)
    rows = joined("A\n", repeated("7\n", 100_000))
    cut = joined("-- load rows=100000\nA\n", repeated("7\n", 100_000))
    begun = next(cut)[:10_000]
    yield Trial("RLIMIT_FSIZE, standard output", f"{table()}SELECT * FROM T;\n", begun, "write", WRITE_FAULT,
                {"t.csv": rows}, limit=short)


def killed_saves(part):
    """A SAVE after many runs that were killed in the middle of theirs. Each of these left a file in the making."""
    script = f"{table()}COMPILE Q AS {LONG_QUERY};\nSAVE Q TO 'q.bq';\n"
    saved = (f'{{"bouquet":1,"contours":[{{"cost":"{work_of(1, 1)}","plans":["S0"]}}],"levels":25,'
             f'"query":"{LONG_QUERY}","relations":[{{"indexes":0,"kept":1,"rows":1}}],"threshold":20}}')

    def old_file(folder):
        with open(os.path.join(folder, "q.bq"), "w") as file:
            file.write(OLD_FILE)

    def saved_beside_parts(folder):
        found = contents_of(folder)
        parts = [found.pop(name) for name in list(found) if name.endswith(".part")]
        if found != {"q.bq": saved, "t.csv": "A\n1\n"}:
            return f"the folder has {sorted(found)}, and the file {found.get('q.bq', '')[:40]!r}"
        return None if parts == [saved[:KILLED_AT]] * KILLED else f"{len(parts)} files are in the making"

    same = dict(files={"t.csv": "A\n1\n"}, killed=KILLED, left=saved_beside_parts)
    yield Trial(f"after {KILLED} killed", script, COMPILED, "killed", make=old_file, **same)

    def in_namespaces(folder):
        if subprocess.run([*NAMESPACE, "true"], stderr=subprocess.DEVNULL).returncode:
            raise PermissionError
        old_file(folder)

    yield Trial(f"after {KILLED} killed, each the same process", script, COMPILED, "killed", make=in_namespaces,
                under=NAMESPACE, **same)


EXTREMES = {
    "script": script_bytes,
    "empty": empty_script,
    "past-script": past_script,
    "operands": operands,
    "depth": depth,
    "file": file_bytes,
    "different": different_texts_file,
    "past-file": past_file,
    "rows": rows,
    "appends": appends,
    "texts": texts,
    "text-bytes": text_bytes,
    "combinations": combinations,
    "collisions": collisions,
    "conditions": conditions,
    "long-runs": long_runs,
    "long-units": long_units,
    "wide": wide_rows,
    "many-rows": many_rows,
    "plans": plans,
    "free-executions": free_executions,
    "skips": skips,
    "names": names,
    "folder": folder_faults,
    "outputs": outputs,
    "disk": disk,
    "killed": killed_saves,
}


# Runs.


def write_parts(path, content):
    """Writes a content, and returns its length."""
    length = 0
    with open(path, "wb") as file:
        for part in parts_of(content):
            length += file.write(part)
    return length


def difference(path, answer, whole):
    """Where an output isn't the answer, or where it needn't be whole a beginning of it; None where it is."""
    with open(path, "rb") as file:
        at = 0
        for part in parts_of(answer or ""):
            got = file.read(len(part))
            if not whole and len(got) < len(part) and part.startswith(got):
                return None
            if got != part:
                return f"{got[:160]!r} at byte {at}, where {part[:160]!r} is due"
            at += len(part)
        more = file.read(160)
        return f"{more!r} at byte {at}, where nothing more is due" if more else None


def wrong_line(path, status):
    """What standard error has, where that isn't the line of this status from 2 on, and nothing below; else None."""
    with open(path) as file:
        said = file.read(1000)
    if status in range(BAD_WORDS, NO_MEMORY + 1):
        right = re.fullmatch(rf"bouquet: [a-z ]+ \(docs/ERRORS\.md#status-{status}\)\n", said)
    else:
        right = not said
    return None if right else f"standard error has {said[:200]!r}"


def resident(process):
    try:
        with open(f"/proc/{process}/statm") as file:
            return int(file.read().split()[1]) * resource.getpagesize()
    except (OSError, IndexError):
        return 0


def wait(child):
    """Waits for a child, which is ended where it takes too much memory or time. Returns its status and what it used."""
    end = time.monotonic() + MOST_SECONDS
    while True:
        done, status, usage = os.wait4(child.pid, os.WNOHANG)
        if done:
            child.returncode = os.waitstatus_to_exitcode(status)
            return child.returncode, usage
        if resident(child.pid) > MOST_MEMORY or time.monotonic() > end:
            child.kill()
        time.sleep(0.005)


def streams(trial, folder, script, output):
    """Standard input and output of a run, and the end of a pipe that is read and then closed."""
    sources = {"file": script, "none": script, "endless": "/dev/zero", "directory": folder}
    if trial.source == "closed":
        source, other = os.pipe()
        os.close(other)
    else:
        source = os.open(sources[trial.source], os.O_RDONLY)
    if trial.output in ("file", "none"):
        return source, os.open(output, os.O_WRONLY | os.O_CREAT | os.O_TRUNC), None
    if trial.output == "full":
        return source, os.open("/dev/full", os.O_WRONLY), None
    other, sink = os.pipe()
    if trial.output == "closed":
        os.close(other)
        return source, sink, None
    return source, sink, other


def contents_of(folder):
    """The files of a folder, each with its text."""
    found = {}
    for name in os.listdir(folder):
        with open(os.path.join(folder, name)) as file:
            found[name] = file.read()
    return found


def kill_in_save(trial, program, folder, script):
    """Runs a trial in a folder of files until the system kills it, as a SAVE writes more than a file may hold. Returns
    what differs: all files have to stay as they were, with one more in the making."""
    before = contents_of(folder)

    def limit():
        resource.setrlimit(resource.RLIMIT_FSIZE, (KILLED_AT, KILLED_AT))
        resource.setrlimit(resource.RLIMIT_CORE, (0, 0))

    with open(script, "rb") as source:
        status = subprocess.run([*trial.under, program, *trial.words], cwd=folder, stdin=source, preexec_fn=limit,
                                stdout=subprocess.DEVNULL, stderr=subprocess.DEVNULL).returncode
    if status not in (-signal.SIGXFSZ, 128 + signal.SIGXFSZ):
        return f"status {status} of a run that is to be killed"
    after = contents_of(folder)
    more = [name for name in after if name not in before]
    same = all(after.get(name) == text for name, text in before.items())
    return None if same and len(more) == 1 else f"a run that was killed left {more}"


def run(trial, program):
    """Runs a trial. Returns what differs or None, its seconds, its peak memory, and the bytes of its input and answer."""
    folder = tempfile.mkdtemp(prefix="extremes-")
    outside = tempfile.mkdtemp(prefix="extremes-")
    script, output, errors = (os.path.join(outside, it) for it in ("script.sql", "output", "errors"))
    try:
        os.chmod(folder, 0o777)
        size = write_parts(script, trial.script)
        size += sum(write_parts(os.path.join(folder, name), content) for name, content in trial.files.items())
        trial.make(folder)
        found = [kill_in_save(trial, program, folder, script) for _ in range(trial.killed)]
        if trial.user is None or os.geteuid() != 0:
            user = {}
        else:
            user = dict(user=trial.user, group=trial.user, extra_groups=[])

        def limit():
            resource.setrlimit(resource.RLIMIT_AS, (ADDRESS_SPACE, ADDRESS_SPACE))
            resource.setrlimit(resource.RLIMIT_CPU, (MOST_SECONDS, MOST_SECONDS))
            resource.setrlimit(resource.RLIMIT_CORE, (0, 0))
            trial.limit()
            if trial.output == "none":
                os.close(1)
            if trial.source == "none":
                os.close(0)

        source, sink, read = streams(trial, folder, script, output)
        with open(errors, "wb") as failed:
            child = subprocess.Popen([*trial.under, program, *trial.words], cwd=folder, stdin=source, stdout=sink,
                                     stderr=failed, preexec_fn=limit, **user)
        os.close(source)
        os.close(sink)
        if read is not None:
            with open(read, "rb") as pipe:
                pipe.read(100_000)
        status, usage = wait(child)
        if status == NO_MEMORY:
            found.append("out of memory")
        elif status == -signal.SIGKILL:
            found.append("ended, as it took too much memory or time")
        elif status != trial.status:
            found.append(f"status {status}, where {trial.status} is due")
        if trial.output == "file":
            found.append(difference(output, trial.answer, status not in (NO_MEMORY, -signal.SIGKILL)))
        found.append(trial.left(folder))
        found.append(wrong_line(errors, status))
        differs = "; ".join(filter(None, found)) or None
        printed = os.path.getsize(output) if trial.output == "file" else 0
        return differs, usage.ru_utime + usage.ru_stime, usage.ru_maxrss * 1024, size, printed
    finally:
        if os.path.ismount(os.path.join(folder, "small")):
            subprocess.run(["umount", os.path.join(folder, "small")], check=True)
        shutil.rmtree(folder)
        shutil.rmtree(outside)


def show(extreme, trial, program, halves, rules):
    """Runs a trial, and its half if it has one, prints a line, and returns how many findings there are."""
    try:
        differs, seconds, memory, size, printed = run(trial, program)
    except PermissionError:
        print(f"{extreme} | {trial.name} | left out: it needs root", flush=True)
        return 0
    findings = [differs] if differs else []
    times = ""
    half = next((it for it in halves if it.name == trial.name), None) if trial.sized else None
    if half:
        half_differs, half_seconds, *_ = run(half, program)
        if half_differs:
            findings.append(f"of half the size: {half_differs}")
        times = f"{seconds / max(half_seconds, 0.001):.1f}"
        if seconds > FROM_SECONDS and seconds > LINEAR * half_seconds:
            findings.append(f"{times} times as long as half of it")
    if memory > FROM_MEMORY and memory > FAR_ABOVE * size:
        findings.append(f"{memory / max(size, 1):.0f} times the memory of the input")
    print(f"{extreme} | {trial.name} | status {trial.status} | {seconds:.2f} s | {times} | {memory / 1e6:.0f} MB | "
          f"of {size / 1e6:.1f} | {printed / 1e6:.1f} | {'; '.join(findings) or 'as due'}", flush=True)
    if rules:
        print(f"    {RULES[trial.rule]}")
    return len(findings)


def main():
    words = argparse.ArgumentParser(description=__doc__, formatter_class=argparse.RawDescriptionHelpFormatter)
    words.add_argument("names", nargs="*", metavar="NAME", help=f"of {', '.join(EXTREMES)}")
    words.add_argument("--program", default=PROGRAM)
    words.add_argument("--part", type=int, default=1)
    words.add_argument("--rules", action="store_true")
    words.add_argument("--list", action="store_true")
    given = words.parse_args()
    unknown = set(given.names) - set(EXTREMES)
    if unknown:
        sys.exit(f"extremes: no extreme {', '.join(sorted(unknown))}; there are {', '.join(EXTREMES)}")
    documents = " ".join(" ".join(open(path).read().split()) for path in DOCUMENTS)
    for name, rule in RULES.items():
        if rule not in documents:
            sys.exit(f"extremes: the rule {name} stands in no document: {rule}")
    if given.list:
        print("\n".join(EXTREMES))
        return
    program = os.path.abspath(given.program)
    findings = 0
    print("extreme | trial | status due | seconds | times half | peak | input MB | printed MB | found")
    for extreme in given.names or EXTREMES:
        halves = EXTREMES[extreme](2 * given.part)
        halves = list(halves)
        for trial in EXTREMES[extreme](given.part):
            findings += show(extreme, trial, program, halves, given.rules)
    print(f"{findings} findings")
    sys.exit(1 if findings else 0)


if __name__ == "__main__":
    main()
