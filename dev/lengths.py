#!/usr/bin/env python3
"""usage: dev/lengths.py README..

Looks whether each of these READMEs of crates has at most 40 lines and 400 words, cells of tables and lines of code counted, and
no paragraph of more than 60 words. An item of a list is a paragraph, and so is a cell of a table; a heading and a line of code
are none. Each that is longer is named by its document and line; then the status is 1, else 0.
"""
import pathlib
import re
import sys

LINES, WORDS, ALL_WORDS = 40, 60, 400
ITEM = re.compile(r"\s*(-|\d+\.) ")
CELL_END = re.compile(r"(?<!\\)\|")


def paragraphs(lines):
    """Each paragraph, item and cell with the number of its first line."""
    begun = None
    for number, line in enumerate(lines, 1):
        is_text = line.strip() and not line.startswith(("#", "|", "    "))
        if begun and (not is_text or ITEM.match(line)):
            yield begun
            begun = None
        if line.startswith("|"):
            yield from ((number, cell) for cell in CELL_END.split(line))
        elif is_text:
            begun = (begun[0], f"{begun[1]} {line}") if begun else (number, line)
    if begun:
        yield begun


def faults_of(path):
    text = pathlib.Path(path).read_text(encoding="utf-8")
    lines, words = text.splitlines(), len(text.split())
    if len(lines) > LINES:
        yield f"{path}: {len(lines)} lines"
    if words > ALL_WORDS:
        yield f"{path}: {words} words"
    for number, text in paragraphs(lines):
        if len(text.split()) > WORDS:
            yield f"{path}:{number}: {len(text.split())} words"


def main():
    faults = [fault for path in sys.argv[1:] for fault in faults_of(path)]
    for fault in faults:
        print(fault, file=sys.stderr)
    if faults:
        sys.exit(1)
    print(f"each of {len(sys.argv) - 1} READMEs of crates has at most {LINES} lines, {ALL_WORDS} words and {WORDS} words a paragraph")


main()
