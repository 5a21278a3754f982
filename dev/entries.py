#!/usr/bin/env python3
"""usage: dev/entries.py

Looks whether each error line has its row in docs/ERRORS.md, as tools/ask finds it: what was found, and what to do. The lines
are the forms in docs/FORMATS.md, with each kind of E01 and each limit of E12, and those in the console blocks of the
documents. The failures are the statuses from 2 on. The status is 1 where a row is missing, else 0.
"""
import importlib.machinery
import importlib.util
import pathlib
import re
import sys

TOP = pathlib.Path(__file__).resolve().parent.parent
DOCS = TOP / "docs"
FORMATS = (DOCS / "FORMATS.md").read_text(encoding="utf-8")
PRINTED = re.compile(r"^error E\d\d .*$", re.MULTILINE)
FORM = re.compile(r"^\| `(error E\d\d [^`]+)` \|", re.MULTILINE)
FIRST_CELL = re.compile(r"^\| `(\w+)` \|", re.MULTILINE)
STATUS = re.compile(r"^### (Status [2-9])$", re.MULTILINE)


def tool(path):
    """A Python program without a suffix, as a module."""
    loader = importlib.machinery.SourceFileLoader(path.name, str(path))
    module = importlib.util.module_from_spec(importlib.util.spec_from_loader(path.name, loader))
    sys.dont_write_bytecode = True
    loader.exec_module(module)
    return module


def words_below(heading, header):
    """The first cells of the table with this header below this heading of FORMATS."""
    behind = FORMATS.partition(f"\n{heading}\n")[2].partition(f"\n{header}\n")[2]
    return FIRST_CELL.findall(behind.partition("\n\n")[0])


def error_lines():
    for form in FORM.findall(FORMATS):
        if " KIND " in form:
            yield from (form.replace("KIND", kind) for kind in words_below("## Tokens", "| kind | when |"))
        elif " WORD " in form:
            yield from (form.replace("WORD", it) for it in words_below("### Limits", "| limit | statement | N |"))
        else:
            yield form
    for path in sorted(DOCS.glob("*.md")):
        yield from PRINTED.findall(path.read_text(encoding="utf-8"))


def main():
    ask = tool(TOP / "tools/ask")
    wanted = [line.split(" ", 2)[1:] for line in error_lines()]
    wanted += [(heading, heading.lower()) for heading in STATUS.findall((DOCS / "ERRORS.md").read_text(encoding="utf-8"))]
    missing = [it for it in wanted if ask.found_and_cure(*it) is None]
    for heading, words in missing:
        print(f"docs/ERRORS.md has no row for {words} under {heading}", file=sys.stderr)
    if not missing:
        print(f"each of {len(wanted)} error lines and statuses has its row in docs/ERRORS.md")
    sys.exit(1 if missing else 0)


if __name__ == "__main__":
    main()
