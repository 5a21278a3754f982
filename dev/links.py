#!/usr/bin/env python3
"""usage: dev/links.py DOCUMENT..

Looks whether each relative link of these documents leads to a file or a folder of the repository and, where it has an anchor
into a document, to a heading there. A heading's anchor is the one that GitHub gives it: in lower case, without any sign but
`-` and `_`, with `-` for each space, and a number behind it where the same one stood before. Links in code are none, and
other sites aren't asked. Each link that leads nowhere is named by its document and line; then the status is 1, else 0.
"""
import functools
import pathlib
import re
import sys

TOP = pathlib.Path(__file__).resolve().parent.parent
LINK = re.compile(r"\]\(([^()\s]+)\)|^\[[^\]]+\]:\s+(\S+)")
CODE = re.compile(r"(`+)(.+?)\1(?!`)")
FENCE = re.compile(r"\s*(`{3,})(.*)")
HEADING = re.compile(r"#{1,6} +(.*?)[ #]*")
OTHER_SITE = re.compile(r"[a-z]+:")


def lines_of(path):
    """The numbered lines that stand in no fenced block."""
    fence = None
    for number, line in enumerate(path.read_text(encoding="utf-8").splitlines(), 1):
        found = FENCE.fullmatch(line)
        if fence is None and found:
            fence = found[1]
        elif fence is None:
            yield number, line
        elif found and len(found[1]) >= len(fence) and not found[2]:
            fence = None


@functools.cache
def anchors(path):
    found, count = set(), {}
    for _, line in lines_of(path):
        heading = HEADING.fullmatch(line)
        if heading:
            text = re.sub(r"\]\([^()]*\)", "]", heading[1]).lower()
            anchor = re.sub(r"[^\w\- ]", "", text).replace(" ", "-")
            found.add(f"{anchor}-{count[anchor]}" if anchor in count else anchor)
            count[anchor] = count.get(anchor, 0) + 1
    return found


def fault(document, target):
    """Why a link leads nowhere, or None."""
    name, _, anchor = target.partition("#")
    path = (document.parent / name).resolve() if name else document
    if TOP not in (path, *path.parents):
        return "leads out of the repository"
    if not path.exists():
        return "leads to no file"
    if anchor and path.suffix == ".md" and anchor not in anchors(path):
        return "leads to no heading"
    return None


def main():
    count, faults = 0, 0
    for name in sys.argv[1:]:
        document = TOP / name
        for number, line in lines_of(document):
            for target in filter(None, (it for found in LINK.findall(CODE.sub("", line)) for it in found)):
                if OTHER_SITE.match(target):
                    continue
                count += 1
                why = fault(document, target)
                if why:
                    faults += 1
                    print(f"{name}:{number}: the link {target} {why}", file=sys.stderr)
    if not faults:
        print(f"each of {count} links leads somewhere")
    sys.exit(1 if faults else 0)


if __name__ == "__main__":
    main()
