#!/usr/bin/env python3
"""usage: dev/console.py DOCUMENT..

Runs the console blocks of documents, and compares what each command prints with the lines below it.

A block begins with ```console and ends with ```. In it a line that begins with `$ ` is a command for bash. Lines that begin
with `> ` right behind it continue the command. The lines below, up to the next command or the end of the block, are what it
prints on standard output. Standard error and the status show where the command itself says `2>&1` or `; echo $?`.

All blocks of a document run in their order in one bash, so `cd`, functions and files last. It begins in a folder with fresh
copies of examples/, tools/, docs/, run and crates.txt, and a link to the crates, which are only to be read. `bouquet` on the
path is the proved program of this checkout, crates/bouquet/out/bouquet. Standard input is empty.

Each command that prints something else is named by its document and line, with a diff. The status is 1 where there is one,
where a block can't be read, or where the program isn't there; else 0.
"""
import difflib
import os
import pathlib
import re
import shutil
import signal
import subprocess
import sys
import tempfile

TOP = pathlib.Path(__file__).resolve().parent.parent
PROGRAM = pathlib.Path("crates/bouquet/out/bouquet")
COPIED = ("examples", "tools", "dev", "docs", "run", "crates.txt")
FENCE = re.compile(r"\s*(`{3,})(.*)")
SECONDS = 120


class Unreadable(Exception):
    """Why a document's blocks can't be read."""


class Command:
    """A command: where it stands, its lines without the signs before them, and the lines that it has to print."""

    def __init__(self, line, text):
        self.line = line
        self.lines = [text]
        self.wanted = []

    def continues(self):
        return not self.wanted


def console_blocks(document):
    """The console blocks of a document, each a list of lines with their numbers."""
    fence, block = None, None
    for number, line in enumerate((TOP / document).read_text(encoding="utf-8").splitlines(), 1):
        found = FENCE.fullmatch(line)
        if fence is None and found:
            fence, kind = found[1], found[2].strip().lower()
            if kind == "console" and line != "```console":
                raise Unreadable(f"{document}:{number}: a console block opens with ```console at the line's beginning")
            block = [] if kind == "console" else None
        elif fence and found and len(found[1]) >= len(fence) and not found[2]:
            if block is not None:
                yield block
            fence = None
        elif fence and block is not None:
            block.append((number, line))
    if fence:
        raise Unreadable(f"{document}: its last block has no end")


def commands_of(document):
    commands = []
    for block in console_blocks(document):
        begun = len(commands)
        for number, line in block:
            if line.startswith("$ "):
                commands.append(Command(number, line[2:]))
            elif len(commands) == begun:
                raise Unreadable(f"{document}:{number}: a console block begins with a command")
            elif line.startswith("> ") and commands[-1].continues():
                commands[-1].lines.append(line[2:])
            else:
                commands[-1].wanted.append(line)
    return commands


def make_folder(folder):
    """What a document's commands find."""
    for name in COPIED:
        if (TOP / name).is_dir():
            shutil.copytree(TOP / name, folder / name, ignore=shutil.ignore_patterns("__pycache__"))
        else:
            shutil.copy2(TOP / name, folder / name)
    (folder / "crates").symlink_to(TOP / "crates")


def environment(folder):
    kept = {name: value for name, value in os.environ.items() if name not in ("BASH_ENV", "ENV", "CDPATH")}
    path = f"{TOP / PROGRAM.parent}{os.pathsep}{os.environ['PATH']}"
    return {**kept, "LC_ALL": "C.UTF-8", "PATH": path, "TMPDIR": str(folder.parent)}


def run(commands, room):
    """Runs the commands in one bash. What number n prints is left in the files out.n and err.n of the room."""
    folder = room / "folder"
    make_folder(folder)
    script = []
    for number, command in enumerate(commands):
        (room / f"command.{number}").write_text("\n".join(command.lines) + "\n", encoding="utf-8")
        script.append(f". '{room}/command.{number}' >'{room}/out.{number}' 2>'{room}/err.{number}'\n")
    (room / "script").write_text("".join(script))
    bash = subprocess.Popen(
        ["bash", "--noprofile", "--norc", room / "script"],
        cwd=folder,
        env=environment(folder),
        stdin=subprocess.DEVNULL,
        start_new_session=True,
    )
    try:
        bash.wait(SECONDS)
    except subprocess.TimeoutExpired:
        os.killpg(bash.pid, signal.SIGKILL)
        bash.wait()


def lines_in(path):
    return path.read_bytes().decode(errors="replace").splitlines() if path.is_file() else None


def difference(command, number, room):
    """What is wrong with what a command printed, as lines; none where nothing is."""
    printed, complained = (lines_in(room / f"{kind}.{number}") for kind in ("out", "err"))
    if printed is None:
        return [f"wasn't run: a command before it ended the shell, or took more than {SECONDS} seconds"]
    if printed == command.wanted:
        return []
    diff = difflib.unified_diff(command.wanted, printed, "the document shows", "the command prints", lineterm="")
    return [*diff, *(f"standard error: {line}" for line in complained)]


def compare(document):
    """Whether all commands of a document print what it shows."""
    commands = commands_of(document)
    if not commands:
        return True
    differing = 0
    with tempfile.TemporaryDirectory(prefix="console-") as name:
        room = pathlib.Path(name)
        run(commands, room)
        for number, command in enumerate(commands):
            lines = difference(command, number, room)
            if lines:
                differing += 1
                print(f"{document}:{command.line}: $ {command.lines[0]}", *lines, sep="\n", file=sys.stderr)
    if differing:
        print(f"{document}: {differing} of {len(commands)} commands print something else than it shows", file=sys.stderr)
    else:
        print(f"{document}: its {len(commands)} commands print what it shows")
    return not differing


def main():
    if not os.access(TOP / PROGRAM, os.X_OK):
        sys.exit(f"the proved program {PROGRAM} isn't there, so no console block was run: ./build makes it")
    agree = True
    for document in sys.argv[1:]:
        try:
            agree = compare(document) and agree
        except Unreadable as why:
            print(why, file=sys.stderr)
            agree = False
    sys.exit(0 if agree else 1)


if __name__ == "__main__":
    main()
