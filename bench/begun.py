"""How many executions of plans a program begins over a script: valgrind counts the calls of the function that begins one."""
import os
import re
import subprocess
import sys
import tempfile

from beside_sqlite import DATA

CALLER, CALLED = "exec_pipe::engine::Engine::execute", "exec_pipe::start::start"


def calls(path, caller, called):
    """How often one function called another, by a file that callgrind wrote."""
    names, at, to, count = {}, "", "", 0
    with open(path, encoding="utf-8", errors="replace") as lines:
        for line in lines:
            if named := re.match(r"(c?)fn=\((\d+)\)(?: (.*))?", line):
                is_call, number, name = named.groups()
                name = names.setdefault(number, name)
                at, to = (at, name) if is_call else (name, "")
            elif line.startswith("calls=") and (at, to) == (caller, called):
                count += int(line[len("calls="):].split()[0])
    return count


def executions_begun(program, script):
    """How many executions the program begins over a script of the folder of data."""
    with tempfile.TemporaryDirectory() as folder:
        path = os.path.join(folder, "counts")
        words = ["valgrind", "--tool=callgrind", f"--callgrind-out-file={path}", program]
        done = subprocess.run(words, cwd=DATA, input=script, stdout=subprocess.DEVNULL, stderr=subprocess.PIPE, text=True)
        if done.returncode:
            sys.exit(f"begun: {done.stderr.strip()[-300:]}")
        return calls(path, CALLER, CALLED)
