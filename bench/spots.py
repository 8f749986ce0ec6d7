#!/usr/bin/env python3
"""Prints the instructions at which a program spends its time, with the functions that they are in.

usage: bench/spots.py PROGRAM FOLDER [RUNS [LINES]]

FOLDER is one of those that gen.py of the plain program makes: its file `words` has the program's words, one a line. The program
is run so many times (10) under `perf`, which looks at the clock, and with its addresses fixed (`setarch -R`). An instruction that has many
times as many looks as those around it waits: for memory, for a branch, or for what was written in parts right before and is now
read at once. Beside `perf` it needs `objdump`.
"""
import collections
import os
import re
import subprocess
import sys
import tempfile

# where a program stands whose addresses are fixed
BASE = 0x555555554000


def looks_of(program, folder, runs):
    """How many looks fell on each address of the program, and how many there were in all."""
    with open(os.path.join(folder, "words")) as it:
        words = it.read().split("\n")[:-1]
    with tempfile.TemporaryDirectory() as room:
        data = f"{room}/perf"
        loop = 'for i in $(seq "$0"); do "$@" >/dev/null; done'
        record = ["setarch", "-R", "perf", "record", "-q", "-e", "cpu-clock", "-F", "20000", "-o", data]
        subprocess.run([*record, "sh", "-c", loop, str(runs), program, *words], cwd=folder, check=False, stdout=subprocess.DEVNULL, stderr=subprocess.DEVNULL)
        said = subprocess.run(["perf", "script", "-i", data, "-F", "comm,ip,dso"], capture_output=True, text=True).stdout
    name, looks, total = os.path.basename(program)[:15], collections.Counter(), 0
    for line in said.split("\n"):
        found = re.match(r"\s*(\S+)\s+([0-9a-f]+)\s+\((.*)\)", line)
        if found and found[1] == name:
            total += 1
            if found[3] == program:
                looks[int(found[2], 16) - BASE] += 1
    return looks, total


def instructions_of(program):
    """The program's instructions, each with its address and its function."""
    function = ""
    for line in subprocess.run(["objdump", "-d", "--no-show-raw-insn", program], capture_output=True, text=True).stdout.split("\n"):
        if found := re.match(r"[0-9a-f]+ <(.*)>:$", line):
            function = re.sub("::<#.*", "", found[1])
        elif found := re.match(r"\s*([0-9a-f]+):\s+(.*)", line):
            yield int(found[1], 16), found[2].strip(), function


def main():
    if len(sys.argv) not in (3, 4, 5):
        sys.exit(__doc__)
    program, folder = map(os.path.realpath, sys.argv[1:3])
    given = [int(it) for it in sys.argv[3:]]
    runs, lines = given + [10, 20][len(given) :]
    looks, total = looks_of(program, folder, runs)
    if not total:
        sys.exit("perf saw nothing: is it there, with setarch, and does the program run?")
    rows = sorted(instructions_of(program), key=lambda row: -looks[row[0]])
    print(f"{total / runs / 20:.1f} milliseconds a run")
    for address, text, function in rows[:lines]:
        print(f"{100 * looks[address] / total:5.2f}%  {address:7x}  {text[:50]:50}  {function}")


main()
