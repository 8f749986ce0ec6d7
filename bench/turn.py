#!/usr/bin/env python3
"""Runs the built program and another one in turn on each input of a folder, and prints a row of a table for each.

usage: bench/turn.py FOLDER OTHER [PROGRAM [PART]]

FOLDER has a folder for each input: its files, and `words` with the words of the command, one a line. PROGRAM is the built program
(default: crates/planplus/out/planplus); with PART only the inputs are run that have it in their name. The time is that of user and
system together. The programs run 7 to 61 times, about two seconds and a half to each input: the seconds are the least of PROGRAM's, the
ratio is the median of those of single rounds. The megabytes are the peaks of one run of each, of which `time` of GNU tells. A last column
names inputs on which the two write something else, or end with another status; the status is 0 where there is none.
"""
import hashlib
import os
import statistics
import subprocess
import sys
import tempfile

TOP = os.path.dirname(os.path.dirname(os.path.abspath(__file__)))
SECONDS = 2.5
FEWEST, MOST = 7, 61


def seconds(program, words, folder):
    """The seconds of one run, whose output is thrown away."""
    child = subprocess.Popen(
        [program] + words, cwd=folder, stdin=subprocess.DEVNULL, stdout=subprocess.DEVNULL, stderr=subprocess.DEVNULL
    )
    _, _, usage = os.wait4(child.pid, 0)
    child.returncode = 0
    return usage.ru_utime + usage.ru_stime


def megabytes(program, words, folder):
    """The peak of memory of one run, whose output is thrown away. A child of a small program, whose own memory counts for nothing."""
    with tempfile.NamedTemporaryFile("r") as told:
        command = ["time", "-q", "-f", "%M", "-o", told.name, program] + words
        subprocess.run(command, cwd=folder, stdin=subprocess.DEVNULL, stdout=subprocess.DEVNULL, stderr=subprocess.DEVNULL, check=False)
        return int(told.read()) / 1000


def answer(program, words, folder):
    """The status of a run, and a sum of what it writes."""
    ran = subprocess.run([program] + words, cwd=folder, stdin=subprocess.DEVNULL, stdout=subprocess.PIPE, stderr=subprocess.DEVNULL)
    return ran.returncode, hashlib.sha256(ran.stdout).hexdigest()


def row(name, folder, other, program):
    """The row of an input, and whether the programs answer the same."""
    with open(os.path.join(folder, "words"), encoding="utf-8") as file:
        words = file.read().split("\n")[:-1]
    is_same = answer(other, words, folder) == answer(program, words, folder)
    rounds = max(FEWEST, min(MOST, int(SECONDS / max(2 * seconds(program, words, folder), 0.002))))
    pairs = [(seconds(other, words, folder), seconds(program, words, folder)) for _ in range(rounds)]
    least = min(ours for _, ours in pairs)
    ratio = statistics.median(ours / max(theirs, 1e-9) for theirs, ours in pairs)
    peak, other_peak = (megabytes(it, words, folder) for it in (program, other))
    return f"| {name} | {least:.4f} | {ratio:.2f} | {peak:.1f} | {other_peak:.1f} | {'' if is_same else 'differs'} |", is_same


def main():
    words = sys.argv[1:]
    if not 2 <= len(words) <= 4:
        sys.exit(__doc__.split("\n\n")[1])
    top, other = map(os.path.abspath, words[:2])
    program = os.path.abspath(words[2]) if len(words) > 2 else os.path.join(TOP, "crates/planplus/out/planplus")
    part = words[3] if len(words) > 3 else ""
    print("| input | seconds | ratio | MB | MB of the other | |\n|---|---|---|---|---|---|")
    all_same = True
    for name in sorted(os.listdir(top)):
        if part in name:
            text, is_same = row(name, os.path.join(top, name), other, program)
            all_same &= is_same
            print(text, flush=True)
    sys.exit(0 if all_same else 1)


main()
