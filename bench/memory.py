#!/usr/bin/env python3
"""Runs the built program again and again, each time with one allocation refused: the first, then the second, and so on.

usage: bench/memory.py [PROGRAM [WORD ..]]

PROGRAM is the built program (default: crates/planplus/out/planplus), the words are a command (default: a check of the kettle's
plan). `malloc` and `realloc` together answer null at their Nth call and at no other, by a library that gcc builds in a folder of
its own and that is loaded before the C library. Each run has to end by itself: either as without any refusal, or with the
status of want of memory, and then what it wrote is a first part of what it writes otherwise, without its last line. The status
is 0 where all runs did.
"""
import os
import pathlib
import subprocess
import sys
import tempfile

REFUSER = r"""
#define _GNU_SOURCE
#include <dlfcn.h>
#include <stdlib.h>
static long left = -1;
__attribute__((constructor)) static void begin(void) {
    const char *word = getenv("REFUSED_ALLOCATION");
    left = word ? atol(word) : 0;
}
void *malloc(size_t size) {
    static void *(*real)(size_t);
    if (!real) real = dlsym(RTLD_NEXT, "malloc");
    if (left > 0 && --left == 0) return 0;
    return real(size);
}
void *realloc(void *block, size_t size) {
    static void *(*real)(void *, size_t);
    if (!real) real = dlsym(RTLD_NEXT, "realloc");
    if (left > 0 && --left == 0) return 0;
    return real(block, size);
}
"""
NO_MEMORY = 7
TOP = pathlib.Path(__file__).resolve().parent.parent
KETTLE = ["check", *(f"{TOP}/examples/kettle/{it}" for it in ("domain.pddl", "problem.pddl", "tea.plan"))]


def run(words, library, number):
    """What the program does where the allocation with this number is refused; with 0 none is."""
    told = {**os.environ, "LD_PRELOAD": library, "REFUSED_ALLOCATION": str(number)}
    return subprocess.run(words, env=told, stdout=subprocess.PIPE, stderr=subprocess.PIPE, timeout=60, check=False)


def wrong(ran, whole):
    """Why a run is none of those that may be, or nothing."""
    if ran.returncode == whole.returncode:
        return None if ran.stdout == whole.stdout else "the same status with other bytes"
    if ran.returncode != NO_MEMORY:
        return f"status {ran.returncode}"
    last = whole.stdout.rstrip(b"\n").rfind(b"\n") + 1
    return None if whole.stdout[:last].startswith(ran.stdout) else "no first part of the report"


def main():
    words = sys.argv[1:] or [f"{TOP}/crates/planplus/out/planplus"]
    words = words if len(words) > 1 else [*words, *KETTLE]
    with tempfile.TemporaryDirectory() as folder:
        source, library = f"{folder}/refuser.c", f"{folder}/refuser.so"
        pathlib.Path(source).write_text(REFUSER, encoding="utf-8")
        subprocess.run(["gcc", "-shared", "-fPIC", "-O1", "-o", library, source], check=True)
        whole = run(words, library, 0)
        number, same, faults, written = 0, 0, 0, set()
        # behind the last allocation nothing is refused: a stretch of runs that all end as without a refusal
        while same < 50:
            number += 1
            ran = run(words, library, number)
            why = wrong(ran, whole)
            same = same + 1 if ran.returncode == whole.returncode else 0
            written.add(len(ran.stdout))
            if why:
                faults += 1
                print(f"allocation {number}: {why}")
    print(f"{number - same} allocations refused, {faults} runs wrong; {len(written)} lengths of what was written")
    return 1 if faults else 0


if __name__ == "__main__":
    sys.exit(main())
