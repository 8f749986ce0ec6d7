#!/usr/bin/env python3
"""Prints what the proof of each function of a crate took, and how much of that the borrow checker's part.

usage: bench/functions.py FOLDER [N]   the N (20) dearest, as bench/functions.py crates/plus_types/out/incremental

FOLDER is what `rt check NAME --jobs 1` leaves behind a check from nothing (remove it before), or a copy of it. The prover writes a file
there as soon as a module is checked, one after the other: so the seconds from the file before are what the module took,
on the wall, which says little where the processors are busy. A large crate is checked in batches, whose files come out of
order: for that one take a folder that `rattle check --incremental FOLDER` wrote by itself, or the base of its edits, which
stands under /tmp/rt-edits-* while `rt ci` tries them. A module belongs to the function in its name; those below `Lts` are
the borrow checker's part of a proof. What stands under `specs` is read and stated once for all functions.
"""
import collections
import os
import re
import sys

NAME = re.compile(r"Rattle-(\w+)-(specs|proofs)\.(.*)\.oantt")


def written(folder):
    """The files of checked modules, and when each was written, the first one first."""
    found = []
    for at, _, names in os.walk(folder):
        if at.endswith("-offers") or "/records" in at:
            continue
        found += [(os.stat(os.path.join(at, it)).st_mtime, it) for it in names if it.endswith(".oantt")]
    return sorted(found)


def function_of(file):
    """The function that a module's file belongs to, or the crate's statements, and whether it is the borrow checker's part."""
    named = NAME.match(file)
    if not named or named[2] == "specs":
        return "statements and libraries", False
    path = named[3].split(".")
    borrows = next((at for at, it in enumerate(path) if it.startswith("Lts")), None)
    path = path[:borrows]
    # behind a function's name come the parts of its proof, in capitals; a file of lemmas has no other name
    last = max((at for at, it in enumerate(path) if not it[:1].isupper()), default=len(path) - 1)
    return ".".join(path[: last + 1]), borrows is not None


def main(folder, most=20):
    total, borrows, before = collections.Counter(), collections.Counter(), None
    for moment, file in written(folder):
        if before is not None:
            name, is_borrows = function_of(file)
            total[name] += moment - before
            borrows[name] += is_borrows * (moment - before)
        before = moment
    print(f"{'function or proof file':60} {'seconds':>8} {'borrows':>8}")
    for name, seconds in total.most_common(int(most)):
        print(f"{name[:60]:60} {seconds:8.1f} {borrows[name]:8.1f}")
    print(f"{'all':60} {sum(total.values()):8.1f} {sum(borrows.values()):8.1f}")


if __name__ == "__main__":
    if len(sys.argv) not in (2, 3):
        sys.exit(__doc__)
    main(*sys.argv[1:])
