#!/usr/bin/env python3
"""Prints the functions whose part of the borrow checker is large in what `rt check` kept: there a body lets go of too much.

usage: bench/parts.py [--from MB] [NAME..]    of these crates, or of all that were checked here; from so many megabytes on (5)

The part follows a body step by step, and grows faster than the values that its early returns let go of. docs/gate.md says what to write
instead. The status is 1 where there is such a function.
"""
import os
import sys

TOP = os.path.dirname(os.path.dirname(os.path.abspath(__file__)))
ENDING = ".Lts.oantt"


def parts(crate):
    """The functions of a crate with the bytes of their parts, the largest first."""
    found = {}
    for at, _, names in os.walk(f"{TOP}/crates/{crate}/out/incremental"):
        for it in names:
            if it.endswith(ENDING):
                name = it.removesuffix(ENDING).replace(f"Rattle-{crate}-proofs.", f"{crate}::").replace(".", "::")
                found[name] = max(found.get(name, 0), os.path.getsize(f"{at}/{it}"))
    return sorted(((size, name) for name, size in found.items()), reverse=True)


def main():
    words, least = sys.argv[1:], 5.0
    if words[:1] == ["--from"] and len(words) > 1:
        least, words = float(words[1]), words[2:]
    if any(it.startswith("-") for it in words):
        sys.exit(__doc__)
    large = [
        f"{size / 1e6:6.1f} MB  {name}"
        for crate in words or sorted(os.listdir(f"{TOP}/crates"))
        for size, name in parts(crate)
        if size >= least * 1e6
    ]
    print("\n".join(large) or f"none from {least:g} MB on")
    return 1 if large else 0


if __name__ == "__main__":
    sys.exit(main())
