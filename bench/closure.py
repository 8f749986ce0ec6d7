#!/usr/bin/env python3
"""Prints what the statement of a contract stands on: the files of definitions that it cites, and those that they cite.

usage: bench/closure.py FILE.rt FUNCTION      as bench/closure.py crates/plus_run/src/run.rt run

It follows the imports of the words that the function's contract uses, through specs/ and through the models of the types
that are declared in code, and counts for each crate the files, the lines of definitions (imports left out) and the lines of
comment. Imports of std are not followed. It reads text and proves nothing.
"""
import collections
import os
import re
import sys

TOP = os.path.dirname(os.path.dirname(os.path.abspath(__file__)))
USE = re.compile(r"(?m)^\s*(?:pub |unfoldable |ghost )*use\s+(Rattle\.[\w.«»]+)(?:\.\{([^}]*)\})?(?:\s+as\s+(\S+?))?;?\s*$")


def text_of(path):
    with open(path, encoding="utf-8") as it:
        return it.read()


def imports(text):
    """The imports of a text: a module's path, and the words by which it is known there, or none for a module by itself."""
    for path, names, alias in USE.findall(text):
        words = [it.split(" as ")[-1].strip() for it in names.split(",") if it.strip()]
        yield path, ([alias] if alias else words) or [path.rpartition(".")[2]]


def file_of(path):
    """The file of definitions that an import names, and the rest of its path; or the type that is declared in code."""
    parts = path.split(".")
    if len(parts) < 4 or parts[2] != "specs" or not os.path.isdir(f"{TOP}/crates/{parts[1]}"):
        return None
    if parts[3] == "declared":
        return "type", parts[1], [it for it in parts[4:] if it != "TheVariants"]
    for end in range(len(parts), 3, -1):
        file = f"crates/{parts[1]}/specs/{'/'.join(parts[3:end])}.antt"
        if os.path.isfile(f"{TOP}/{file}"):
            return "file", parts[1], file
    return None


def model_of(crate, parts):
    """The text of the model of a type that is declared in code, where it has one."""
    *folders, name = parts
    base = f"{TOP}/crates/{crate}/src/{'/'.join(folders)}"
    for file in (f"{base}.rt", f"{base}/mod.rt", f"{TOP}/crates/{crate}/src/lib.rt", f"{TOP}/crates/{crate}/src/main.rt"):
        if os.path.isfile(file):
            found = re.search(rf"(?ms)^impl[^\n]*\bModel for {name}\b.*?^}}", text_of(file))
            if found:
                return found[0]
    return ""


def contract_of(file, function):
    """The text of a file, and its part from a function's name to its body, which may be empty."""
    text = text_of(file)
    found = re.search(rf"(?ms)^[ \t]*(?:pub )?fn {function}\b.*?^[ \t]*{{}}?$", text)
    if not found:
        sys.exit(f"{file} has no function {function} with a body that begins on a line of its own")
    return text, found[0]


def closure(text, cited):
    words = set(re.findall(r"[^\s(){}\[\],;]+", cited))
    left = [path for path, names in imports(text) if any(it in words or f"{it}." in cited for it in names)]
    files, types = {}, set()
    while left:
        found = file_of(left.pop())
        if found and found[0] == "file" and found[2] not in files:
            files[found[2]] = text_of(f"{TOP}/{found[2]}")
            left += [path for path, _ in imports(files[found[2]])]
        elif found and found[0] == "type" and (found[1], *found[2]) not in types:
            types.add((found[1], *found[2]))
            left += [path for path, _ in imports(model_of(found[1], found[2]))]
    return files, types


def main():
    if len(sys.argv) != 3:
        sys.exit(__doc__)
    files, types = closure(*contract_of(sys.argv[1], sys.argv[2]))
    rows = collections.defaultdict(lambda: [0, 0, 0])
    for file, text in files.items():
        lines = [it.strip() for it in text.split("\n") if it.strip() and not re.match(r"\s*(pub |unfoldable )*(use|mod)\s", it)]
        comments = sum(it.startswith("--") for it in lines)
        row = rows[file.split("/")[1]]
        row[0], row[1], row[2] = row[0] + 1, row[1] + len(lines) - comments, row[2] + comments
    print(f"{'crate':<18}{'files':>6}{'lines':>7}{'comments':>10}")
    for name, row in sorted(rows.items(), key=lambda it: -it[1][1]):
        print(f"{name:<18}{row[0]:6}{row[1]:7}{row[2]:10}")
    print(f"{'all':<18}" + "".join(f"{sum(row[k] for row in rows.values()):{w}}" for k, w in ((0, 6), (1, 7), (2, 10))))
    print(f"{len(types)} types that are declared in code")


if __name__ == "__main__":
    main()
