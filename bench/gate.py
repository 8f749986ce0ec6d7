#!/usr/bin/env python3
"""Prints what each crate cost in a run of the gate: its proof, its tests and its must-fail edits.

usage: bench/gate.py [RECORD]             runs `rt ci` at the top of the repository, beside which it looks
       bench/gate.py --beside PID RECORD  looks at a run that is under way, the process PID, until that ends
       bench/gate.py --table RECORD       prints the table of a record, also of a run that was cut off

Once a second it adds up the processor time of the prover's processes, since rt prints no times. RECORD (default: a file in
a new folder) takes a line for each task, and is written anew each minute; RECORD.log takes what `rt ci` prints. The table has
minutes of one processor for each crate, how many edits were tried, and the minutes on the wall from the first to the last task.
The status is that of `rt ci`.
"""
import collections
import os
import subprocess
import sys
import tempfile
import time

TICK = os.sysconf("SC_CLK_TCK")
PARTS = ("proof", "tests", "edits")


def descendants(root):
    """The processes below this one, with the seconds that each has used, without those of its children."""
    below, used = collections.defaultdict(list), {}
    for pid in filter(str.isdigit, os.listdir("/proc")):
        try:
            with open(f"/proc/{pid}/stat") as it:
                fields = it.read().rpartition(")")[2].split()
        except OSError:
            continue
        below[int(fields[1])].append(int(pid))
        used[int(pid)] = (int(fields[11]) + int(fields[12])) / TICK, int(fields[19])
    found, left = {}, [root]
    while left:
        for pid in below[left.pop()]:
            found[pid] = used[pid]
            left.append(pid)
    return found


def task_of(pid):
    """The crate that a process of the prover works on, and what it does there; or none."""
    try:
        with open(f"/proc/{pid}/cmdline", "rb") as it:
            words = it.read().decode(errors="replace").split("\0")
        folder = os.readlink(f"/proc/{pid}/cwd")
    except OSError:
        return None
    if "--crate-name" not in words or os.path.basename(words[0]) != "rattle":
        return None
    crate = words[words.index("--crate-name") + 1]
    # an edit is tried on a copy of its crate
    if "/crates/" not in folder:
        return crate, "edits"
    return crate, "tests" if "--test" in words else "proof"


class Record:
    """The tasks of a run: for each process of the prover what it did, its seconds, and when it was seen first and last."""

    def __init__(self, path):
        self.path, self.rows = path, {}

    def look(self, root):
        now = time.time()
        for pid, (seconds, begun) in descendants(root).items():
            key = f"{pid}.{begun}"
            if key in self.rows:
                self.rows[key][2:] = [seconds, self.rows[key][3], now]
            elif task := task_of(pid):
                self.rows[key] = [*task, seconds, now, now]

    def write(self):
        with open(self.path + ".new", "w") as out:
            for key, (crate, part, seconds, first, last) in self.rows.items():
                out.write(f"{crate} {part} {seconds:.2f} {first:.0f} {last:.0f} {key}\n")
        os.replace(self.path + ".new", self.path)

    def read(self):
        with open(self.path) as lines:
            for crate, part, seconds, first, last, key in map(str.split, lines):
                self.rows[key] = [crate, part, float(seconds), float(first), float(last)]
        return self

    def table(self):
        total, count = collections.Counter(), collections.Counter()
        for crate, part, seconds, _, _ in self.rows.values():
            total[crate, part] += seconds
            count[crate] += part == "edits"
        crates = sorted({crate for crate, _ in total}, key=lambda it: -sum(total[it, part] for part in PARTS))
        print(f"{'crate':<24}" + "".join(f"{part:>8}" for part in (*PARTS, "all")) + "  tried   (minutes of one processor)")
        rows = [(crate, [total[crate, part] for part in PARTS], count[crate]) for crate in crates]
        rows.append(("all", [sum(total[crate, part] for crate in crates) for part in PARTS], sum(count.values())))
        for name, parts, tried in rows:
            print(f"{name:<24}" + "".join(f"{seconds / 60:8.1f}" for seconds in (*parts, sum(parts))) + f"{tried:7}")
        wall = max(row[4] for row in self.rows.values()) - min(row[3] for row in self.rows.values()) if self.rows else 0
        print(f"{wall / 60:.0f} minutes on the wall, on {os.cpu_count()} processors")


def watch(record, root, goes_on):
    """Looks once a second until the gate has ended."""
    looks = 0
    while goes_on():
        record.look(root)
        looks += 1
        if looks % 60 == 0:
            record.write()
        time.sleep(1)
    record.write()


def run(path):
    top = os.path.dirname(os.path.dirname(os.path.abspath(__file__)))
    print(f"the record: {path}; the gate's own output: {path}.log", flush=True)
    record = Record(path)
    with open(f"{path}.log", "wb") as out:
        gate = subprocess.Popen(["rt", "ci"], cwd=top, stdin=subprocess.DEVNULL, stdout=out, stderr=subprocess.STDOUT)
        watch(record, gate.pid, lambda: gate.poll() is None)
    record.table()
    with open(f"{path}.log", "rb") as it:
        print(it.read().decode(errors="replace").rstrip("\n").split("\n")[-1])
    return gate.returncode


def main():
    words = sys.argv[1:]
    if len(words) == 3 and words[0] == "--beside":
        record = Record(words[2])
        watch(record, int(words[1]), lambda: os.path.exists(f"/proc/{words[1]}"))
        record.table()
        return 0
    if len(words) == 2 and words[0] == "--table":
        Record(words[1]).read().table()
        return 0
    return run(words[0] if words else os.path.join(tempfile.mkdtemp(), "gate"))


if __name__ == "__main__":
    sys.exit(main())
