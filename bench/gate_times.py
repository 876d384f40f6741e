#!/usr/bin/env python3
"""Runs the gate and prints the processor minutes that it took, crate by crate.

    python3 bench/gate_times.py [WORD..]

runs `bash .ci/run`, or `rt ci WORD..` where words are given, passes its output through, and at the end
prints a table: for each crate the minutes of its proof, of its tests, of its edits, and of its program.
The times are read from /proc every second, so a process that lives for less than that is missed. What
the gate kept from an earlier run takes no time and has no row: `rt ci --anew` keeps nothing.
"""
import collections
import os
import re
import subprocess
import sys
import time

TOP = os.path.dirname(os.path.dirname(os.path.abspath(__file__)))
TICKS = os.sysconf("SC_CLK_TCK")
KINDS = ("proof", "tests", "edits", "program")


def words_of(pid):
    with open(f"/proc/{pid}/cmdline", "rb") as file:
        return file.read().decode(errors="replace").split("\0")


def status_of(pid):
    """The parent, the start and the processor seconds of a process."""
    with open(f"/proc/{pid}/stat") as file:
        fields = file.read().rsplit(")", 1)[1].split()
    return int(fields[1]), fields[19], (int(fields[11]) + int(fields[12])) / TICKS


def is_below(pid, root, parents):
    while pid in parents:
        if pid == root:
            return True
        pid = parents[pid]
    return False


def task_of(pid):
    """The crate and the kind of work of a prover's process; None for another process."""
    words = words_of(pid)
    if os.path.basename(words[0]) != "rattle" or "--crate-name" not in words:
        return None
    crate = words[words.index("--crate-name") + 1]
    if "rt-edit" in os.readlink(f"/proc/{pid}/cwd"):
        return crate, "edits"
    if "--test" in words:
        return crate, "tests"
    return crate, "program" if "src/main.rt" in words else "proof"


def sample(root, seen):
    """Notes for each prover's process below the root what it does, and its processor seconds so far."""
    parents, found = {}, []
    for name in filter(str.isdigit, os.listdir("/proc")):
        try:
            parent, start, seconds = status_of(name)
            parents[int(name)] = parent
            task = task_of(name)
        except OSError:
            continue
        if task:
            found.append((int(name), start, task, seconds))
    for pid, start, task, seconds in found:
        if is_below(pid, root, parents):
            seen[pid, start] = task, seconds


def crates_in_order():
    with open(os.path.join(TOP, "crates.txt"), encoding="utf-8") as file:
        return re.findall(r"^([a-z_]+):", file.read(), re.MULTILINE)


def table(seen):
    sums = collections.Counter()
    for task, seconds in seen.values():
        sums[task] += seconds / 60
    rows = ["| crate | " + " | ".join(KINDS) + " |", "|---" * (len(KINDS) + 1) + "|"]
    for crate in crates_in_order():
        cells = [sums[crate, kind] for kind in KINDS]
        if any(cells):
            rows.append(f"| `{crate}` | " + " | ".join(f"{cell:.1f}" for cell in cells) + " |")
    whole = [sum(minutes for (_, kind), minutes in sums.items() if kind == column) for column in KINDS]
    rows.append("| together | " + " | ".join(f"{cell:.1f}" for cell in whole) + " |")
    return "\n".join(rows)


def main(words):
    call = ["rt", "ci", *words] if words else ["bash", ".ci/run"]
    gate = subprocess.Popen(call, cwd=TOP)
    seen = {}
    while gate.poll() is None:
        sample(gate.pid, seen)
        time.sleep(1)
    print(table(seen))
    return gate.returncode


if __name__ == "__main__":
    sys.exit(main(sys.argv[1:]))
