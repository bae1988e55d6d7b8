#!/usr/bin/env python3
"""Prints what a check of the repository costs: processor seconds by crate, for the proofs of its code, its tests, its
must-fail edits and the rest.

    bench/cost.py COMMAND WORD..        for example: bench/cost.py rt ci

It runs the command and looks at the prover's processes below it twice a second; a process that lasts less is missed, and
what a longer one does after the last look. docs/COST.md says how to read the table. It ends with the command's status.
"""

import os
import subprocess
import sys
import time

TICKS = os.sysconf("SC_CLK_TCK")
PAUSE = 0.5
KINDS = ("proofs", "tests", "edits", "rest")


def parent_and_seconds(pid):
    """The parent of a process, and the processor seconds that it took so far."""
    with open(f"/proc/{pid}/stat") as stat:
        fields = stat.read().rsplit(")", 1)[1].split()
    return int(fields[1]), (int(fields[11]) + int(fields[12])) / TICKS


def crate_and_kind(pid):
    """The crate that a prover's process works on and what for; None for any other process."""
    with open(f"/proc/{pid}/cmdline") as line:
        words = line.read().split("\0")
    if os.path.basename(words[0]) != "rattle" or "--crate-name" not in words:
        return None
    crate = words[words.index("--crate-name") + 1]
    made = words[words.index("-o") + 1] if "-o" in words else ""
    if "rt-edit" in os.readlink(f"/proc/{pid}/cwd"):
        return crate, "edits"
    if "--test" in words or "tests" in os.path.basename(made):
        return crate, "tests"
    return crate, "proofs" if made.endswith(".rlib") else "rest"


def processes():
    """Each process with its parent, and the prover's with crate, kind and seconds."""
    parents, provers = {}, {}
    for name in filter(str.isdigit, os.listdir("/proc")):
        pid = int(name)
        try:
            parents[pid], seconds = parent_and_seconds(pid)
            key = crate_and_kind(pid)
        except (OSError, ValueError, IndexError):
            continue
        if key:
            provers[pid] = key, seconds
    return parents, provers


def is_below(pid, top, parents):
    while pid and pid != top:
        pid = parents.get(pid, 0)
    return pid == top


def watch(child):
    """The seconds of each crate and kind, until the command ends."""
    total, running = {}, {}

    def count(key, seconds):
        total[key] = total.get(key, 0) + seconds

    while child.poll() is None:
        parents, provers = processes()
        for pid in [pid for pid in running if pid not in provers]:
            count(*running.pop(pid))
        running.update((pid, found) for pid, found in provers.items() if is_below(pid, child.pid, parents))
        time.sleep(PAUSE)
    for found in running.values():
        count(*found)
    return total


def print_table(total):
    def of(crate):
        return [total.get((crate, kind), 0) for kind in KINDS]

    crates = sorted({crate for crate, _ in total}, key=lambda crate: -sum(of(crate)))
    rows = [(crate, of(crate)) for crate in crates]
    rows.append(("all", [sum(row[at] for _, row in rows) for at in range(len(KINDS))]))
    print("\n" + f"{'processor seconds':<20}" + "".join(f"{kind:>9}" for kind in (*KINDS, "all")))
    for crate, row in rows:
        print(f"{crate:<20}" + "".join(f"{seconds:>9.0f}" for seconds in (*row, sum(row))))


def main():
    if len(sys.argv) < 2:
        sys.exit(__doc__)
    began = time.time()
    child = subprocess.Popen(sys.argv[1:])
    print_table(watch(child))
    print(f"wall time: {(time.time() - began) / 60:.1f} minutes")
    sys.exit(child.returncode)


main()
