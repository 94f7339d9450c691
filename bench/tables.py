#!/usr/bin/env python3
"""Measures the pools and the rows: 100,000 calls of each kind over 100, 1,000 and 10,000 that stand.

The programs of tables/ are built by `rt try`, which proves nothing and builds with checks, so the
times are those of a checked build; what counts is how they grow. A round of the pools is a submit, a
pick and the withdrawal of the new ticket; the rows have gets, puts in place of a row, and dues that
answer one row each.
"""
import os
import shutil
import subprocess
import tempfile

ROUNDS = 100_000
PROGRAMS = {
    "pools": ["value_core", "op_keys", "fair_pool"],
    "rows": ["value_core", "op_keys", "sched_rows"],
}
LINES = {
    "value_core": "value_core: sqlite_items",
    "op_keys": "op_keys: value_core",
    "fair_pool": "fair_pool: value_core op_keys",
    "sched_rows": "sched_rows: value_core op_keys jiff_core",
}


def output(top, folder, name):
    below = PROGRAMS[name]
    for crate in below:
        shutil.copytree(
            os.path.join(top, "crates", crate),
            os.path.join(folder, "crates", crate),
            ignore=shutil.ignore_patterns("out", "must-fail"),
        )
    ours = os.path.join(folder, "crates", f"{name}_timed")
    os.makedirs(os.path.join(ours, "src"))
    shutil.copy(os.path.join(top, "bench", "tables", f"{name}.rattle"), os.path.join(ours, "src", "main.rt"))
    with open(os.path.join(folder, "crates.txt"), "w", encoding="utf-8") as f:
        f.write("\n".join(LINES[crate] for crate in below))
        f.write(f"\n{name}_timed: {' '.join(below)}\n")
    run = subprocess.run(["rt", "try", "--seconds", "600"], cwd=ours, capture_output=True, text=True, check=False)
    return run.stdout


def main():
    top = os.path.dirname(os.path.dirname(os.path.abspath(__file__)))
    first = {}
    for name in PROGRAMS:
        with tempfile.TemporaryDirectory() as folder:
            for line in output(top, folder, name).splitlines():
                words = line.split()
                if len(words) == 3 and words[0] in ("pools", "gets", "puts", "dues"):
                    what, count, took = words[0], int(words[1]), int(words[2])
                    first.setdefault(what, took)
                    each = took / ROUNDS
                    print(f"{what} over {count}: {each:.2f} microseconds a call, {took / max(first[what], 1):.2f} times those over 100")


main()
