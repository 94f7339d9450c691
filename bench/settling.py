#!/usr/bin/env python3
"""Measures settlings beside a sort of as many triples, and how takes and finishes grow.

1,000 wanted triples with 1,000 live jobs, of which each is wanted: a settling with nothing to do, and
one with a new triple. Takes and finishes over 100 and 10,000 queued jobs. The program of settling/ is
built by `rt try`, which proves nothing and builds with checks; each time is the fastest of a hundred,
all in one run, and what counts are the ratios.
"""
import subprocess
import tempfile

from running import laid_out

BELOW = ["value_core", "op_keys", "term_core", "sched_rows", "fair_pool", "core_rules", "job_core"]
WHAT = ["a sort of 1,000 triples", "a settling with nothing to do", "a settling with one new triple",
        "50 takes and finishes at 100 queued", "50 takes and finishes at 10,000 queued"]


def times(folder):
    ours = laid_out(folder, BELOW, "settling_timed", "settling")
    run = subprocess.run(["rt", "try", "--seconds", "600"], cwd=ours, capture_output=True, text=True, check=False)
    found = [line.split() for line in run.stdout.splitlines()]
    took = [int(words[1]) for words in found if len(words) == 2 and words[0].isdigit() and words[1].isdigit()]
    if len(took) != len(WHAT):
        raise SystemExit(run.stdout + run.stderr)
    return took


def main():
    with tempfile.TemporaryDirectory() as folder:
        took = times(folder)
    for what, micros in zip(WHAT, took):
        print(f"{what}: {micros} microseconds")
    print(f"nothing to do, to a sort: {took[1] / took[0]:.2f}")
    print(f"one new triple, to a sort: {took[2] / took[0]:.2f}")
    print(f"takes and finishes, 10,000 to 100 queued: {took[4] / took[3]:.2f}")


main()
