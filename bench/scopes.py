#!/usr/bin/env python3
"""Measures the closing of one scope of one item among 100 and among 10,000 open scopes of one item each.

The newest scope and the oldest, all in one run. The program of scopes/ is built by `rt try`, which proves
nothing and builds with checks; each time is the fastest of a hundred, and what counts are the ratios.
"""
import subprocess
import tempfile

from running import laid_out

WHAT = ["newest of 100", "oldest of 100", "newest of 10,000", "oldest of 10,000"]


def times(folder):
    ours = laid_out(folder, ["scope_pool"], "scopes_timed", "scopes")
    run = subprocess.run(["rt", "try", "--seconds", "600"], cwd=ours, capture_output=True, text=True, check=False)
    found = [line.split() for line in run.stdout.splitlines()]
    took = [int(words[1]) for words in found if len(words) == 2 and words[0].isdigit() and words[1].isdigit()]
    if len(took) != len(WHAT):
        raise SystemExit(run.stdout + run.stderr)
    return took


def main():
    with tempfile.TemporaryDirectory() as folder:
        took = times(folder)
    for what, nanos in zip(WHAT, took):
        print(f"closing the {what}: {nanos} nanoseconds")
    print(f"newest, among 10,000 to among 100: {took[2] / took[0]:.2f}")
    print(f"oldest, among 10,000 to among 100: {took[3] / took[1]:.2f}")


main()
