#!/usr/bin/env python3
"""Measures `make`: a session on a made pipeline of 1, 256 and 1,000 nodes, in memory alone.

Build the program first: `rt run` or `rt ci` leave it in crates/current_cli/out. Given another build of the program, as one from
before a change, it measures that too, in the same run. Each is run five times, and the fastest run counts.
"""
import sys

from running import built_program, fastest

RUNS = 5


def main():
    program = built_program()
    before = sys.argv[1] if len(sys.argv) > 1 else None
    for nodes in (1, 256, 1000):
        ours = fastest(RUNS, [program, "make", str(nodes)])
        line = f"make {nodes}: {ours:.3f} s"
        if before is not None:
            theirs = fastest(RUNS, [before, "make", str(nodes)])
            line += f", before {theirs:.3f} s, ratio {ours / theirs:.2f}"
        print(line)


main()
