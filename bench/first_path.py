#!/usr/bin/env python3
"""Measures `run` on 1,000 nodes with 20,000 lines, beside `cat` writing the same output.

Build the program first: `rt run` or `rt ci` leave it in crates/current_cli/out. Each of the two is
run three times, and the fastest run counts. The peer does no work but to copy the bytes, so the
ratio says how far the program is from the speed of output alone.
"""
import os
import tempfile

from running import built_program, fastest

INPUTS = 250
NODES = 1000
LINES = 20000
RUNS = 3


def pipeline():
    lines = ["pipeline 1"]
    lines += [f'input i{n} text "start"' for n in range(INPUTS)]
    lines += [f"node n{n} (pair (input i{n % INPUTS}) (return {n}))" for n in range(NODES)]
    return "\n".join(lines) + "\n"


def controls():
    return "".join(f'set i{n % INPUTS} "value {n}"\n' for n in range(LINES))


def main():
    program = built_program()
    with tempfile.TemporaryDirectory() as folder:
        file, lines, out, copy = (os.path.join(folder, n) for n in ("p", "lines", "out", "copy"))
        with open(file, "w", encoding="utf-8") as f:
            f.write(pipeline())
        with open(lines, "w", encoding="utf-8") as f:
            f.write(controls())
        ours = fastest(RUNS, [program, "run", file], lines, out)
        peer = fastest(RUNS, ["cat"], out, copy)
        size = os.path.getsize(out)
    print(f"{NODES} nodes, {LINES} lines, {size} bytes of output")
    print(f"run: {ours:.2f} s, {LINES / ours:.0f} lines a second")
    print(f"cat of the same output: {peer:.4f} s; ratio {ours / peer:.0f}")


main()
