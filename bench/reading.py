#!/usr/bin/env python3
"""Measures `run` on two files without lines, beside `ninja -n` on build files of as many statements.

One file is nearly 1 MiB, most of it texts; the other has 1,000 nodes and 4,096 terms. Each run starts
the program, reads, checks, evaluates and prints version 1. Build the program first: `rt run` or
`rt ci` leave it in crates/current_cli/out. Each is run five times, and the fastest run counts. Where
ninja is missing the ratio is left out.
"""
import os
import shutil
import tempfile

from running import built_program, fastest

RUNS = 5


def texts():
    lines = ["pipeline 1"]
    lines += [f'input i{n} text "{"x" * 65000}"' for n in range(16)]
    lines += [f"node n{n} (map length (input i{n}))" for n in range(16)]
    return lines


def terms():
    lines = ["pipeline 1", 'input t text "start"']
    # 32 nodes of 7 terms and 968 of 4: 4,096 terms
    equal = '(map equal (pair (input t) (return "start")))'
    for n in range(1000):
        term = f"(all {equal} (return unit) (return unit))" if n < 32 else equal
        lines.append(f"node n{n} {term}")
    return lines


def ninja_file(statements):
    lines = ["rule f", "  command = true"]
    lines += [f"build o{n}: f" for n in range(statements)]
    return "\n".join(lines) + "\n"


def main():
    program = built_program()
    for name, lines in (("texts", texts()), ("terms", terms())):
        with tempfile.TemporaryDirectory() as folder:
            file = os.path.join(folder, "p")
            with open(file, "w", encoding="utf-8") as f:
                f.write("\n".join(lines) + "\n")
            with open(os.path.join(folder, "build.ninja"), "w", encoding="utf-8") as f:
                f.write(ninja_file(len(lines) - 1))
            ours = fastest(RUNS, [program, "run", file])
            said = f"{name}: {os.path.getsize(file)} bytes, {len(lines) - 1} statements, {ours * 1000:.1f} ms"
            if shutil.which("ninja"):
                peer = fastest(RUNS, ["ninja", "-n"], folder=folder)
                said += f"; ninja -n {peer * 1000:.1f} ms, ratio {ours / peer:.2f}"
            print(said)


main()
