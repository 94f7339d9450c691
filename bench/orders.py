#!/usr/bin/env python3
"""Measures 1,000 orders `echo one` through `run`, beside a bare posix_spawn loop in C, make, and ninja with one job.

Build the program first: `rt run` or `rt ci` leave it in crates/current_cli/out. A pipeline builds each item of a list, and lines
set the list to other items: once one item a line, and once 100, all of which are evaluated again after each order that is taken
or ends. make and ninja have as many targets, each made by the same command. Each is run five times, and the fastest run counts; a
peer that isn't installed is left out.
"""
import os
import shutil
import subprocess
import sys
import tempfile

from running import built_program, fastest

ORDERS = 1000
ITEMS = [1, 100]
RUNS = 5
HERE = os.path.dirname(os.path.abspath(__file__))


def items(first, count):
    return "[" + ", ".join(f'"{n}"' for n in range(first, first + count)) + "]"


def pipeline(count):
    return f"""pipeline 1
input items list {items(0, count)}
pool p hold 0
client c p 1
worker w p 1
op f build pool p client c cost 1 0 run "echo" "one"
node built (list_map item (input items) (build f (var item)))
"""


def lines(count):
    return "".join(f"set items {items(first, count)}\n" for first in range(count, ORDERS, count))


def written(folder, name, text):
    path = os.path.join(folder, name)
    with open(path, "w", encoding="utf-8") as f:
        f.write(text)
    return path


def spawn_loop(folder):
    program = os.path.join(folder, "spawn")
    subprocess.run(["cc", "-O2", "-o", program, os.path.join(HERE, "orders", "spawn.c")], check=True)
    return [program, str(ORDERS)]


def make_words(folder):
    targets = " ".join(f"t{n}" for n in range(ORDERS))
    return ["make", "-f", written(folder, "makefile", f".PHONY: all {targets}\nall: {targets}\n{targets}:\n\t@echo one\n")]


def ninja_words(folder):
    rules = "rule echo\n  command = echo one\n"
    targets = "".join(f"build t{n}: echo\n" for n in range(ORDERS))
    return ["ninja", "-j1", "-f", written(folder, "build.ninja", rules + targets)]


PEERS = [("a posix_spawn loop", "cc", spawn_loop), ("make", "make", make_words), ("ninja -j1", "ninja", ninja_words)]


def orders(program, folder, count):
    """The seconds of a session of all orders, so many of them for each line."""
    file, given, out = written(folder, "p", pipeline(count)), written(folder, "lines", lines(count)), os.path.join(folder, "out")
    took = fastest(RUNS, [program, "run", file], given, out)
    with open(out, encoding="utf-8") as f:
        ended = sum(1 for line in f if line.startswith("end ") and line.endswith(" ok\n"))
    if ended != ORDERS:
        sys.exit(f"{ended} orders ended")
    return took


def main():
    program = built_program()
    with tempfile.TemporaryDirectory() as folder:
        ours = [(count, orders(program, folder, count)) for count in ITEMS]
        for count, took in ours:
            print(f"run, {count} for each line: {took:.2f} s, {1e6 * took / ORDERS:.0f} microseconds an order")
        for name, tool, words in PEERS:
            if shutil.which(tool):
                peer = fastest(RUNS, words(folder), folder=folder)
                ratios = ", ".join(f"{took / peer:.2f}" for _, took in ours)
                print(f"{name}: {peer:.2f} s; ratios {ratios}")


main()
