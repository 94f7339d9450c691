#!/usr/bin/env python3
"""Measures events at 10 and at 1,000 nodes, and orders at 100 and at 10,000 queued jobs, each pair as a ratio in one run.

Build the program first: `rt run` or `rt ci` leave it in crates/current_cli/out. An event is the time of a session with the lines
less that of one without them, by the number of lines; it touches one node, and the others stay as they are. Each session is run
three times, and the fastest counts. Orders name a command that isn't there, so that one is taken and ends without a child's run;
what counts is the time from the first end that is printed to the end of the twentieth order after it.
"""
import os
import subprocess
import tempfile
import time

from running import built_program, fastest

NODES = [10, 1000]
EVENTS = 250
HELD = 25
ORDERS = 20
QUEUED = [100, 10000]
ITEMS = 250
RUNS = 3

OPERATIONS = """pool p hold 0
client c p 1
worker w p 1
op danger build pool p client c cost 1 0 level dangerous run "none" "{key}"
op build build pool p client c cost 1 0 run "./no such command" "{key}"
"""


def items(count):
    return "[" + ", ".join(f'"{n}"' for n in range(count)) + "]"


def events_pipeline(nodes, held):
    lines = ["pipeline 1", 'input one text "start"', 'input rest text "rest"', f"input keys list {items(held)}", OPERATIONS.strip()]
    lines += ["node held (list_map key (input keys) (build danger (var key)))", "node first (map length (input one))"]
    lines += [f"node n{n} (pair (input rest) (return {n}))" for n in range(nodes - 2)]
    return "\n".join(lines) + "\n"


def queue_pipeline(jobs):
    lines = ["pipeline 1", f"input keys list {items(min(jobs, ITEMS))}", OPERATIONS.strip()]
    for n in range(max(1, jobs // ITEMS)):
        key = f'(map concat (pair (return "{n} ") (var key)))'
        lines.append(f"node n{n} (list_map key (input keys) (build build {key}))")
    return "\n".join(lines) + "\n"


def written(folder, name, text):
    path = os.path.join(folder, name)
    with open(path, "w", encoding="utf-8") as f:
        f.write(text)
    return path


KINDS = [
    ("an input is set", 0, [f'set one "{n}"' for n in range(EVENTS)]),
    ("a job is confirmed", HELD, [f"confirm {n}" for n in range(1, HELD + 1)]),
    ("a tick", 0, ["tick"] * EVENTS),
]


def event(program, folder, nodes, held, lines):
    """The microseconds of one of the lines; no order is taken."""
    words = [program, "run", written(folder, "p", events_pipeline(nodes, held)), "--confirm", "dangerous"]
    bare = fastest(RUNS, words, written(folder, "before", "pause w\n"))
    return 1e6 * (fastest(RUNS, words, written(folder, "lines", "\n".join(["pause w", *lines, ""]))) - bare) / len(lines)


def order(program, folder, jobs):
    """The microseconds of an order."""
    ends = []
    words = [program, "run", written(folder, "q", queue_pipeline(jobs))]
    with subprocess.Popen(words, stdin=subprocess.DEVNULL, stdout=subprocess.PIPE) as run:
        for line in run.stdout:
            if line.startswith(b"end "):
                ends.append(time.perf_counter())
            if len(ends) > ORDERS:
                break
        run.kill()
    return 1e6 * (ends[-1] - ends[0]) / ORDERS


def main():
    program = built_program()
    with tempfile.TemporaryDirectory() as folder:
        for what, held, lines in KINDS:
            few, many = (event(program, folder, nodes, held, lines) for nodes in NODES)
            print(f"{what}, at {NODES[0]} and {NODES[1]} nodes: {few:.0f} and {many:.0f} microseconds; ratio {many / few:.1f}")
        few, many = (order(program, folder, jobs) for jobs in QUEUED)
        print(f"an order, at {QUEUED[0]} and {QUEUED[1]} queued: {few:.0f} and {many:.0f} microseconds; ratio {many / few:.1f}")


main()
