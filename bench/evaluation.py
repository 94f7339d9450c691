#!/usr/bin/env python3
"""Measures evaluations a second beside the same evaluator written plainly in Rust.

Two pipelines: 682 nodes of six terms each, and one list term over 256 items. The program of
evaluation/main.rattle is proved and built in a folder beside the repository's crates, which takes
some minutes the first time; `rustc -O` builds evaluation/plain.rs. Each is run three times with
many rounds and with none, and the fastest of each counts; the difference is the evaluation alone.
"""
import os
import shutil
import subprocess
import sys
import tempfile
import time

from running import laid_out

RUNS = 3
CASES = [("nodes", 300), ("list", 3000)]
BELOW = ["value_core", "op_keys", "term_core"]


def build(top, folder):
    here = os.path.join(top, "bench", "evaluation")
    ours = laid_out(folder, BELOW, "evaluations", "evaluation")
    os.makedirs(os.path.join(ours, "proofs", "run"))
    shutil.copy(os.path.join(here, "ghosts.txt"), os.path.join(ours, "proofs", "run", "Invariants.antt"))
    subprocess.run(["rt", "run", "--", "list", "0"], cwd=ours, check=True)
    peer = os.path.join(folder, "plain")
    subprocess.run(["rustc", "-O", "-o", peer, os.path.join(here, "plain.rs")], check=True)
    return os.path.join(ours, "out", "evaluations"), peer


def seconds(program, what, rounds):
    best, visits = None, 0
    for _ in range(RUNS):
        start = time.perf_counter()
        run = subprocess.run([program, what, str(rounds)], capture_output=True, check=True)
        took = time.perf_counter() - start
        visits = int(run.stdout)
        best = took if best is None else min(best, took)
    return best, visits


def main():
    top = os.path.dirname(os.path.dirname(os.path.abspath(__file__)))
    with tempfile.TemporaryDirectory() as folder:
        ours, peer = build(top, folder)
        for what, rounds in CASES:
            rates = []
            for program in (ours, peer):
                idle, _ = seconds(program, what, 0)
                busy, visits = seconds(program, what, rounds)
                rates.append(visits / max(busy - idle, 1e-9))
            print(f"{what}: {rates[0]:.0f} terms a second, plain Rust {rates[1]:.0f}; ratio {rates[1] / rates[0]:.2f}")


if shutil.which("rustc") is None:
    sys.exit("rustc is missing: nothing measured")
main()
