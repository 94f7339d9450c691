"""What the measurements of the program share: where it was built, and the fastest of several runs."""
import os
import shutil
import subprocess
import sys
import time


def built_program():
    top = os.path.dirname(os.path.dirname(os.path.abspath(__file__)))
    program = os.path.join(top, "crates", "current_cli", "out", "current_cli")
    if not os.path.exists(program):
        sys.exit("build it first: (cd crates/current_cli && rt run)")
    return program


def fastest(runs, words, given=os.devnull, taken=os.devnull, folder=None):
    """The seconds of the fastest run, which reads the file `given` and writes the file `taken`."""
    best = None
    for _ in range(runs):
        with open(given, "rb") as source, open(taken, "wb") as sink:
            start = time.perf_counter()
            status = subprocess.run(words, cwd=folder, stdin=source, stdout=sink, check=False).returncode
            took = time.perf_counter() - start
        if status != 0:
            sys.exit(f"{words[0]} ended with status {status}")
        best = took if best is None else min(best, took)
    return best


def laid_out(folder, crates, name, source):
    """Copies these crates and a program of this name and source into a folder, and answers where the program is."""
    top = os.path.dirname(os.path.dirname(os.path.abspath(__file__)))
    for crate in crates:
        shutil.copytree(
            os.path.join(top, "crates", crate),
            os.path.join(folder, "crates", crate),
            ignore=shutil.ignore_patterns("out", "must-fail"),
        )
    ours = os.path.join(folder, "crates", name)
    os.makedirs(os.path.join(ours, "src"))
    shutil.copy(os.path.join(top, "bench", source, "main.rattle"), os.path.join(ours, "src", "main.rt"))
    with open(os.path.join(top, "crates.txt"), encoding="utf-8") as f:
        lines = [line for line in f if line.split(":")[0] in crates]
    with open(os.path.join(folder, "crates.txt"), "w", encoding="utf-8") as f:
        f.writelines(lines)
        f.write(f"{name}: {' '.join(crates)} sqlite_items\n")
    return ours
