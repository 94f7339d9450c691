#!/usr/bin/env python3
"""Measures commits and the opening of a store, beside the sqlite3 shell doing the same on a file.

Build the program first: `rt run` or `rt ci` leave it in crates/current_cli/out. Commits: a session sets an input 1,000 times on
a store, and the shell makes the statements of these commits in as many transactions, in the journal mode of the store and with
`synchronous=FULL`. Opening: `stats` reads and tests a store of 20,000 results; the shell reads every column of every row. Each
is run five times, and the fastest run counts.
"""
import hashlib
import os
import shutil
import sqlite3
import subprocess
import sys
import tempfile

from running import built_program, fastest

COMMITS = 1000
RESULTS = 20000
RUNS = 5

PIPELINE = """pipeline 1
input head text "0"
pool p hold 0
client c p 1
worker w p 1
op f build pool p client c cost 1 0 run "echo" "one"
node tip (input head)
"""


def written(folder, name, text):
    path = os.path.join(folder, name)
    with open(path, "w", encoding="utf-8") as f:
        f.write(text)
    return path


def fresh_store(program, folder, name):
    """A store with the program's own tables and no result."""
    path = os.path.join(folder, name)
    subprocess.run([program, "stats", "--store", path], check=True, stdout=subprocess.DEVNULL)
    return path


def commits(program, folder):
    store = os.path.join(folder, "commits")
    peer = fresh_store(program, folder, "peer")
    journal = sqlite3.connect(peer).execute("PRAGMA journal_mode").fetchone()[0]
    lines = "".join(f'set head "{n}"\n' for n in range(1, COMMITS + 1))
    statements = f"PRAGMA journal_mode={journal};\nPRAGMA synchronous=FULL;\n" + "".join(
        "BEGIN;\n"
        "UPDATE meta SET next_job = 1 WHERE id = 1;\n"
        f"INSERT OR REPLACE INTO inputs VALUES ('head', '\"{n}\"');\n"
        "COMMIT;\n"
        for n in range(COMMITS + 1)
    )
    given, file = written(folder, "lines", lines), written(folder, "p", PIPELINE)
    ours = fastest(RUNS, [program, "run", file, "--store", store], given)
    bare = fastest(RUNS, [program, "run", file], given)
    shell = fastest(RUNS, ["sqlite3", peer], written(folder, "statements", statements))
    print(f"{COMMITS} commits: run --store {ours:.2f} s, sqlite3 {shell:.2f} s; ratio {ours / shell:.2f} (run in memory: {bare:.2f} s)")


def opening(program, folder):
    store = fresh_store(program, folder, "results")
    rows = sqlite3.connect(store)
    for n in range(RESULTS):
        key = f"commit {n}"
        khash = hashlib.sha256(key.encode()).digest()
        rows.execute("INSERT INTO cache2 VALUES ('f', ?, ?, '', 1, '\"out\"', 0, ?, 0)", (khash, key, n + 1))
    rows.execute("UPDATE meta SET next_job = ?", (RESULTS + 1,))
    rows.commit()
    rows.close()
    out = os.path.join(folder, "out")
    ours = fastest(RUNS, [program, "stats", "--store", store], taken=out)
    with open(out, encoding="utf-8") as f:
        first = f.readline().strip()
    text = "SELECT * FROM meta; SELECT * FROM inputs; SELECT * FROM cache2; SELECT job FROM logs;"
    shell = fastest(RUNS, ["sqlite3", store, text])
    print(f"opening ({first}): stats {ours:.3f} s, sqlite3 {shell:.3f} s; ratio {ours / shell:.2f}")


def main():
    program = built_program()
    with tempfile.TemporaryDirectory() as folder:
        commits(program, folder)
        opening(program, folder)


if shutil.which("sqlite3") is None:
    sys.exit("sqlite3 is missing: nothing measured")
main()
