#!/usr/bin/env python3
"""Commits of 20 rows of 1,000 bytes: by the store, by its statements alone, and by Python's sqlite3.

    bench/commits.py [COMMITS [RUNS]]

Builds the program of bench/commits/main.txt in a copy of the repository, over the proofs that this machine has kept, and has the
three make so many commits in turn, each in a file of its own that is new (WAL, synchronous FULL). Prints the medians, in
commits a second, and their ratios; then how long a look at a key takes that isn't there.
"""
import os, shutil, sqlite3, statistics, subprocess, sys, tempfile, time

ROOT = os.path.dirname(os.path.dirname(os.path.abspath(__file__)))
COMMITS = int(sys.argv[1]) if len(sys.argv) > 1 else 500
RUNS = int(sys.argv[2]) if len(sys.argv) > 2 else 5
LINE = "bench_commits: wef_base wef_keeper wef_sqlite sqlite\n"
CREATE = ("CREATE TABLE kept (kind INTEGER NOT NULL, sub TEXT NOT NULL, source TEXT NOT NULL, channel TEXT NOT NULL, number INTEGER NOT NULL,"
          " value INTEGER NOT NULL, body TEXT NOT NULL, PRIMARY KEY (kind, sub, source, channel, number)) STRICT")
PUT = "INSERT OR REPLACE INTO kept VALUES (?, ?, ?, ?, ?, ?, ?)"


def built(folder):
    """The path of the program."""
    copy = os.path.join(folder, "repository")
    shutil.copytree(ROOT, copy, ignore=shutil.ignore_patterns("out", ".git", "must-fail", "wrong-bodies"))
    crate = os.path.join(copy, "crates", "bench_commits")
    os.makedirs(os.path.join(crate, "src"))
    shutil.copy(os.path.join(ROOT, "bench", "commits", "main.txt"), os.path.join(crate, "src", "main.rt"))
    with open(os.path.join(copy, "crates.txt"), "a") as lines:
        lines.write(LINE)
    subprocess.run(["rt", "run", "--", "store", "0", os.path.join(folder, "none.db")], cwd=crate, check=True, stdout=subprocess.DEVNULL)
    return os.path.join(crate, "out", "bench_commits")


def by_python(path):
    conn = sqlite3.connect(path, isolation_level=None)
    conn.execute("PRAGMA journal_mode = WAL")
    conn.execute("PRAGMA synchronous = FULL")
    conn.execute(CREATE)
    body = "0123456789" * 100
    for commit in range(COMMITS):
        conn.execute("BEGIN")
        for place in range(20):
            number = commit * 20 + place
            conn.execute(PUT, (3, "base", "pc1.example.org", "Application", number, number, body))
        conn.execute("COMMIT")
    conn.close()


def seconds(call):
    start = time.monotonic()
    call()
    return time.monotonic() - start


def main():
    with tempfile.TemporaryDirectory() as folder:
        program = built(folder)
        times = {"store": [], "statements": [], "python": []}
        for run in range(RUNS):
            for mode in times:
                path = os.path.join(folder, f"{mode}{run}.db")
                call = (lambda: by_python(path)) if mode == "python" else (lambda: subprocess.run([program, mode, str(COMMITS), path], check=True, stdout=subprocess.DEVNULL))
                times[mode].append(seconds(call))
        rates = {mode: COMMITS / statistics.median(taken) for mode, taken in times.items()}
        for mode, rate in rates.items():
            print(f"{mode:10} {rate:8.0f} commits a second")
        print(f"store / python      {rates['store'] / rates['python']:.2f}")
        print(f"statements / store  {rates['statements'] / rates['store']:.2f}")
        path = os.path.join(folder, "store0.db")
        none = seconds(lambda: subprocess.run([program, "absent", "0", path], check=True, stdout=subprocess.DEVNULL))
        many = seconds(lambda: subprocess.run([program, "absent", "100000", path], check=True, stdout=subprocess.DEVNULL))
        print(f"a key that isn't there {(many - none) * 10:.1f} microseconds")


if __name__ == "__main__":
    main()
