#!/usr/bin/env python3
"""What it costs a collector to find its next request where none is due, so that all leases are read.

    bench/requests.py [SUBSCRIPTIONS [SOURCES]]

256 subscriptions that the collector begins at 1,000 sources each where the numbers aren't given, each with a lease, in a store in
memory: lines of the task `ends pairs` of the built tests_lines, which look for what is due once and six times. Prints the seconds of
one look and the peak memory.
"""
import os, resource, subprocess, sys, time

ROOT = os.path.dirname(os.path.dirname(os.path.abspath(__file__)))
PROGRAM = os.path.join(ROOT, "crates", "tests_lines", "out", "tests_lines")
SUBSCRIPTIONS = int(sys.argv[1]) if len(sys.argv) > 1 else 256
SOURCES = int(sys.argv[2]) if len(sys.argv) > 2 else 1000
MORE = 5


def lines(looks):
    """A store in which no lease is due, and so many looks for one that is."""
    names = [f"link{n:03}" for n in range(SUBSCRIPTIONS)]
    sources = [f"pc{n:05}" for n in range(SOURCES)]
    steps = [f"live {name} 3600 {','.join(sources)}" for name in names]
    steps += [f"lease {name} {source} 1000000000 uuid:00000000-0000-0001-0000-{n:012x}" for name in names for n, source in enumerate(sources)]
    return "=== ends pairs: none is due\n" + "; ".join(steps + ["due 1000"] * looks) + "\n"


def seconds(looks):
    text = lines(looks).encode()
    start = time.monotonic()
    shown = subprocess.run([PROGRAM], input=text, check=True, capture_output=True).stdout.decode()
    taken = time.monotonic() - start
    assert shown.rstrip().endswith("; ".join(["nothing"] * looks)), shown[-200:]
    return taken


def main():
    one, more = seconds(1), seconds(1 + MORE)
    pairs = SUBSCRIPTIONS * SOURCES
    print(f"{pairs} pairs: {(more - one) / MORE:.2f} seconds a look, {(more - one) / MORE / pairs * 1e6:.1f} microseconds a pair")
    print(f"peak {resource.getrusage(resource.RUSAGE_CHILDREN).ru_maxrss // 1024} MiB")


if __name__ == "__main__":
    main()
